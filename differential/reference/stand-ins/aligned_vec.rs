//! The part of `aligned_vec` that the reference uses: a `Vec`, whatever alignment is asked for.

use std::marker::PhantomData;
use std::ops::{Deref, DerefMut};

pub trait Alignment {}

pub struct ConstAlign<const N: usize>;

impl<const N: usize> Alignment for ConstAlign<N> {}

pub struct AVec<T, A: Alignment> {
    inner: Vec<T>,
    alignment: PhantomData<A>,
}

impl<T, A: Alignment> AVec<T, A> {
    pub fn with_capacity(_align: usize, capacity: usize) -> AVec<T, A> {
        Vec::with_capacity(capacity).into()
    }

    pub fn push(&mut self, x: T) {
        self.inner.push(x);
    }
}

impl<T: Clone, A: Alignment> AVec<T, A> {
    pub fn extend_from_slice(&mut self, s: &[T]) {
        self.inner.extend_from_slice(s);
    }
}

impl<T, A: Alignment> From<Vec<T>> for AVec<T, A> {
    fn from(inner: Vec<T>) -> AVec<T, A> {
        AVec {
            inner,
            alignment: PhantomData,
        }
    }
}

impl<T, A: Alignment> Deref for AVec<T, A> {
    type Target = [T];

    fn deref(&self) -> &[T] {
        &self.inner
    }
}

impl<T, A: Alignment> DerefMut for AVec<T, A> {
    fn deref_mut(&mut self) -> &mut [T] {
        &mut self.inner
    }
}

#[macro_export]
macro_rules! avec {
    ([$align:expr] | $x:expr; $n:expr) => {
        $crate::AVec::from(vec![$x; $n])
    };
}
