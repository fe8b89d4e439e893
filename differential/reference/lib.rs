//! The reference: the published sources with the changes listed in CHANGES.md, as one crate. The build copies the
//! published files beside this one and changes them there.
#![allow(unused, unstable_name_collisions)]

pub mod constants;
pub mod io;
pub mod math;
pub mod mode_ac;
pub mod mode_s;
pub mod simulation;

// These two stand in receiver.rs, which is not carried over.
pub const ALIGN: usize = 64;
pub type AVec<T> = aligned_vec::AVec<T, aligned_vec::ConstAlign<ALIGN>>;
