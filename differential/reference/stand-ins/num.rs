//! The part of `num` that the reference uses: complex numbers of two f32, added part by part.

pub mod complex {
    #[derive(Debug, Clone, Copy, PartialEq)]
    pub struct Complex32 {
        pub re: f32,
        pub im: f32,
    }

    impl Complex32 {
        pub const fn new(re: f32, im: f32) -> Complex32 {
            Complex32 { re, im }
        }
    }

    impl std::ops::AddAssign for Complex32 {
        fn add_assign(&mut self, other: Complex32) {
            self.re += other.re;
            self.im += other.im;
        }
    }
}
