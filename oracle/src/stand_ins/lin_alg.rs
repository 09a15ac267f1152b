//! Stand-in for the crate `lin_alg`: what the original file needs of it, as the rules decide.
//! Every operation goes component by component and rounds once.

pub mod f32 {
    use std::ops::{Add, AddAssign, Div, Mul, Sub};

    #[derive(Clone, Copy, Debug, Default, PartialEq)]
    pub struct Vec3 {
        pub x: f32,
        pub y: f32,
        pub z: f32,
    }

    impl Vec3 {
        #[inline]
        pub fn new(x: f32, y: f32, z: f32) -> Self {
            Self { x, y, z }
        }

        #[inline]
        pub fn new_zero() -> Self {
            Self::new(0.0, 0.0, 0.0)
        }

        #[inline]
        pub fn splat(v: f32) -> Self {
            Self::new(v, v, v)
        }

        /// x * x + y * y + z * z, left to right.
        #[inline]
        pub fn magnitude_squared(self) -> f32 {
            self.x * self.x + self.y * self.y + self.z * self.z
        }
    }

    impl Add for Vec3 {
        type Output = Self;
        #[inline]
        fn add(self, o: Self) -> Self {
            Self::new(self.x + o.x, self.y + o.y, self.z + o.z)
        }
    }

    impl AddAssign for Vec3 {
        #[inline]
        fn add_assign(&mut self, o: Self) {
            *self = *self + o;
        }
    }

    impl Sub for Vec3 {
        type Output = Self;
        #[inline]
        fn sub(self, o: Self) -> Self {
            Self::new(self.x - o.x, self.y - o.y, self.z - o.z)
        }
    }

    impl Mul<f32> for Vec3 {
        type Output = Self;
        #[inline]
        fn mul(self, k: f32) -> Self {
            Self::new(self.x * k, self.y * k, self.z * k)
        }
    }

    impl Div<f32> for Vec3 {
        type Output = Self;
        #[inline]
        fn div(self, k: f32) -> Self {
            Self::new(self.x / k, self.y / k, self.z / k)
        }
    }
}

type Float = core::primitive::f32;

/// Named by the original's `map_to_aqsoldb`, which is left out of the port and never called here.
pub fn map_linear(v: Float, from: (Float, Float), to: (Float, Float)) -> Float {
    (v - from.0) / (from.1 - from.0) * (to.1 - to.0) + to.0
}
