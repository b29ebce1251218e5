//! What the module's text leans on and does not hold: the ground operations, spelled out rule by rule, and empty shapes so that it compiles whole.
//! Every operation rounds once to the width, in the written order.

pub mod math {
    use core::ops::{Add, AddAssign, Mul, Neg, Sub, SubAssign};

    pub use crate::width::Real;

    /// `x.max_of(y)`: y if x < y or x is NaN, else x.
    pub trait MaxOf {
        fn max_of(self, y: Self) -> Self;
    }

    impl MaxOf for Real {
        fn max_of(self, y: Real) -> Real {
            if self < y || self.is_nan() {
                y
            } else {
                self
            }
        }
    }

    #[derive(Copy, Clone, Debug, Default, PartialEq)]
    pub struct Vector {
        pub x: Real,
        pub y: Real,
    }

    impl Vector {
        pub const ZERO: Self = Self { x: 0.0, y: 0.0 };

        pub fn new(x: Real, y: Real) -> Self {
            Self { x, y }
        }

        pub fn splat(k: Real) -> Self {
            Self { x: k, y: k }
        }

        pub fn dot(self, b: Self) -> Real {
            self.x * b.x + self.y * b.y
        }

        pub fn perp_dot(self, b: Self) -> Real {
            self.x * b.y - self.y * b.x
        }

        pub fn length(self) -> Real {
            self.dot(self).sqrt()
        }

        pub fn distance(self, q: Self) -> Real {
            (self - q).length()
        }

        pub fn normalize_or_zero(self) -> Self {
            let r = 1.0 / self.length();
            if r.is_finite() && r > 0.0 {
                Self::new(self.x * r, self.y * r)
            } else {
                Self::ZERO
            }
        }

        pub fn lerp(self, b: Self, t: Real) -> Self {
            Self::new(self.x * (1.0 - t) + b.x * t, self.y * (1.0 - t) + b.y * t)
        }

        pub fn min(self, b: Self) -> Self {
            Self::new(self.x.min(b.x), self.y.min(b.y))
        }

        pub fn max(self, b: Self) -> Self {
            Self::new(self.x.max_of(b.x), self.y.max_of(b.y))
        }
    }

    impl Add for Vector {
        type Output = Self;
        fn add(self, b: Self) -> Self {
            Self::new(self.x + b.x, self.y + b.y)
        }
    }

    impl Sub for Vector {
        type Output = Self;
        fn sub(self, b: Self) -> Self {
            Self::new(self.x - b.x, self.y - b.y)
        }
    }

    impl Neg for Vector {
        type Output = Self;
        fn neg(self) -> Self {
            Self::new(-self.x, -self.y)
        }
    }

    impl Mul<Vector> for Real {
        type Output = Vector;
        fn mul(self, v: Vector) -> Vector {
            Vector::new(self * v.x, self * v.y)
        }
    }

    impl AddAssign for Vector {
        fn add_assign(&mut self, b: Self) {
            *self = *self + b;
        }
    }

    impl SubAssign for Vector {
        fn sub_assign(&mut self, b: Self) {
            *self = *self - b;
        }
    }

    /// Cosine and sine.
    #[derive(Copy, Clone, Debug, Default, PartialEq)]
    pub struct Rotation {
        pub c: Real,
        pub s: Real,
    }

    impl Rotation {
        pub fn transform_vector(self, v: Vector) -> Vector {
            Vector::new(self.c * v.x - self.s * v.y, self.s * v.x + self.c * v.y)
        }

        pub fn inverse_transform_vector(self, v: Vector) -> Vector {
            Vector::new(self.c * v.x + self.s * v.y, self.c * v.y - self.s * v.x)
        }

        pub fn lerp(self, b: Self, t: Real) -> Self {
            let u = 1.0 - t;
            Self {
                c: u * self.c + t * b.c,
                s: u * self.s + t * b.s,
            }
        }

        pub fn normalize(self) -> Self {
            let m = (self.s * self.s + self.c * self.c).sqrt();
            let k = if m > 0.0 { 1.0 / m } else { 0.0 };
            Self {
                c: self.c * k,
                s: self.s * k,
            }
        }
    }

    #[derive(Copy, Clone, Debug, Default, PartialEq)]
    pub struct Pose {
        pub rotation: Rotation,
        pub translation: Vector,
    }

    impl Pose {
        pub fn from_parts(translation: Vector, rotation: Rotation) -> Self {
            Self {
                rotation,
                translation,
            }
        }

        pub fn transform_point(&self, v: Vector) -> Vector {
            self.rotation.transform_vector(v) + self.translation
        }

        pub fn inv_mul(&self, b: &Self) -> Self {
            let (qa, qb) = (self.rotation, b.rotation);
            Self {
                rotation: Rotation {
                    c: qa.c * qb.c + qa.s * qb.s,
                    s: qa.c * qb.s - qa.s * qb.c,
                },
                translation: qa.inverse_transform_vector(b.translation - self.translation),
            }
        }
    }
}

pub mod bounding_volume {
    use crate::math::Vector;

    pub struct Aabb {
        pub mins: Vector,
        pub maxs: Vector,
    }

    impl Aabb {
        pub fn new(mins: Vector, maxs: Vector) -> Self {
            Self { mins, maxs }
        }
    }
}

/// Shapes with the fields that the module's text names. None is ever made; `Cuboid` has the Rust's function that numbers a corner.
pub mod shape {
    use crate::math::{Real, Vector};

    pub struct Ball {
        pub radius: Real,
    }
    pub struct Cuboid {
        pub half_extents: Vector,
    }
    pub struct Segment {
        pub a: Vector,
        pub b: Vector,
    }
    pub struct Capsule {
        pub segment: Segment,
        pub radius: Real,
    }
    pub struct Triangle {
        pub a: Vector,
        pub b: Vector,
        pub c: Vector,
    }
    pub struct Round<S> {
        pub inner_shape: S,
        pub border_radius: Real,
    }

    pub enum TypedShape<'a> {
        Ball(&'a Ball),
        Cuboid(&'a Cuboid),
        RoundCuboid(&'a Round<Cuboid>),
        Capsule(&'a Capsule),
        Segment(&'a Segment),
        Triangle(&'a Triangle),
        RoundTriangle(&'a Round<Triangle>),
        Other,
    }

    pub trait Shape {
        fn as_typed_shape(&self) -> TypedShape<'_>;
    }
}
