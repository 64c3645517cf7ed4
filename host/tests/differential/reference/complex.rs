//! Complex values.

use std::ops::{Add, Mul, Neg};

/// "complex values are whole-number pairs (re, im), 32 bits signed each"
#[derive(Clone, Copy, PartialEq, Eq, Debug)]
pub struct Complex {
    pub re: i32,
    pub im: i32,
}

/// 1.
pub(super) const ONE: Complex = Complex { re: 1, im: 0 };

/// "j is the imaginary unit"
pub(super) const J: Complex = Complex { re: 0, im: 1 };

impl Complex {
    /// The same value for sums and products.
    pub(super) fn wide(self) -> Wide {
        Wide { re: self.re.into(), im: self.im.into() }
    }
}

impl Neg for Complex {
    type Output = Complex;

    fn neg(self) -> Complex {
        Complex { re: -self.re, im: -self.im }
    }
}

/// A complex value in 64 bits, in which sums and products are taken.
#[derive(Clone, Copy, PartialEq, Eq, Debug)]
pub(super) struct Wide {
    pub(super) re: i64,
    pub(super) im: i64,
}

/// The empty sum.
pub(super) const ZERO: Wide = Wide { re: 0, im: 0 };

impl Wide {
    /// "conj the conjugate"
    pub(super) fn conj(self) -> Wide {
        Wide { re: self.re, im: -self.im }
    }

    /// The same value in 32 bits. Every chip and reading fits.
    pub(super) fn narrow(self) -> Complex {
        Complex {
            re: i32::try_from(self.re).expect("a real part in 32 bits"),
            im: i32::try_from(self.im).expect("an imaginary part in 32 bits"),
        }
    }
}

impl Add for Wide {
    type Output = Wide;

    fn add(self, other: Wide) -> Wide {
        Wide { re: self.re + other.re, im: self.im + other.im }
    }
}

impl Mul for Wide {
    type Output = Wide;

    fn mul(self, other: Wide) -> Wide {
        Wide { re: self.re * other.re - self.im * other.im, im: self.re * other.im + self.im * other.re }
    }
}

/// A real number times a complex value.
impl Mul<Wide> for i64 {
    type Output = Wide;

    fn mul(self, other: Wide) -> Wide {
        Wide { re: self * other.re, im: self * other.im }
    }
}
