//! Builders that fold constraints by powers of a challenge, as the builders of provers and verifiers do.

use p3_air::{AirBuilder, PassthroughNamedAirBuilder, RowWindow};
use p3_field::{Algebra, Field, PrimeCharacteristicRing};
use std::array;
use std::iter::{Product, Sum};
use std::ops::{Add, AddAssign, Mul, MulAssign, Neg, Sub, SubAssign};

/// The values that a folder reads: this row and the next one of both traces, the periodic columns, the selectors.
pub struct Point<E> {
    pub main: [Vec<E>; 2],
    pub preprocessed: [Vec<E>; 2],
    pub periodic: Vec<E>,
    pub selectors: [E; 3],
}

/// A folder with values in `E`, an algebra over `F`: packed elements of `F` as in a prover, or an extension of `F` as
/// in a verifier. Public values are in `F`.
pub struct Folder<'a, F, E> {
    point: &'a Point<E>,
    preprocessed: RowWindow<'a, E>,
    public_values: &'a [F],
    alpha: E,
    pub folded: E,
    pub count: usize,
}

impl<'a, F, E: PrimeCharacteristicRing + Copy> Folder<'a, F, E> {
    pub fn new(point: &'a Point<E>, public_values: &'a [F], alpha: E) -> Self {
        Self {
            point,
            preprocessed: RowWindow::from_two_rows(&point.preprocessed[0], &point.preprocessed[1]),
            public_values,
            alpha,
            folded: E::ZERO,
            count: 0,
        }
    }
}

impl<'a, F, E> AirBuilder for Folder<'a, F, E>
where
    F: Field,
    E: Algebra<F> + Algebra<E> + Copy + Send + Sync,
{
    type F = F;
    type Expr = E;
    type Var = E;
    type PreprocessedWindow = RowWindow<'a, E>;
    type MainWindow = RowWindow<'a, E>;
    type PublicVar = F;
    type PeriodicVar = E;

    fn main(&self) -> Self::MainWindow {
        RowWindow::from_two_rows(&self.point.main[0], &self.point.main[1])
    }

    fn preprocessed(&self) -> &Self::PreprocessedWindow {
        &self.preprocessed
    }

    fn is_first_row(&self) -> E {
        self.point.selectors[0]
    }

    fn is_last_row(&self) -> E {
        self.point.selectors[1]
    }

    fn is_transition(&self) -> E {
        self.point.selectors[2]
    }

    fn assert_zero<I: Into<E>>(&mut self, x: I) {
        self.folded = self.folded * self.alpha + x.into();
        self.count += 1;
    }

    fn public_values(&self) -> &[F] {
        self.public_values
    }

    fn periodic_values(&self) -> &[E] {
        &self.point.periodic
    }
}

impl<F, E> PassthroughNamedAirBuilder for Folder<'_, F, E>
where
    F: Field,
    E: Algebra<F> + Algebra<E> + Copy + Send + Sync,
{
}

/// Four elements at once: a ring that isn't a field.
#[derive(Clone, Copy, Debug, PartialEq, Eq)]
pub struct Packed<F>(pub [F; 4]);

impl<F: Field> Packed<F> {
    fn all(x: F) -> Self {
        Self([x; 4])
    }

    fn each(self, y: Self, operation: impl Fn(F, F) -> F) -> Self {
        Self(array::from_fn(|at| operation(self.0[at], y.0[at])))
    }
}

impl<F: Field> Default for Packed<F> {
    fn default() -> Self {
        Self::all(F::ZERO)
    }
}

impl<F: Field> From<F> for Packed<F> {
    fn from(x: F) -> Self {
        Self::all(x)
    }
}

macro_rules! operation {
    ($trait:ident, $call:ident, $assign:ident, $assign_call:ident) => {
        impl<F: Field> $trait for Packed<F> {
            type Output = Self;
            fn $call(self, y: Self) -> Self {
                self.each(y, F::$call)
            }
        }

        impl<F: Field> $trait<F> for Packed<F> {
            type Output = Self;
            fn $call(self, y: F) -> Self {
                self.each(Self::all(y), F::$call)
            }
        }

        impl<F: Field> $assign for Packed<F> {
            fn $assign_call(&mut self, y: Self) {
                *self = self.each(y, F::$call);
            }
        }

        impl<F: Field> $assign<F> for Packed<F> {
            fn $assign_call(&mut self, y: F) {
                *self = self.each(Self::all(y), F::$call);
            }
        }
    };
}

operation!(Add, add, AddAssign, add_assign);
operation!(Sub, sub, SubAssign, sub_assign);
operation!(Mul, mul, MulAssign, mul_assign);

impl<F: Field> Neg for Packed<F> {
    type Output = Self;
    fn neg(self) -> Self {
        Self(self.0.map(Neg::neg))
    }
}

impl<F: Field> Sum for Packed<F> {
    fn sum<I: Iterator<Item = Self>>(iter: I) -> Self {
        iter.fold(Self::default(), |sum, x| sum + x)
    }
}

impl<F: Field> Product for Packed<F> {
    fn product<I: Iterator<Item = Self>>(iter: I) -> Self {
        iter.fold(Self::all(F::ONE), |product, x| product * x)
    }
}

impl<F: Field> PrimeCharacteristicRing for Packed<F> {
    type PrimeSubfield = F::PrimeSubfield;
    const ZERO: Self = Self([F::ZERO; 4]);
    const ONE: Self = Self([F::ONE; 4]);
    const TWO: Self = Self([F::TWO; 4]);
    const NEG_ONE: Self = Self([F::NEG_ONE; 4]);
    fn from_prime_subfield(f: Self::PrimeSubfield) -> Self {
        Self::all(F::from_prime_subfield(f))
    }
}

impl<F: Field> Algebra<F> for Packed<F> {}
