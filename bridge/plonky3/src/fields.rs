//! The fields that `air_check` knows, by their names.

// (All of it: `as_canonical_u64` is a method of one of its traits.)
use p3_field::*;

mod sealed {
    pub trait Sealed {}
}

/// A field whose AIRs can be audited, exported and imported: BabyBear, and by features of this crate KoalaBear,
/// Mersenne31 and Goldilocks.
///
/// Nothing else implements it: `air_check` knows these four, and reads each number as an element of the named field.
pub trait AuditedField:
    Field + PrimeCharacteristicRing<PrimeSubfield = Self> + sealed::Sealed
{
    /// The name in the object.
    const NAME: &'static str;

    /// The whole number below the modulus that the element stands for. (serde may write another one: BabyBear's and
    /// KoalaBear's own are in Montgomery form.)
    fn canonical(self) -> u64;

    /// The element that a whole number stands for, if the number is below the modulus.
    fn from_canonical(number: u64) -> Option<Self> {
        let element = Self::from_u64(number);
        (element.canonical() == number).then_some(element)
    }
}

macro_rules! audited_field {
    ($field:ty, $name:literal) => {
        impl sealed::Sealed for $field {}

        impl AuditedField for $field {
            const NAME: &'static str = $name;

            fn canonical(self) -> u64 {
                self.as_canonical_u64()
            }
        }
    };
}

audited_field!(p3_baby_bear::BabyBear, "BabyBear");
#[cfg(feature = "koala-bear")]
audited_field!(p3_koala_bear::KoalaBear, "KoalaBear");
#[cfg(feature = "mersenne-31")]
audited_field!(p3_mersenne_31::Mersenne31, "Mersenne31");
#[cfg(feature = "goldilocks")]
audited_field!(p3_goldilocks::Goldilocks, "Goldilocks");
