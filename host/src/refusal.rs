//! Why a call was refused.
use std::error::Error;
use std::fmt;

/// A refusal, by its number from document 01. The constants have the names of C's in include/tdd_refusals.h, without `TDD_REFUSED_`.
///
/// ```
/// use smugolec::{Bench, Refusal};
///
/// let mut bench = Bench::fresh();
/// bench.open(4, 1, 3)?;
/// assert_eq!(bench.open(16, 5, 1), Err(Refusal::RELATED));
/// assert_eq!(Refusal::RELATED.to_string(), "refused 6: the code is related to an open code");
/// # Ok::<(), Refusal>(())
/// ```
#[derive(Clone, Copy, Debug, PartialEq, Eq)]
pub struct Refusal(pub u32);

/// Makes the constants, their names and the words of one table.
macro_rules! refusals {
    ($($name:ident = $number:literal, $words:literal;)+) => {
        impl Refusal {
            $(
                #[doc = concat!($number, ": ", $words)]
                pub const $name: Refusal = Refusal($number);
            )+

            /// Every refusal.
            pub const ALL: &[Refusal] = &[$(Refusal::$name),+];

            /// The name of its constant, as `"RELATED"`; none where no refusal has this number.
            #[deny(unreachable_patterns)] // a number that stands twice does not compile
            pub fn name(self) -> Option<&'static str> {
                match self.0 {
                    $($number => Some(stringify!($name)),)+
                    _ => None,
                }
            }

            /// What was wrong, in the words of the program's call `refusals`.
            #[deny(unreachable_patterns)]
            pub fn meaning(self) -> &'static str {
                match self.0 {
                    $($number => $words,)+
                    _ => "no refusal has this number",
                }
            }
        }
    };
}

refusals! {
    CELL_OR_GROUP = 1, "the cell parameter is above 127, or the code group above 31";
    BURST_TYPE = 2, "the burst type is not 1, 2 or 3";
    SPREADING_FACTOR = 3, "the spreading factor is not 1, 2, 4, 8 or 16";
    CODE_INDEX = 4, "the code's index is not below its spreading factor";
    GAIN = 5, "a gain is not 1 to 4095";
    RELATED = 6, "the code is related to an open code";
    NOT_OPEN = 7, "the code is not open";
    BIT_COUNT = 8, "the count of bits is not 2(F1+F2)/Q, of field lengths F1 and F2";
    BIT_VALUE = 9, "a bit is neither 0 nor 1";
    SLOT_UNDER_WAY = 10, "a slot is under way";
    NO_SLOT = 11, "no slot is under way";
    LENGTHS_DIFFER = 12, "the re and the im buffer differ in length";
    BURST_TYPE_NOT_1 = 13, "the burst type is not 1";
    SYNC_CASE = 14, "the case is not 1 or 2";
    FRAME_OR_HALF = 15, "the frame is not 1 or 2, the half is above 1, or it is 1 in case 1";
    LENGTH_CHIP_OR_SYNC_CODE = 16, "the length, chip or sync code is not one that the call takes";
    COMPONENT = 17, "a component is outside -100000 to 100000";
    BUFFER_TOO_SHORT = 18, "an answer or scratch buffer is too short";
    NO_BEST_FIT = 19, "no group, frame and half fits the burst better than all others";
}

impl Refusal {
    /// What a library answered: 0 is no refusal.
    pub(crate) fn check(number: u32) -> Result<(), Refusal> {
        match number {
            0 => Ok(()),
            _ => Err(Refusal(number)),
        }
    }
}

impl fmt::Display for Refusal {
    fn fmt(&self, f: &mut fmt::Formatter) -> fmt::Result {
        write!(f, "refused {}: {}", self.0, self.meaning())
    }
}

impl Error for Refusal {}

/// A refused plan, with the place from 0 of the record that failed.
#[derive(Clone, Copy, Debug, PartialEq, Eq)]
pub struct PlanRefusal {
    pub refusal: Refusal,
    pub place: usize,
}

impl fmt::Display for PlanRefusal {
    fn fmt(&self, f: &mut fmt::Formatter) -> fmt::Result {
        write!(f, "refused {} place {}: {}", self.refusal.0, self.place, self.refusal.meaning())
    }
}

impl Error for PlanRefusal {}
