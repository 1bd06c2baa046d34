//! Refusals, by name.

use std::error::Error;
use std::fmt;

/// The enum, and what each of its names has: a number, when it is given, and what to do then.
macro_rules! refusals {
    ($($number:literal $name:ident $when:literal, $remedy:literal;)*) => {
        /// Why a call was turned down, of the [table](crate#refusals).
        ///
        /// ```
        /// use jorghipa::Refusal;
        ///
        /// assert_eq!(Refusal::NegativeRadius.number(), 9);
        /// let told = Refusal::NegativeRadius.to_string();
        /// assert_eq!(told, "refused 9: body radius below 0; give the body a radius of 0 or more");
        /// ```
        #[derive(Clone, Copy, Debug, PartialEq, Eq, Hash)]
        #[non_exhaustive]
        pub enum Refusal {
            $(#[doc = concat!("Number ", $number, ": ", $when, ".")] $name,)*
            /// A number that this version of the crate does not know: the archive is another one.
            Other(u32),
        }

        impl Refusal {
            /// Its number in C, in stores' listings and in the documents.
            pub fn number(self) -> u32 {
                match self {
                    $(Refusal::$name => $number,)*
                    Refusal::Other(number) => number,
                }
            }

            /// When it is given.
            pub fn meaning(self) -> &'static str {
                match self {
                    $(Refusal::$name => $when,)*
                    Refusal::Other(_) => "unknown to this version of the crate",
                }
            }

            /// What to do then.
            pub fn remedy(self) -> &'static str {
                match self {
                    $(Refusal::$name => $remedy,)*
                    Refusal::Other(_) => "link the archive of the crate's own version",
                }
            }
        }

        impl From<u32> for Refusal {
            fn from(number: u32) -> Refusal {
                match number {
                    $($number => Refusal::$name,)*
                    other => Refusal::Other(other),
                }
            }
        }
    };
}

refusals! {
    1 OddCount "odd count of numbers",
        "give z and radius in turn, two numbers a vertex";
    2 TooFewVertices "fewer than 3 vertices, or 2 section points",
        "give the whole outline";
    3 TooManyVertices "over 256 vertices, or 254 section points",
        "leave out vertices that change the outline least";
    4 NotFinite "a number is NaN or infinite",
        "look for the reading or the division that gave no number";
    5 TooLarge "a magnitude over 1,048,576",
        "give mm, measured from a nearer origin";
    6 RadiusBelowAxis "section or polygon radius below -1e-9",
        "give the half above the axis, radius second; are z and radius swapped?";
    7 SpaceTooSmall "builder space too small",
        "lend 2(n + 2) numbers for n points, 2n for a polygon";
    8 TooFewKept "under 3 vertices kept",
        "give points that are not all the same, nor all on the axis";
    9 NegativeRadius "body radius below 0",
        "give the body a radius of 0 or more";
    10 ReversedBounds "z1 < z0 or r1 < r0",
        "give the smaller bound first";
    11 SkewCylinder "cylinder neither along the spindle nor across it",
        "turn its axis to z, x or y, or give the box around it";
    12 StoreLength "store length no multiple of 40, or an edit's space or bytes of another size",
        "give whole records of 40 bytes; an edit needs a space of 20,480";
    13 BadLink "next past the end of the store, or a record twice",
        "mend the next of the record that is named";
    14 WrongKind "record, or body of an assembly, of the wrong kind",
        "give record 0 kind 0, and the others of the chain 1, 2 or 3";
    15 EmptyStore "store of no bytes",
        "look whether the file was written";
    16 TooManyRecords "over 512 records",
        "leave out records that the chain does not need";
    17 TooManyBodies "more than 64 bodies",
        "ask in groups of at most 64";
    18 BadSettings "a setting out of range or not finite",
        "tolerance 1e-9 to 1, boxes 1 to 8,192, intervals 1 to 64";
    19 BadSteps "no step, or more than 4,096",
        "try the move in 1 to 4,096 steps, a long one in parts";
    20 BadSeed "seed of a test load is 0, or its input not 16 bytes",
        "give another seed";
    21 BadLoad "fewer than 3 or over 256 vertices of a test load",
        "give a count from 3 to 256";
    22 SettersEdit "not an operator's edit: record 0, a vertex or a link",
        "let the setter make it";
    23 StoreFull "512 records, all reached",
        "replace a body instead of adding one";
    24 NoSuchRecord "no such record on the chain",
        "name a record that the chain reaches";
}

impl fmt::Display for Refusal {
    fn fmt(&self, f: &mut fmt::Formatter) -> fmt::Result {
        write!(f, "refused {}: {}; {}", self.number(), self.meaning(), self.remedy())
    }
}

impl Error for Refusal {}

/// What a C function returns: 0, or the number of a refusal.
pub(crate) fn accepted(number: u32) -> Result<(), Refusal> {
    if number == 0 { Ok(()) } else { Err(number.into()) }
}

#[cfg(test)]
mod tests {
    use super::*;

    /// The README's table of refusals has every number, and says of each what the enum says.
    #[test]
    fn the_table_is_the_enum() {
        let from_table = include_str!("../README.md").lines().skip_while(|line| !line.starts_with("| number | name |"));
        let table: Vec<&str> = from_table.filter(|line| line.starts_with("| ")).skip(1).collect();
        assert_eq!(table.len(), 24);
        for (number, row) in (1..).zip(table) {
            let refusal = Refusal::from(number);
            assert_eq!(refusal.number(), number);
            assert_eq!(row, format!("| {number} | `{refusal:?}` | {} | {} |", refusal.meaning(), refusal.remedy()));
        }
    }

    #[test]
    fn other_numbers_are_kept() {
        for unknown in [25, u32::MAX] {
            assert_eq!(Refusal::from(unknown), Refusal::Other(unknown));
            assert_eq!(accepted(unknown), Err(Refusal::Other(unknown)));
            assert!(Refusal::from(unknown).to_string().starts_with(&format!("refused {unknown}: unknown")));
        }
        assert_eq!(accepted(0), Ok(()));
    }
}
