//! The refusals.

use crate::Group;
use std::fmt;

/// Defines the errors from rows: the status, the name, what goes with it, and the sentence.
macro_rules! errors {
    ($($status:literal $name:ident $({ $field:ident })? $sentence:literal,)*) => {
        /// Why a call was refused.
        ///
        /// docs/MANUAL.md says what causes the refusals 1 to 22, and what helps.
        ///
        /// ```
        /// # use tempolemon::{Error, Sizes, Zone};
        /// let refused = Zone::boot(&Sizes::default()).unwrap_err();
        /// assert_eq!((refused, refused.status()), (Error::BadConfig, 14));
        /// assert_eq!(refused.to_string(), "refused 14: a size is out of its range");
        /// ```
        #[derive(Clone, Copy, Debug, PartialEq, Eq)]
        #[non_exhaustive]
        pub enum Error {
            $(#[doc = concat!(stringify!($status), ": ", $sentence, ".")] $name $({
                /// The lowest group whose limit has no room.
                $field: Group,
            })?,)*
            /// No pin: the frame has no reference.
            Zero,
            /// No pin: the references changed meanwhile. Try again.
            Raced,
            /// No pin: the frame has 255 references.
            Full,
            /// A status that this crate doesn't know.
            Other(u8),
        }

        impl Error {
            #[cold]
            pub(crate) fn of(status: u8, number: u64) -> Error {
                match status {
                    $($status => Error::$name $({ $field: Group(number as u32) })?,)*
                    other => Error::Other(other),
                }
            }

            /// The status that the C call returns: the number of the refusal, or one above 100. It is 0 of `Zero`,
            /// `Raced` and `Full`, which are kinds there.
            #[must_use]
            pub fn status(&self) -> u8 {
                match self {
                    $(Error::$name $({ $field: _ })? => $status,)*
                    Error::Zero | Error::Raced | Error::Full => 0,
                    Error::Other(status) => *status,
                }
            }

            fn sentence(&self) -> &'static str {
                match self {
                    $(Error::$name $({ $field: _ })? => $sentence,)*
                    Error::Zero => "the frame has no reference",
                    Error::Raced => "the references changed meanwhile",
                    Error::Full => "the frame has 255 references",
                    Error::Other(_) => "the status is unknown",
                }
            }
        }
    };
}

errors! {
    1 NoParent "the parent group is not there",
    2 Exists "the group is there already",
    3 BadName "the path is malformed or that of the root",
    4 TreeFull "there is no room for one more group",
    5 TooDeep "the path has more than 8 names",
    6 NoGroup "the group is not there",
    7 HasChildren "the group has children",
    8 Busy "the group still has pages",
    9 PinsFull "the CPU holds too many references",
    10 NoFile "the group has no such file",
    11 ReadOnly "the file cannot be written",
    12 BadLimit "the text is no limit",
    13 BadNumber "the limit is too great a number",
    14 BadConfig "a size is out of its range",
    15 OverLimit { group } "the charge goes over the limit of a group",
    16 NoFrames "the zone has no free block that is great enough",
    17 Again "fewer pages were freed than asked",
    18 Killed "the group was killed",
    19 BadOrder "the order is above 10",
    20 NotKept "the frame is not the head of a kept unit",
    21 NotPinned "the CPU holds no reference on the frame",
    22 WriteOnly "the file cannot be read",
    101 NoMemory "malloc or realloc returned null",
    106 BadCpu "the zone has no CPU of this number",
    107 BadFrame "the zone has no frame of this number",
    108 BadGroup "no group has this number",
    110 CpuOut "another handle has this CPU",
    111 CpusOut "a CPU isn't returned",
    112 Lost "a CPU wasn't there at the end",
    115 BadVersion "the library is of another version than this crate",
}

impl fmt::Display for Error {
    fn fmt(&self, to: &mut fmt::Formatter<'_>) -> fmt::Result {
        match self.status() {
            0 => to.write_str(self.sentence()),
            status => write!(to, "refused {status}: {}", self.sentence()),
        }
    }
}

impl std::error::Error for Error {}
