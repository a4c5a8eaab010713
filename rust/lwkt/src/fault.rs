use std::error::Error;
use std::fmt;

// The faults of calls on a bank and its seats: number, name and words of each, once.
macro_rules! seat_faults {
    ($($number:literal $name:ident $words:literal)*) => {
        /// Why a call on a bank or on a seat was refused. Each fault has its number in include/lwkt.h, but for the last two, which are
        /// this crate's.
        #[derive(Clone, Copy, Debug, PartialEq, Eq)]
        #[non_exhaustive]
        pub enum SeatFault {
            $(#[doc = concat!(stringify!($number), ": ", $words, ".")] $name,)*
            /// A number that this crate has no name for.
            Other(u32),
        }

        impl SeatFault {
            /// The fault with this number.
            pub const fn of_number(number: u32) -> SeatFault {
                match number {
                    $($number => SeatFault::$name,)*
                    _ => SeatFault::Other(number),
                }
            }

            /// Its number.
            pub const fn number(self) -> u32 {
                match self {
                    $(SeatFault::$name => $number,)*
                    SeatFault::Other(number) => number,
                }
            }
        }

        impl fmt::Display for SeatFault {
            fn fmt(&self, out: &mut fmt::Formatter<'_>) -> fmt::Result {
                match self {
                    $(SeatFault::$name => out.write_str($words),)*
                    SeatFault::Other(number) => write!(out, "fault {number}"),
                }
            }
        }
    };
}

seat_faults! {
    10 ListFull "list full"
    11 Upgrade "shared reference can't become exclusive"
    13 NotHeld "token not held"
    16 NoToken "no such token"
    17 NoCell "no such cell or record"
    18 SharedWrite "write under a shared token"
    19 Broken "law broken"
    20 Worn "last generation"
    21 Overflow "sum too large"
    22 TallyOnly "call and law don't fit"
    23 Busy "token busy"
    30 NoSeat "seat not there"
    32 Memory "out of memory"
    34 Race "lost a race, try again"
    37 SharedRecord "record of a shared token"
    38 RecordLong "record too long"
    39 Limits "limit passed"
    40 LawBroken "opening breaks its law"
    50 SeatInUse "seat in use"
    51 SeatHolds "a token is held"
    52 BankClosed "bank closed"
    53 BankInUse "bank in use"
    54 SeatLost "seat lost"
    55 SeatAtRest "seat at rest"
    56 BankOpen "bank open"
    101 OtherBank "value of another bank"
    102 Guarded "value with a guard"
}

impl SeatFault {
    /// Whether the same call may go through later: another seat holds the token, or came between.
    pub fn is_busy(self) -> bool {
        matches!(self, SeatFault::Busy | SeatFault::Race)
    }
}

impl Error for SeatFault {}
