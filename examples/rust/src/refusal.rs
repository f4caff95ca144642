//! An error for each number of an answer.
use std::fmt;

macro_rules! refusals {
    ($($name:ident = $number:literal, $words:literal;)*) => {
        /// Why a call, an opening, a file or a question is refused. The table stays as it was.
        #[derive(Clone, Copy, PartialEq, Eq, Hash, PartialOrd, Ord, Debug)]
        #[repr(u8)]
        pub enum Refusal {
            $(#[doc = $words] $name = $number,)*
        }

        impl Refusal {
            /// All of them, by number.
            pub const ALL: &'static [Refusal] = &[$(Refusal::$name,)*];

            /// The refusal of a number; 0 is none.
            pub(crate) fn of(number: u8) -> Result<(), Refusal> {
                match number {
                    0 => Ok(()),
                    $($number => Err(Refusal::$name),)*
                    _ => unreachable!("the library gave the number {number}"),
                }
            }

            /// What it says.
            pub fn words(self) -> &'static str {
                match self {
                    $(Refusal::$name => $words,)*
                }
            }
        }
    };
}

refusals! {
    Broken = 1, "the table is broken";
    WrongOptions = 2, "an option is outside its range";
    WrongOrder = 3, "the order has a wrong length, card or count";
    RoundDealt = 4, "a round is dealt";
    NoRound = 5, "no round is dealt";
    NothingStaked = 6, "nothing is staked";
    HandWaits = 7, "a hand waits";
    NoSeat = 8, "no such seat";
    LaidAlready = 9, "a stake, an insurance or a side stake of that kind is laid already";
    NoStake = 10, "no stake in this round";
    NotInTurn = 11, "not that seat's turn";
    TooLate = 12, "too late, or the hand does not wait";
    Barred = 13, "barred by the rules";
    WrongAmount = 14, "the amount is 0, odd, outside its option, or past all the money that may be";
    ShortPurse = 15, "the purse is below what is asked";
    ShortTray = 16, "the tray is below what is asked";
    ShortShoe = 17, "the shoe is too short for a deal, or a load is due";
    NoCards = 18, "fewer cards are left than are drawn";
    NoPair = 19, "no pair";
    HandsUsedUp = 20, "the seat's hands are used up";
    NoSideKind = 21, "no such kind of side stake";
    NoPosition = 22, "no such position";
    NotDeciding = 23, "not the deciding guest";
    FileLength = 24, "the file is empty, or its length is no multiple of 512";
    FileCheck = 25, "the check of a block is wrong";
    FileContent = 26, "a block has what no session file can have";
    WrongDepth = 27, "the depth is over 6 or over the cards left";
    Taken = 28, "the position or the card is taken already";
    NotHere = 29, "the card is not here";
    UnknownKind = 255, "a kind of call that there is not";
}

impl Refusal {
    /// Its number.
    pub fn number(self) -> u8 {
        self as u8
    }
}

impl fmt::Display for Refusal {
    fn fmt(&self, f: &mut fmt::Formatter<'_>) -> fmt::Result {
        write!(f, "{} {}", self.number(), self.words())
    }
}

impl std::error::Error for Refusal {}
