//! What the calls answer.
use std::fmt;

macro_rules! refusals {
    ($($(#[$says:meta])* $name:ident = $number:literal,)*) => {
        /// A refusal. Its number is the one of README's table.
        #[derive(Clone, Copy, Debug, PartialEq, Eq, Hash, PartialOrd, Ord)]
        #[repr(u8)]
        pub enum Refusal {
            $($(#[$says])* $name = $number,)*
        }

        impl Refusal {
            /// The refusal of a number, none for 0 and for numbers that no refusal has.
            pub fn of(number: u8) -> Option<Refusal> {
                match number {
                    $($number => Some(Refusal::$name),)*
                    _ => None,
                }
            }
        }
    };
}

refusals! {
    /// The foil's width or height is not from 1 to 4,096.
    BadSize = 1,
    /// The foil's reach is above 15 (in a job file).
    BadReach = 2,
    /// The patch or leg is empty, reversed or past the foil, or the leg is too wide.
    BadShape = 3,
    /// The net is not from 1 to 999.
    BadNet = 4,
    /// The net is on the foil already.
    NetOnFoil = 5,
    /// The net is not on the foil.
    NetNotOnFoil = 6,
    /// A point is off the foil.
    OffFoil = 7,
    /// A point is not free.
    NotFree = 8,
    /// No path leads from start to end.
    NoPath = 9,
    /// The foil or the sheet would have too many entries.
    TableFull = 10,
    /// The foil would have more than 4,096 strips.
    TooManyStrips = 11,
    /// A list is too short, or a list of nets too long.
    LentTooLittle = 12,
    /// What is lent is no foil's state: records, entries or strips break a rule.
    BrokenState = 13,
    /// The file ends inside a record or before its end mark.
    FileCutShort = 14,
    /// A record asks for something unknown.
    UnknownBit = 15,
    /// The first record has no board, or a later one has a board or a pen.
    BoardMisplaced = 16,
    /// Bytes follow the end mark.
    BytesAfterEnd = 17,
    /// The file has more than 60,000 bytes.
    FileTooLong = 18,
    /// The corners to book are no way over free points.
    NotAWay = 19,
    /// The pen's half width is above 7, or its gap above 15.
    BadPen = 20,
    /// A patch would block a point of a leg, or does.
    Crossed = 21,
    /// A figure of the ink is out of its range.
    BadInk = 22,
    /// The foil's number is above 7.
    NoSuchFoil = 23,
}

impl Refusal {
    /// Its number.
    pub fn number(self) -> u8 {
        self as u8
    }
}

impl fmt::Display for Refusal {
    fn fmt(&self, f: &mut fmt::Formatter<'_>) -> fmt::Result {
        write!(f, "refused ({}): {:?}", self.number(), self)
    }
}

impl std::error::Error for Refusal {}

/// A point, or a corner of a track: x and y.
pub type Point = (u16, u16);

/// A pen: its ink goes `half` points beyond a track's points on each side, with `gap` points clear between two tracks.
#[derive(Clone, Copy, Debug, Default, PartialEq, Eq)]
pub struct Pen {
    pub half: u16,
    pub gap: u16,
}

/// Free points: x0 <= x < x1 and y0 <= y < y1.
#[derive(Clone, Copy, Debug, PartialEq, Eq)]
pub struct Strip {
    pub x0: u16,
    pub y0: u16,
    pub x1: u16,
    pub y1: u16,
}

/// A net of a list, to be laid from a point to another.
#[derive(Clone, Copy, Debug, PartialEq, Eq)]
pub struct Wish {
    pub net: u16,
    pub start: Point,
    pub end: Point,
}

/// After a lay, a join or a find: the corners of the track, and how many bends it has.
#[derive(Clone, Debug, PartialEq, Eq)]
pub struct Way {
    pub corners: Vec<Point>,
    pub bends: usize,
}

/// How many corners and bends a way has, whose corners stand in a lent list.
#[derive(Clone, Copy, Debug, PartialEq, Eq)]
pub struct Bent {
    pub corners: usize,
    pub bends: usize,
}

/// What came of a record that was not refused as a whole; `T` is what a lay answers.
#[derive(Clone, Debug, PartialEq, Eq)]
pub enum Record<T> {
    /// It was the end mark.
    End,
    /// Its steps were run.
    Ran(Steps<T>),
}

/// What came of the steps of a record, none for those that were not run; and the place of the next record, none where
/// the job has ended.
#[derive(Clone, Debug, PartialEq, Eq)]
pub struct Steps<T> {
    pub board: Option<Result<(), Refusal>>,
    pub patch: Option<Result<(), Refusal>>,
    pub track: Option<Result<T, Refusal>>,
    pub lift: Option<Result<(), Refusal>>,
    pub leg: Option<Result<(), Refusal>>,
    pub next: Option<usize>,
}
