//! The kinds of numbers, and the answers.

use std::error::Error;
use std::fmt;

/// The number of no slot, no island and no edge.
pub(crate) const NONE: u32 = u32::MAX;

/// A body slot, 0 to 4095.
#[derive(Copy, Clone, Debug, PartialEq, Eq, PartialOrd, Ord, Hash)]
pub struct Slot(pub u32);

/// An island's number, 0 to 4095.
#[derive(Copy, Clone, Debug, PartialEq, Eq, PartialOrd, Ord, Hash)]
#[repr(transparent)]
pub struct Island(pub u32);

/// A contact's edge number, 0 to 16383.
#[derive(Copy, Clone, Debug, PartialEq, Eq, PartialOrd, Ord, Hash)]
pub struct Edge(pub u32);

/// A body: its slot, and which of the slot's bodies it is.
#[derive(Copy, Clone, Debug, PartialEq, Eq, PartialOrd, Ord, Hash)]
pub struct Handle {
    /// Where the body is.
    pub slot: Slot,
    /// Which of the bodies that were there.
    pub generation: u32,
}

impl Handle {
    /// Names nothing.
    pub const ABSENT: Self = Self::new(Slot(NONE), NONE);

    /// The body of this slot and generation.
    pub const fn new(slot: Slot, generation: u32) -> Self {
        Self { slot, generation }
    }
}

/// What a joint link is known by.
#[derive(Copy, Clone, Debug, PartialEq, Eq, PartialOrd, Ord, Hash)]
pub enum JointKey {
    /// An impulse joint.
    Impulse {
        /// Its index.
        index: u32,
        /// Which of the index's joints.
        generation: u32,
    },
    /// A link of a multibody's chain.
    Chain {
        /// The multibody's 64 bits.
        multibody: u64,
        /// Which link, from 0.
        ordinal: u32,
    },
}

/// A body's flags. A new one is enabled, awake and not fixed.
#[derive(Copy, Clone, Debug, PartialEq, Eq, Hash)]
pub struct Body {
    /// It never moves: ensure gives it no island. A member that is turned fixed stays one until it is removed.
    pub is_fixed: bool,
    /// It takes part.
    pub is_enabled: bool,
    /// It starts asleep.
    pub is_sleeping: bool,
}

impl Body {
    /// Enabled, awake, not fixed.
    pub const fn new() -> Self {
        Self {
            is_fixed: false,
            is_enabled: true,
            is_sleeping: false,
        }
    }

    /// The same, fixed.
    pub const fn fixed(self) -> Self {
        Self { is_fixed: true, ..self }
    }

    /// The same, not taking part.
    pub const fn disabled(self) -> Self {
        Self {
            is_enabled: false,
            ..self
        }
    }

    /// The same, asleep.
    pub const fn sleeping(self) -> Self {
        Self {
            is_sleeping: true,
            ..self
        }
    }
}

impl Default for Body {
    fn default() -> Self {
        Self::new()
    }
}

/// What a call answers.
#[derive(Copy, Clone, Debug, PartialEq, Eq, Hash)]
#[must_use]
pub enum Answer {
    /// Done.
    Done = 0,
    /// Nothing to do.
    Nothing = 1,
    /// An edge or slot number is over its size.
    OverSize = 2,
    /// Renumbering: the removed edge is still linked.
    StillLinked = 3,
    /// The joint table is full.
    JointsFull = 4,
    /// The journal is full.
    JournalFull = 5,
    /// There is no such island.
    NoIsland = 6,
    /// No scan is open.
    NoScan = 7,
    /// The output is shorter than the list.
    TooShort = 8,
    /// The tables have a wrong length, or are not well formed.
    BadTables = 9,
    /// The slot has a live body.
    SlotTaken = 10,
    /// The generation is not allowed.
    BadGeneration = 11,
}

impl Answer {
    /// All, by number.
    pub const ALL: [Self; 12] = [
        Self::Done,
        Self::Nothing,
        Self::OverSize,
        Self::StillLinked,
        Self::JointsFull,
        Self::JournalFull,
        Self::NoIsland,
        Self::NoScan,
        Self::TooShort,
        Self::BadTables,
        Self::SlotTaken,
        Self::BadGeneration,
    ];

    /// The number in the paper, 0 to 11.
    pub const fn number(self) -> u32 {
        self as u32
    }

    /// Whether the call was refused, which changes nothing.
    pub const fn is_refusal(self) -> bool {
        self.number() > 1
    }

    /// Whether there was something to do; an error for a refusal.
    pub fn check(self) -> Result<bool, Refused> {
        match self {
            Self::Done => Ok(true),
            Self::Nothing => Ok(false),
            _ => Err(Refused(self)),
        }
    }

    /// The library gives no other numbers.
    pub(crate) fn from_number(number: u32) -> Self {
        Self::ALL[number as usize]
    }
}

impl fmt::Display for Answer {
    fn fmt(&self, f: &mut fmt::Formatter<'_>) -> fmt::Result {
        f.write_str(match self {
            Self::Done => "done",
            Self::Nothing => "nothing to do",
            Self::OverSize => "an edge or slot number is over its size",
            Self::StillLinked => "the removed edge is still linked",
            Self::JointsFull => "the joint table is full",
            Self::JournalFull => "the journal is full",
            Self::NoIsland => "there is no such island",
            Self::NoScan => "no scan is open",
            Self::TooShort => "the output is shorter than the list",
            Self::BadTables => "the tables are not well formed",
            Self::SlotTaken => "the slot has a live body",
            Self::BadGeneration => "the generation is not allowed",
        })
    }
}

/// A refusal: an answer above 1. Nothing was changed.
#[derive(Copy, Clone, Debug, PartialEq, Eq, Hash)]
pub struct Refused(pub Answer);

impl fmt::Display for Refused {
    fn fmt(&self, f: &mut fmt::Formatter<'_>) -> fmt::Result {
        write!(f, "refused ({}): {}", self.0.number(), self.0)
    }
}

impl Error for Refused {}
