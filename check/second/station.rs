//! The record of a station and that of a generator.

use super::Fault;
use super::key::Load;

pub const BLOCKS: usize = 96;
const LAST_NOTICE: u64 = 92;
const SOLAR_NOTICES: std::ops::RangeInclusive<u64> = 22..=75;
const SLOT_BLOCKS: u64 = 6;

/// A set of the blocks of the day.
#[derive(Clone, Copy, Default)]
pub struct BlockSet(u128);

impl BlockSet {
    pub const ALL: BlockSet = BlockSet((1 << BLOCKS) - 1);

    pub fn add(&mut self, from: usize, to: usize) {
        self.0 |= (Self::ALL.0 >> (BLOCKS - 1 - to + from)) << from;
    }

    pub fn and(self, other: BlockSet) -> BlockSet {
        BlockSet(self.0 & other.0)
    }

    pub fn has(self, block: usize) -> bool {
        self.0 >> block & 1 == 1
    }

    /// The first block of the day that is not in the set.
    pub fn first_absent(self) -> Option<usize> {
        let block = self.0.trailing_ones() as usize;
        if block < BLOCKS { Some(block) } else { None }
    }
}

#[derive(Clone, Copy, PartialEq, Eq)]
pub enum Kind {
    Wind,
    Solar,
}

impl Kind {
    /// The slot that a notice falls into.
    pub fn slot(self, notice: u64) -> Result<u64, Fault> {
        match self {
            Kind::Wind if notice <= LAST_NOTICE => Ok(notice / SLOT_BLOCKS),
            Kind::Solar if SOLAR_NOTICES.contains(&notice) => {
                Ok((notice - SOLAR_NOTICES.start()) / SLOT_BLOCKS)
            }
            _ => Err(Fault::BadNotice { notice }),
        }
    }
}

#[derive(Clone, Copy, PartialEq, Eq)]
pub enum Phase {
    Filing,
    Running,
    Metering,
    Settled,
}

pub struct Station {
    pub kind: Kind,
    pub phase: Phase,
    /// Its generators are those from `first` up to, and without, `end`.
    pub first: usize,
    pub end: usize,
    pub schedule: [u32; BLOCKS],
    pub filed: BlockSet,
    pub revisions: u64,
    pub last_slot: Option<u64>,
    pub charges: i64,
    /// What it drew, less what it paid.
    pub net: i64,
}

impl Station {
    pub fn new(kind: Kind, first: usize, end: usize) -> Self {
        Station {
            kind,
            phase: Phase::Filing,
            first,
            end,
            schedule: [0; BLOCKS],
            filed: BlockSet::default(),
            revisions: 0,
            last_slot: None,
            charges: 0,
            net: 0,
        }
    }

    pub fn due(&self) -> i64 {
        self.charges + self.net
    }
}

#[derive(Clone, Copy, Default)]
pub struct Account {
    pub money: i64,
    pub energy: i64,
}

pub struct Generator {
    pub station: usize,
    pub installed: u32,
    pub capacity: [u32; BLOCKS],
    /// A reading counts in the blocks of `read` alone.
    pub reading: [u32; BLOCKS],
    pub read: BlockSet,
    pub account: Account,
}

impl Generator {
    pub fn new(station: usize, installed: u32) -> Self {
        Generator {
            station,
            installed,
            capacity: [installed; BLOCKS],
            reading: [0; BLOCKS],
            read: BlockSet::default(),
            account: Account::default(),
        }
    }

    pub fn load(&self, block: usize) -> Load {
        Load {
            actual: self.reading[block].into(),
            capacity: self.capacity[block].into(),
            installed: self.installed.into(),
        }
    }
}
