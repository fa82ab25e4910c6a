//! Why a line, an opening or a call is refused.

#[derive(Clone, Copy, Debug, PartialEq, Eq)]
pub enum Fault {
    StationCount { kinds: u64, counts: u64 },
    BadStation { station: u64 },
    InstalledCount { given: u64, needed: u64 },
    InstalledRange { generator: u64, kw: u64 },
    ShortPage { page: u64, needed: u64 },
    LongLine { length: u64 },
    NotForm { start: u64 },
    UnknownHead,
    BadArgument { position: u64 },
    NoSuchNumber { number: u64 },
    WrongPhase { station: u64, phase: u64 },
    BadBlocks { from: u64, to: u64 },
    BadNotice { notice: u64 },
    ValueCount { given: u64, needed: u64 },
    HighValue { position: u64, limit: u64 },
    RevisionNumber { given: u64, next: u64 },
    UsedSlot { slot: u64, last: u64 },
    Unfiled { station: u64, block: u64 },
    MissingReading { generator: u64, block: u64 },
    BadAmount { station: u64, amount: u64 },
    FullCash { station: u64, cash: u64 },
    DrawAboveDue { station: u64, available: u64 },
    DrawAboveCash { station: u64, cash: u64 },
}

/// A fault as it is written: layer, number and a place of two numbers.
pub struct Refusal {
    pub layer: u64,
    pub number: u64,
    pub place: (u64, u64),
}

impl Fault {
    pub fn refusal(self) -> Refusal {
        let (number, place) = self.number_and_place();
        let layer = match number {
            0..=5 => 0,
            6..=10 => 1,
            11..=18 => 2,
            _ => 3,
        };
        Refusal { layer, number, place }
    }

    fn number_and_place(self) -> (u64, (u64, u64)) {
        match self {
            Fault::StationCount { kinds, counts } => (1, (kinds, counts)),
            Fault::BadStation { station } => (2, (station, 0)),
            Fault::InstalledCount { given, needed } => (3, (given, needed)),
            Fault::InstalledRange { generator, kw } => (4, (generator, kw)),
            Fault::ShortPage { page, needed } => (5, (page, needed)),
            Fault::LongLine { length } => (7, (length, 0)),
            Fault::NotForm { start } => (8, (start, 0)),
            Fault::UnknownHead => (9, (0, 0)),
            Fault::BadArgument { position } => (10, (position, 0)),
            Fault::NoSuchNumber { number } => (11, (number, 0)),
            Fault::WrongPhase { station, phase } => (12, (station, phase)),
            Fault::BadBlocks { from, to } => (13, (from, to)),
            Fault::BadNotice { notice } => (13, (notice, 0)),
            Fault::ValueCount { given, needed } => (14, (given, needed)),
            Fault::HighValue { position, limit } => (15, (position, limit)),
            Fault::RevisionNumber { given, next } => (16, (given, next)),
            Fault::UsedSlot { slot, last } => (17, (slot, last)),
            Fault::Unfiled { station, block } => (18, (station, block)),
            Fault::MissingReading { generator, block } => (18, (generator, block)),
            Fault::BadAmount { station, amount } => (19, (station, amount)),
            Fault::FullCash { station, cash } => (20, (station, cash)),
            Fault::DrawAboveDue { station, available } => (21, (station, available)),
            Fault::DrawAboveCash { station, cash } => (22, (station, cash)),
        }
    }
}
