//! The book of a day: the ten calls, and the statements.

use super::Fault;
use super::call::{Call, Opening};
use super::opening;
use super::posting;
use super::station::{Account, BLOCKS, BlockSet, Generator, Kind, Phase, Station};
use super::tariff;
use std::ops::Range;

const HIGHEST_SCHEDULE: u64 = 6_400_000;
const HIGHEST_READING: u64 = 200_000;
const HIGHEST_AMOUNT: u64 = 1_000_000_000_000;
const HIGHEST_CASH: u64 = 1_000_000_000_000_000;
/// A revision takes effect so many blocks after its notice.
const NOTICE_BLOCKS: u64 = 3;

pub struct Book {
    stations: Vec<Station>,
    generators: Vec<Generator>,
    cash: u64,
}

/// A line of a statement.
pub enum Statement {
    Station(Summary),
    Generator { generator: usize, account: Account },
}

pub struct Summary {
    pub station: usize,
    pub code: u64,
    pub charges: i64,
    pub due: i64,
    pub cash: i64,
}

impl Book {
    pub fn open(opening: &Opening) -> Result<Book, Fault> {
        opening::check(opening)?;
        let mut book = Book { stations: Vec::new(), generators: Vec::new(), cash: 0 };
        let mut installed = opening.installed.iter();
        for (station, (&kind, &count)) in opening.kinds.iter().zip(opening.counts).enumerate() {
            let first = book.generators.len();
            let members = installed.by_ref().take(count as usize);
            book.generators.extend(members.map(|&kw| Generator::new(station, kw as u32)));
            let kind = if kind == 0 { Kind::Wind } else { Kind::Solar };
            book.stations.push(Station::new(kind, first, book.generators.len()));
        }
        Ok(book)
    }

    pub fn apply(&mut self, call: Call) -> Result<(), Fault> {
        match call {
            Call::File { station, from, to, kw } => self.file(station, from, to, kw),
            Call::Declare { generator, from, to, kw } => self.declare(generator, from, to, kw),
            Call::Issue { station } => self.issue(station),
            Call::Revise { station, number, notice, values } => self.revise(station, number, notice, values),
            Call::Close { station } => self.close(station),
            Call::Read { generator, from, to, kw } => self.read(generator, from, to, kw),
            Call::Settle { station } => self.settle(station),
            Call::Correct { generator, block, kw } => self.correct(generator, block, kw),
            Call::Pay { station, amount } => self.pay(station, amount),
            Call::Draw { station, amount } => self.draw(station, amount),
        }
    }

    /// The statement of each station: its own line, then one for each of its generators.
    pub fn statements(&self) -> impl Iterator<Item = Statement> {
        self.stations.iter().enumerate().flat_map(|(number, station)| {
            let summary = Summary {
                station: number,
                code: tariff::CODE,
                charges: station.charges,
                due: station.due(),
                cash: self.cash as i64,
            };
            let accounts = (station.first..station.end).map(|generator| Statement::Generator {
                generator,
                account: self.generators[generator].account,
            });
            std::iter::once(Statement::Station(summary)).chain(accounts)
        })
    }

    fn file(&mut self, number: u64, from: u64, to: u64, kw: u64) -> Result<(), Fault> {
        let station = self.station_in(number, &[Phase::Filing])?;
        let station = &mut self.stations[station];
        let blocks = blocks(from, to)?;
        let kw = at_most(kw, HIGHEST_SCHEDULE)?;
        station.filed.add(blocks.start, blocks.end - 1);
        station.schedule[blocks].fill(kw);
        Ok(())
    }

    fn declare(&mut self, number: u64, from: u64, to: u64, kw: u64) -> Result<(), Fault> {
        let generator = self.generator_in(number, &[Phase::Filing, Phase::Running])?;
        let generator = &mut self.generators[generator];
        let blocks = blocks(from, to)?;
        let kw = at_most(kw, generator.installed.into())?;
        generator.capacity[blocks].fill(kw);
        Ok(())
    }

    fn issue(&mut self, number: u64) -> Result<(), Fault> {
        let station = self.station_in(number, &[Phase::Filing])?;
        let station = &mut self.stations[station];
        if let Some(block) = station.filed.first_absent() {
            return Err(Fault::Unfiled { station: number, block: block as u64 });
        }
        station.phase = Phase::Running;
        Ok(())
    }

    fn revise(&mut self, number: u64, revision: u64, notice: u64, values: &[u64]) -> Result<(), Fault> {
        let station = self.station_in(number, &[Phase::Running])?;
        let station = &mut self.stations[station];
        let slot = station.kind.slot(notice)?;
        let first = notice + NOTICE_BLOCKS;
        let (given, needed) = (values.len() as u64, BLOCKS as u64 - first);
        if given != needed {
            return Err(Fault::ValueCount { given, needed });
        }
        if let Some(position) = values.iter().position(|&kw| kw > HIGHEST_SCHEDULE) {
            return Err(Fault::HighValue { position: position as u64, limit: HIGHEST_SCHEDULE });
        }
        let next = station.revisions + 1;
        if revision != next {
            return Err(Fault::RevisionNumber { given: revision, next });
        }
        if let Some(last) = station.last_slot.filter(|&last| slot <= last) {
            return Err(Fault::UsedSlot { slot, last });
        }
        for (block, &kw) in station.schedule[first as usize..].iter_mut().zip(values) {
            *block = kw as u32;
        }
        station.revisions = next;
        station.last_slot = Some(slot);
        Ok(())
    }

    fn close(&mut self, number: u64) -> Result<(), Fault> {
        let station = self.station_in(number, &[Phase::Running])?;
        self.stations[station].phase = Phase::Metering;
        Ok(())
    }

    fn read(&mut self, number: u64, from: u64, to: u64, kw: u64) -> Result<(), Fault> {
        let generator = self.generator_in(number, &[Phase::Metering])?;
        let generator = &mut self.generators[generator];
        let blocks = blocks(from, to)?;
        let kw = at_most(kw, HIGHEST_READING)?;
        generator.read.add(blocks.start, blocks.end - 1);
        generator.reading[blocks].fill(kw);
        Ok(())
    }

    fn settle(&mut self, number: u64) -> Result<(), Fault> {
        let station = self.station_in(number, &[Phase::Metering])?;
        self.complete(station)?;
        self.stations[station].phase = Phase::Settled;
        self.post(station);
        Ok(())
    }

    /// A settled station has every reading and keeps it, so none can be missing here.
    fn correct(&mut self, number: u64, block: u64, kw: u64) -> Result<(), Fault> {
        let generator = self.generator_in(number, &[Phase::Settled])?;
        let Range { start: block, .. } = blocks(block, block)?;
        let kw = at_most(kw, HIGHEST_READING)?;
        let generator = &mut self.generators[generator];
        generator.reading[block] = kw;
        let station = generator.station;
        self.post(station);
        Ok(())
    }

    fn pay(&mut self, number: u64, amount: u64) -> Result<(), Fault> {
        let station = self.station(number)?;
        check_amount(number, amount)?;
        if self.cash + amount > HIGHEST_CASH {
            return Err(Fault::FullCash { station: number, cash: self.cash });
        }
        self.cash += amount;
        self.stations[station].net -= amount as i64;
        Ok(())
    }

    /// Under this tariff no charge is below zero. So no station ever draws more than it paid, and the
    /// cash is never less than what one of them may draw: the last refusal here is never met.
    fn draw(&mut self, number: u64, amount: u64) -> Result<(), Fault> {
        let station = self.station(number)?;
        check_amount(number, amount)?;
        let station = &mut self.stations[station];
        let available = (-station.due()).max(0) as u64;
        if amount > available {
            return Err(Fault::DrawAboveDue { station: number, available });
        }
        if amount > self.cash {
            return Err(Fault::DrawAboveCash { station: number, cash: self.cash });
        }
        self.cash -= amount;
        station.net += amount as i64;
        Ok(())
    }

    fn station(&self, number: u64) -> Result<usize, Fault> {
        if number < self.stations.len() as u64 {
            Ok(number as usize)
        } else {
            Err(Fault::NoSuchNumber { number })
        }
    }

    fn station_in(&self, number: u64, phases: &[Phase]) -> Result<usize, Fault> {
        let station = self.station(number)?;
        self.in_phase(station, phases)?;
        Ok(station)
    }

    fn generator_in(&self, number: u64, phases: &[Phase]) -> Result<usize, Fault> {
        if number >= self.generators.len() as u64 {
            return Err(Fault::NoSuchNumber { number });
        }
        self.in_phase(self.generators[number as usize].station, phases)?;
        Ok(number as usize)
    }

    fn in_phase(&self, station: usize, phases: &[Phase]) -> Result<(), Fault> {
        let phase = self.stations[station].phase;
        if phases.contains(&phase) {
            return Ok(());
        }
        Err(Fault::WrongPhase { station: station as u64, phase: phase as u64 })
    }

    fn members(&self, station: usize) -> Range<usize> {
        self.stations[station].first..self.stations[station].end
    }

    /// Names the first missing reading: the first block, and in it the first generator.
    fn complete(&self, station: usize) -> Result<(), Fault> {
        let members = self.members(station);
        let generators = &self.generators[members.clone()];
        let read = generators.iter().fold(BlockSet::ALL, |read, generator| read.and(generator.read));
        let Some(block) = read.first_absent() else { return Ok(()) };
        let without = generators.iter().take_while(|generator| generator.read.has(block)).count();
        Err(Fault::MissingReading { generator: (members.start + without) as u64, block: block as u64 })
    }

    /// Posts the charges and shares of all blocks anew.
    fn post(&mut self, number: usize) {
        let members = self.members(number);
        posting::post(&mut self.stations[number], &mut self.generators[members]);
    }
}

fn blocks(from: u64, to: u64) -> Result<Range<usize>, Fault> {
    if from > to || to >= BLOCKS as u64 {
        return Err(Fault::BadBlocks { from, to });
    }
    Ok(from as usize..to as usize + 1)
}

fn at_most(kw: u64, limit: u64) -> Result<u32, Fault> {
    if kw > limit { Err(Fault::HighValue { position: 0, limit }) } else { Ok(kw as u32) }
}

fn check_amount(station: u64, amount: u64) -> Result<(), Fault> {
    if (1..=HIGHEST_AMOUNT).contains(&amount) { Ok(()) } else { Err(Fault::BadAmount { station, amount }) }
}
