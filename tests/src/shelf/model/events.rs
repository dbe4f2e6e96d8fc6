//! The ways in which an accepted call does its work, those in which a plain read is refused where a recovering one is
//! not or is withheld too, and what is withheld, so that a group can tell whether it came through all of them, in each
//! layout and with each count of parities, and through none that can't be there.

use crate::shelf::harness::calls::Measures;

/// Declares the ways of the work, and the list of them all.
macro_rules! events {
    ($($name:ident),* $(,)?) => {
        /// A way of the work, by the call's name.
        #[derive(Clone, Copy, Debug, PartialEq)]
        pub enum Event {
            $($name),*
        }

        /// All the ways.
        const ALL: &[Event] = &[$(Event::$name),*];
    };
}

events! {
    PutBackNormal,
    PutBackAccelerating,
    PutBackListed,
    PutBackTransitional,
    PutBackBesideFailed,
    PutBackWithoutLog,
    WriteReadModify,
    WriteReconstruct,
    WriteAllListed,
    WritePutsBelow,
    WritePutsAbove,
    WriteAddsToStale,
    WriteLacksRecords,
    WriteLacksPlaces,
    WriteNormal,
    WriteTransitional,
    WriteManyStripes,
    WriteDropsSome,
    WriteDropsAbove,
    WriteDropsLastAccelerating,
    WriteDropsLastTransitional,
    WriteLogsAfterDroppingLast,
    ReadSound,
    ReadBesideFailed,
    ReadStaleWithoutLog,
    ReadLostInCur,
    ReadLostInOri,
    ReadLostByParity,
    ReadLostAndWithheld,
    FetchSound,
    FetchSoundListed,
    FetchCur,
    FetchOri,
    FetchByP,
    FetchByQ,
    FetchByBoth,
    FetchBesideOri,
    FetchWithoutLog,
    FetchWithheld,
    ResyncNone,
    ResyncSome,
    ResyncLast,
    ResyncWithoutLog,
    RebuildData,
    RebuildDataListed,
    RebuildDataAccelerating,
    RebuildParityNormal,
    RebuildParityAccelerating,
    RebuildParityListed,
    RebuildWithoutLog,
    RebuildWithheld,
    RebuildDropsNone,
    RebuildDropsLastAccelerating,
    RebuildDropsLastTransitional,
    RebuildDropsSome,
    RebuildBothOfOne,
    FullResyncFresh,
    FullResyncListed,
    FullResyncWithoutLog,
}

/// The ways that are there only where parity rotates: some listed blocks are dropped and others are not, and the same
/// member had data of one stripe and parity of another.
const OF_ROTATING: [Event; 2] = [Event::RebuildDropsSome, Event::RebuildBothOfOne];

/// The ways that are there only with two parities: a block is worked back by Q, or a data block or the log is missing
/// beside what else is. So with one parity nothing is withheld.
const OF_TWO: [Event; 9] = [
    Event::PutBackBesideFailed,
    Event::PutBackWithoutLog,
    Event::ReadLostAndWithheld,
    Event::FetchByQ,
    Event::FetchByBoth,
    Event::FetchWithoutLog,
    Event::FetchWithheld,
    Event::RebuildWithoutLog,
    Event::RebuildWithheld,
];

/// The ways of put back, which is no call of the bench program.
const OF_PUT_BACK: [Event; 6] = [
    Event::PutBackNormal,
    Event::PutBackAccelerating,
    Event::PutBackListed,
    Event::PutBackTransitional,
    Event::PutBackBesideFailed,
    Event::PutBackWithoutLog,
];

/// Whether shelves of this layout and with so many parities have a way.
fn is_there(event: Event, layout: usize, parities: usize) -> bool {
    (layout == 1 || !OF_ROTATING.contains(&event)) && (parities == 2 || !OF_TWO.contains(&event))
}

/// The ways of one call.
#[derive(Clone, Copy, Default)]
pub struct Events(u64);

impl Events {
    /// Adds a way where it was gone.
    pub fn add(&mut self, event: Event, gone: bool) {
        self.0 |= u64::from(gone) << event as u32;
    }

    /// Whether this way was gone.
    pub fn has(self, event: Event) -> bool {
        self.0 >> event as u32 & 1 == 1
    }
}

/// In how many calls each way was gone, by layout and by the parities less one.
pub struct Seen([[[usize; ALL.len()]; 2]; 2]);

impl Default for Seen {
    /// Counts of nothing so far.
    fn default() -> Seen {
        Seen([[[0; ALL.len()]; 2]; 2])
    }
}

impl Seen {
    /// Counts a call on a shelf of these measures.
    pub fn count(&mut self, m: Measures, events: Events) {
        for &event in ALL.iter().filter(|&&event| events.has(event)) {
            self.0[m.layout][m.parities - 1][event as usize] += 1;
        }
    }

    /// Fails unless each way was gone so many times in each layout and with each count of parities that have it, and
    /// never where they have not. Hands back the least count.
    pub fn complete(&self, at_least: usize) -> Result<usize, String> {
        let mut least = usize::MAX;
        for (layout, parities) in [(0, 1), (0, 2), (1, 1), (1, 2)] {
            least = least.min(self.least(layout, parities, at_least, |_| true)?);
        }
        Ok(least)
    }

    /// The same of the bench program, which has two parities that are fixed, and no put back.
    pub fn of_bench(&self, at_least: usize) -> Result<usize, String> {
        self.least(0, 2, at_least, |event| !OF_PUT_BACK.contains(&event))
    }

    /// The same of one layout and one count of parities, and of the ways that there may be.
    fn least(
        &self,
        layout: usize,
        parities: usize,
        at_least: usize,
        may_be: impl Fn(Event) -> bool,
    ) -> Result<usize, String> {
        let mut least = usize::MAX;
        for &event in ALL {
            let count = self.0[layout][parities - 1][event as usize];
            let is_there = may_be(event) && is_there(event, layout, parities);
            if count < at_least && is_there || count > 0 && !is_there {
                let due = if is_there { at_least } else { 0 };
                let of = format!("layout {layout} and parities {parities}");
                return Err(format!("{event:?} was seen {count} times with {of}, not {due}"));
            }
            least = if is_there { least.min(count) } else { least };
        }
        Ok(least)
    }
}
