//! How many comparisons were made, by how the reading ended.

use crate::text::STATUSES;
use answers::Call;
use std::fmt;
use std::ops::AddAssign;

/// The number of comparisons for each status, of the positions of errors, of the round trips through
/// the plain form, and of the complete heads that have none, since a value was folded.
#[derive(Clone, Copy, Default)]
pub struct Tally {
    statuses: [u64; STATUSES.len()],
    positions: u64,
    round_trips: u64,
    folded: u64,
}

impl Tally {
    /// Counts one comparison; a status is an index, since httparse's answer was translated to it.
    pub fn count(&mut self, status: u32) {
        self.statuses[status as usize] += 1;
    }

    pub fn count_position(&mut self) {
        self.positions += 1;
    }

    pub fn count_round_trip(&mut self) {
        self.round_trips += 1;
    }

    pub fn count_folded(&mut self) {
        self.folded += 1;
    }

    /// Panics if a complete head was not sent through its plain form, though it has one; a chunk size
    /// line has none.
    pub fn assert_all_came_back(&self, heads: u64) {
        assert_eq!(
            self.round_trips + self.folded,
            heads,
            "not every head was sent on its way"
        );
    }

    /// How many complete heads had a value that was folded.
    pub fn folded(&self) -> u64 {
        self.folded
    }

    /// Panics if the position of an error was not compared.
    pub fn assert_all_placed(&self) {
        assert_eq!(
            self.positions,
            self.errors(),
            "not every error's position was compared"
        );
    }

    pub fn complete(&self) -> u64 {
        self.statuses[0]
    }

    fn errors(&self) -> u64 {
        self.statuses[2..].iter().sum()
    }

    pub fn total(&self) -> u64 {
        self.statuses.iter().sum()
    }

    /// Panics if something that a call may answer was never answered: then the cases were too few.
    pub fn assert_all_seen(&self, call: Call) {
        for &status in statuses(call) {
            assert!(
                self.statuses[status] > 0,
                "{call} was never {}",
                STATUSES[status]
            );
        }
    }
}

/// All that a call may answer.
fn statuses(call: Call) -> &'static [usize] {
    match call {
        Call::Request => &[0, 1, 2, 3, 4, 6, 7, 8],
        Call::Response => &[0, 1, 2, 3, 4, 5, 7, 8],
        Call::Headers => &[0, 1, 2, 3, 4, 7],
        Call::ChunkSize => &[0, 1, 9],
    }
}

impl AddAssign for Tally {
    fn add_assign(&mut self, other: Tally) {
        for (sum, more) in self.statuses.iter_mut().zip(other.statuses) {
            *sum += more;
        }
        self.positions += other.positions;
        self.round_trips += other.round_trips;
        self.folded += other.folded;
    }
}

impl fmt::Display for Tally {
    fn fmt(&self, formatter: &mut fmt::Formatter<'_>) -> fmt::Result {
        write!(
            formatter,
            "{} comparisons ({} complete, {} incomplete, {} errors), {} positions",
            self.total(),
            self.statuses[0],
            self.statuses[1],
            self.errors(),
            self.positions
        )?;
        if self.round_trips > 0 {
            write!(formatter, " and {} round trips", self.round_trips)?;
        }
        if self.folded > 0 {
            write!(formatter, ", {} folded heads without", self.folded)?;
        }
        Ok(())
    }
}
