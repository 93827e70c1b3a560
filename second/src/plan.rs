//! The plan of a comparison: which captures and frames files are run, in which order.
//!
//! Directed captures and directed frames files come first, because they find most differences soonest. Then captures
//! are made by dice until as many data entries have been handed out as were asked for, and at last frames files made by
//! dice. The plan depends on the seed and the count only.

use std::vec::IntoIter;

use crate::directed::{self, NamedCapture};
use crate::faults::Faults;
use crate::generate;
use crate::listing::{self, Detail};
use crate::sends::{self, SendCase};

/// One thing to compare.
#[derive(Clone, Debug)]
pub enum Job {
    Capture(NamedCapture),
    Send(SendCase),
}

/// Hands out the jobs, in order.
pub struct Plan {
    seed: u64,
    wanted: usize,
    data_entries: usize,
    directed: IntoIter<NamedCapture>,
    directed_sends: IntoIter<SendCase>,
    captures_made: usize,
    sends_made: usize,
}

/// No more frames files than this are made by dice.
const MOST_RANDOM_SENDS: usize = 240;

impl Plan {
    /// A plan that hands out captures until `wanted` data entries have gone out.
    pub fn new(seed: u64, wanted: usize) -> Plan {
        Plan {
            seed,
            wanted,
            data_entries: 0,
            directed: directed::captures().into_iter(),
            directed_sends: sends::directed().into_iter(),
            captures_made: 0,
            sends_made: 0,
        }
    }

    /// Counts the data entries of a capture that goes out; a refused file has none.
    fn count(&mut self, capture: NamedCapture) -> Job {
        self.data_entries += listing::run(&capture.file, Detail::List, Faults::NONE).data_entries();
        Job::Capture(capture)
    }
}

impl Iterator for Plan {
    type Item = Job;

    fn next(&mut self) -> Option<Job> {
        if let Some(capture) = self.directed.next() {
            return Some(self.count(capture));
        }
        if let Some(case) = self.directed_sends.next() {
            return Some(Job::Send(case));
        }
        if self.data_entries < self.wanted {
            let capture = generate::capture(self.seed, self.captures_made);
            self.captures_made += 1;
            return Some(self.count(capture));
        }
        if self.sends_made < MOST_RANDOM_SENDS.min(self.wanted / 400) {
            let case = sends::random(self.seed, self.sends_made);
            self.sends_made += 1;
            return Some(Job::Send(case));
        }
        None
    }
}
