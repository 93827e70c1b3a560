//! The comparison on captures and frames files: psptrace and psplist run on every capture, pspsend on every frames file.
//!
//! psptrace gets its capture through a pipe, in pieces, psplist as a file, so both ways of reading are met. How a comparison
//! goes stands in `comparison`.

use std::fs;
use std::io;
use std::path::Path;

use crate::comparison::{self, Label, Subject, Tally, Turn};
use crate::faults::{Faults, Listed};
use crate::listing::{self, Detail};
use crate::packet::Refusal;
use crate::plan::{Job, Plan};
use crate::programs::{run_with_file, run_with_pipe, Printed};
use crate::sender::{self, Order};

/// Refusal numbers that entries and files have to show, and 0.
const EXPECTED: [u8; 21] = [0, 2, 3, 4, 5, 6, 7, 9, 10, 11, 12, 15, 21, 22, 23, 25, 41, 42, 43, 44, 45];
/// Those that sends have to show.
const EXPECTED_OF_SENDS: [u8; 7] = [0, 31, 32, 33, 35, 41, 43];
/// The titles of their tables.
const REFUSAL: &str = "refusal";
const SEND_REFUSAL: &str = "send refusal";

/// The commands of the proved programs, in words.
pub struct Setup {
    pub list: Vec<String>,
    pub trace: Vec<String>,
    pub send: Vec<String>,
}

/// Runs the whole comparison and prints what came of it; answers whether nothing differs, every number came up, and each
/// of the faults was found.
pub fn compare(setup: &Setup, faults: Vec<Listed>, seed: u64, wanted: usize) -> io::Result<bool> {
    comparison::run(setup, &mut Plan::new(seed, wanted), faults)
}

impl Subject for Setup {
    type Job = Job;
    const SORTS: [&'static str; 2] = ["captures", "sends"];

    fn sort(job: &Job) -> usize {
        match job {
            Job::Capture(_) => 0,
            Job::Send(_) => 1,
        }
    }

    /// What psptrace and psplist print for a capture; for a frames file what pspsend does, on standard error and on
    /// standard output.
    fn run_proved(&self, job: &Job, turn: Turn, input: &Path) -> io::Result<Vec<Printed>> {
        match job {
            Job::Capture(capture) => {
                let Turn([captures, _]) = turn;
                let piece = [65_536, 4_096, 999, 60_000][captures % 4];
                let trace = run_with_pipe(&self.trace, &capture.file, piece)?;
                fs::write(input, &capture.file)?;
                let list = run_with_file(&self.list, &[], input)?;
                Ok(vec![Printed::new("psptrace", &trace, &trace.stdout), Printed::new("psplist", &list, &list.stdout)])
            }
            Job::Send(case) => {
                let Order { session, flow, number, limit } = case.order;
                let words = [session.to_string(), flow.to_string(), number.to_string(), limit.to_string()];
                fs::write(input, &case.file)?;
                let sent = run_with_file(&self.send, &words, input)?;
                Ok(vec![
                    Printed::new("pspsend (standard error)", &sent, &sent.stderr),
                    Printed::new("pspsend", &sent, &sent.stdout),
                ])
            }
        }
    }

    fn second_prints(job: &Job, faults: Faults) -> Vec<Vec<u8>> {
        match job {
            Job::Capture(capture) => [Detail::Trace, Detail::List]
                .map(|detail| listing::run(&capture.file, detail, faults).text.into_bytes())
                .into(),
            Job::Send(case) => match sender::send_file(case.order, &case.file, faults) {
                Ok(capture) => vec![Vec::new(), capture],
                Err(Refusal(number)) => vec![format!("refused {number}\n").into_bytes(), Vec::new()],
            },
        }
    }

    fn tally(job: &Job) -> Tally {
        match job {
            Job::Capture(capture) => tally_listing(&listing::run(&capture.file, Detail::List, Faults::NONE)),
            Job::Send(case) => {
                let sent = sender::send_file(case.order, &case.file, Faults::NONE);
                let mut tally = Tally::default();
                tally.count("sends", 1);
                tally.number(SEND_REFUSAL, sent.map_or_else(|Refusal(number)| number, |_| 0));
                tally
            }
        }
    }

    fn expected() -> Vec<(&'static str, Vec<Label>)> {
        let numbers = |numbers: &[u8]| numbers.iter().map(|number| Label::Number(*number)).collect();
        vec![(REFUSAL, numbers(&EXPECTED)), (SEND_REFUSAL, numbers(&EXPECTED_OF_SENDS))]
    }

    fn summary(tally: &Tally) -> String {
        let [captures, entries, data, sends] =
            ["captures", "entries", "data entries", "sends"].map(|word| tally.counted(word));
        format!("{captures} captures with {entries} entries, {data} of them data entries, and {sends} sends")
    }

    fn describe(job: &Job) -> (String, &[u8], &'static str) {
        match job {
            Job::Capture(capture) => (format!("capture {}", capture.name), &capture.file, "capture"),
            Job::Send(case) => (format!("send {} {:?}", case.name, case.order), &case.file, "frames"),
        }
    }
}

fn tally_listing(list: &listing::Listing) -> Tally {
    let mut tally = Tally::default();
    tally.count("captures", 1);
    tally.count("entries", list.entries.len());
    tally.count("data entries", list.data_entries());
    for (_, code) in &list.entries {
        tally.number(REFUSAL, *code);
    }
    if list.file_code != 0 {
        tally.number(REFUSAL, list.file_code);
    }
    tally
}
