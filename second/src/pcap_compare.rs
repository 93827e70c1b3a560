//! The comparison on pcap files: pspimport runs on every file, pspexport on every capture, and what pspexport has written
//! is given to pspimport, which has to give back the capture's data entries.
//!
//! Directed cases come first, then such as dice make, until as many files have been handed out as were asked for. How a
//! comparison goes stands in `comparison`.

use std::fs;
use std::io;
use std::path::Path;
use std::vec::IntoIter;

use crate::capture::{Capture, Entry};
use crate::comparison::{self, Label, Subject, Tally, Turn};
use crate::faults::{Faults, Listed};
use crate::packet::Refusal;
use crate::pcap::{self, Cause, Imported, Prints};
use crate::pcap_captures::{self, ExportCase};
use crate::pcap_cases::{self, ImportCase};
use crate::pcap_dice;
use crate::programs::{run_with_file, Printed};

/// Refusal numbers that files have to show, and 0.
const OF_IMPORTS: [u8; 4] = [0, 61, 62, 63];
const OF_EXPORTS: [u8; 6] = [0, 41, 42, 43, 44, 45];
/// Kinds of entries that imports have to give: opens, and packets over IP and over UDP.
const KINDS: [u8; 3] = [1, 4, 5];
/// The titles of the tally's tables.
const IMPORT_REFUSAL: &str = "import refusal";
const EXPORT_REFUSAL: &str = "export refusal";
const PASSED_OVER: &str = "passed over as";
const KIND: &str = "imported kind";

/// The commands of the proved programs, in words.
pub struct Setup {
    pub import: Vec<String>,
    pub export: Vec<String>,
}

/// One thing to compare.
#[derive(Clone, Debug)]
pub enum Job {
    Import(ImportCase),
    Export(ExportCase),
}

/// Hands out the jobs, in order. It depends on the seed and the count only.
pub struct Plan {
    seed: u64,
    left: usize,
    directed: IntoIter<ImportCase>,
    directed_exports: IntoIter<ExportCase>,
    made: usize,
}

/// Of the files that dice make, one in so many is exported.
const EXPORTS: usize = 16;

impl Plan {
    /// A plan of that many files, or of all the directed ones if that is more.
    pub fn new(seed: u64, wanted: usize) -> Plan {
        let (imports, exports) = (pcap_cases::directed(), pcap_captures::directed());
        let left = wanted.saturating_sub(imports.len() + exports.len());
        Plan { seed, left, directed: imports.into_iter(), directed_exports: exports.into_iter(), made: 0 }
    }
}

impl Iterator for Plan {
    type Item = Job;

    fn next(&mut self) -> Option<Job> {
        if let Some(case) = self.directed.next() {
            return Some(Job::Import(case));
        }
        if let Some(case) = self.directed_exports.next() {
            return Some(Job::Export(case));
        }
        if self.made == self.left {
            return None;
        }
        let index = self.made;
        self.made += 1;
        Some(match index % EXPORTS {
            0 => Job::Export(pcap_captures::random(self.seed, index / EXPORTS)),
            _ => Job::Import(pcap_dice::random(self.seed, index - index / EXPORTS)),
        })
    }
}

/// Runs the whole comparison and prints what came of it; answers whether nothing differs, every number, cause and kind
/// came up, and each of the faults was found.
pub fn compare(setup: &Setup, faults: Vec<Listed>, seed: u64, wanted: usize) -> io::Result<bool> {
    comparison::run(setup, &mut Plan::new(seed, wanted), faults)
}

impl Subject for Setup {
    type Job = Job;
    const SORTS: [&'static str; 2] = ["imports", "exports"];

    fn sort(job: &Job) -> usize {
        match job {
            Job::Import(_) => 0,
            Job::Export(_) => 1,
        }
    }

    /// What pspimport prints for a pcap file, and pspexport for a capture, each on standard error and on standard output;
    /// and where pspexport has written a file, what pspimport then prints for it.
    fn run_proved(&self, job: &Job, turn: Turn, input: &Path) -> io::Result<Vec<Printed>> {
        match job {
            Job::Import(case) => {
                fs::write(input, &case.file)?;
                let imported = run_with_file(&self.import, &session_words(&case.sessions, turn), input)?;
                Ok(vec![
                    Printed::new("pspimport (standard error)", &imported, &imported.stderr),
                    Printed::new("pspimport", &imported, &imported.stdout),
                ])
            }
            Job::Export(case) => {
                fs::write(input, &case.file)?;
                let exported = run_with_file(&self.export, &case.addresses.words(), input)?;
                let mut printed = vec![
                    Printed::new("pspexport (standard error)", &exported, &exported.stderr),
                    Printed::new("pspexport", &exported, &exported.stdout),
                ];
                if !exported.stdout.is_empty() {
                    fs::write(input, &exported.stdout)?;
                    let again = run_with_file(&self.import, &[], input)?;
                    printed.push(Printed::new("pspimport of the export (standard error)", &again, &again.stderr));
                    printed.push(Printed::new("pspimport of the export", &again, &again.stdout));
                }
                Ok(printed)
            }
        }
    }

    fn second_prints(job: &Job, faults: Faults) -> Vec<Vec<u8>> {
        match job {
            Job::Import(case) => {
                let Prints { error, output } = pcap::print_import(&case.sessions, &case.file, faults);
                vec![error.into_bytes(), output]
            }
            Job::Export(case) => {
                let Prints { error, output } = pcap::print_export(&case.addresses, &case.file, faults);
                let mut prints = vec![error.into_bytes(), output];
                if let Ok(capture) = data_entries(&case.file) {
                    let nothing_skipped = Cause::ALL.map(|cause| format!("{} 0\n", cause.name())).concat();
                    prints.extend([nothing_skipped.into_bytes(), capture.write()]);
                }
                prints
            }
        }
    }

    fn tally(job: &Job) -> Tally {
        let mut tally = Tally::default();
        match job {
            Job::Import(case) => {
                tally.count("imports", 1);
                match pcap::import(&case.sessions, &case.file, Faults::NONE) {
                    Err(Refusal(number)) => tally.number(IMPORT_REFUSAL, number),
                    Ok(imported) => tally_imported(&mut tally, &imported),
                }
            }
            Job::Export(case) => {
                tally.count("exports", 1);
                match data_entries(&case.file) {
                    Err(Refusal(number)) => tally.number(EXPORT_REFUSAL, number),
                    Ok(capture) => {
                        tally.number(EXPORT_REFUSAL, 0);
                        tally.count("given back", capture.entries.len());
                    }
                }
            }
        }
        tally
    }

    fn expected() -> Vec<(&'static str, Vec<Label>)> {
        let numbers = |numbers: &[u8]| numbers.iter().map(|number| Label::Number(*number)).collect();
        let causes = Cause::ALL.map(|cause| Label::Word(cause.name())).to_vec();
        vec![
            (IMPORT_REFUSAL, numbers(&OF_IMPORTS)),
            (PASSED_OVER, causes),
            (KIND, numbers(&KINDS)),
            (EXPORT_REFUSAL, numbers(&OF_EXPORTS)),
        ]
    }

    fn summary(tally: &Tally) -> String {
        let [imports, exports, data] = ["imports", "exports", "given back"].map(|word| tally.counted(word));
        format!("{imports} imports and {exports} exports, from which {data} data entries came back")
    }

    fn describe(job: &Job) -> (String, &[u8], &'static str) {
        match job {
            Job::Import(case) => (format!("import {} {:?}", case.name, case.sessions), &case.file, "pcap"),
            Job::Export(case) => {
                (format!("export {} {}", case.name, case.addresses.words().join(" ")), &case.file, "capture")
            }
        }
    }
}

/// The sessions as they are named to the program: in decimal, or every third time in hexadecimal.
fn session_words(sessions: &[u32], turn: Turn) -> Vec<String> {
    let Turn([imports, _]) = turn;
    let hexadecimal = imports.is_multiple_of(3);
    let word = |session: &u32| if hexadecimal { format!("{session:#x}") } else { session.to_string() };
    sessions.iter().map(word).collect()
}

/// A capture without what is not exported.
fn data_entries(file: &[u8]) -> Result<Capture, Refusal> {
    let Capture { mut entries } = Capture::read(file, Faults::NONE)?;
    entries.retain(|entry| matches!(entry, Entry::Data(_)));
    Ok(Capture { entries })
}

fn tally_imported(tally: &mut Tally, imported: &Imported) {
    tally.number(IMPORT_REFUSAL, 0);
    for (cause, times) in Cause::ALL.into_iter().zip(imported.skipped) {
        tally.note(PASSED_OVER, Label::Word(cause.name()), times);
    }
    for entry in &imported.capture.entries {
        tally.number(KIND, entry.kind_number());
    }
}

#[cfg(test)]
mod tests {
    use super::*;
    use crate::pcap::LONGEST_IMPORT;
    use crate::pcap_export;

    #[test]
    fn no_file_is_longer_than_the_program_takes() {
        let plan = Plan::new(1, 12_000);
        let too_long = |job: &Job| matches!(job, Job::Import(case) if case.file.len() > LONGEST_IMPORT);
        assert_eq!(plan.filter(too_long).count(), 0);
        let longest = pcap_cases::directed().iter().map(|case| case.file.len()).max();
        assert_eq!(longest, Some(LONGEST_IMPORT));
    }

    #[test]
    fn what_is_exported_is_imported_again() {
        for index in 0..300 {
            let case = pcap_captures::random(9, index);
            let Ok(exported) = pcap_export::export(&case.addresses, &case.file, Faults::NONE) else {
                continue;
            };
            let imported = pcap::import(&[], &exported.file, Faults::NONE);
            assert_eq!(imported, Ok(Imported { capture: data_entries(&case.file).unwrap(), skipped: [0; 4] }));
        }
    }
}
