//! How a comparison goes, whatever it is about: the proved programs and this one are given the same files, and what they
//! print is compared byte for byte. `compare` has captures and frames files, `pcap_compare` pcap files.
//!
//! Two threads take jobs off the plan. The proved programs are started as processes; this program's answer is worked out
//! in place. The first difference ends the comparison; which one is first does not depend on the threads, because jobs
//! are handed out in order and those handed out are finished.
//!
//! Deliberate faults are looked for in the same run: where a job has shown no difference, what the proved programs have
//! printed is compared once more, with what this program prints with each fault that no earlier job has shown. So a proved
//! program is started once for a job, however many faults there are.

use std::collections::BTreeMap;
use std::fmt;
use std::fs;
use std::io;
use std::path::{Path, PathBuf};
use std::sync::{Mutex, MutexGuard};
use std::thread;

use crate::faults::{Fault, Faults, Listed};
use crate::programs::{print_first_difference, Printed};

const THREADS: usize = 2;

/// What is compared: jobs of two sorts, and the proved programs' commands.
pub trait Subject: Sync {
    type Job: Send;
    /// What the two sorts are called, in the plural.
    const SORTS: [&'static str; 2];

    /// Which of the two sorts a job is of.
    fn sort(job: &Self::Job) -> usize;
    /// What the proved programs print for a job. The input is a file that may be written for them.
    fn run_proved(&self, job: &Self::Job, turn: Turn, input: &Path) -> io::Result<Vec<Printed>>;
    /// What this program has for a job, in the place of each of these.
    fn second_prints(job: &Self::Job, faults: Faults) -> Vec<Vec<u8>>;
    /// What a job adds to the tally.
    fn tally(job: &Self::Job) -> Tally;
    /// Of each table of the tally, its title and what has to come up.
    fn expected() -> Vec<(&'static str, Vec<Label>)>;
    /// The tally's first line.
    fn summary(tally: &Tally) -> String;
    /// A job in words, its file, and how the name of such a file ends.
    fn describe(job: &Self::Job) -> (String, &[u8], &'static str);
}

/// How many jobs of each sort have been handed out, the one in hand included. Of two, the later one has more of both.
#[derive(Clone, Copy, Default, PartialEq, Eq, PartialOrd, Ord)]
pub struct Turn(pub [usize; 2]);

/// What a line of the tally is about.
#[derive(Clone, Copy, PartialEq, Eq, PartialOrd, Ord)]
pub enum Label {
    Number(u8),
    Word(&'static str),
}

/// How often things came up, in tables by title.
#[derive(Default)]
pub struct Tally(BTreeMap<(&'static str, Label), usize>);

impl Tally {
    pub fn note(&mut self, title: &'static str, label: Label, times: usize) {
        *self.0.entry((title, label)).or_default() += times;
    }

    pub fn number(&mut self, title: &'static str, number: u8) {
        self.note(title, Label::Number(number), 1);
    }

    pub fn count(&mut self, word: &'static str, times: usize) {
        self.note("", Label::Word(word), times);
    }

    /// How often something was counted that stands in no table.
    pub fn counted(&self, word: &'static str) -> usize {
        self.0.get(&("", Label::Word(word))).copied().unwrap_or_default()
    }

    fn add(&mut self, other: Tally) {
        for ((title, label), times) in other.0 {
            self.note(title, label, times);
        }
    }

    /// Prints a line for each label of a table, expected ones that never came up included; answers how many those are.
    fn print_table(&self, title: &'static str, expected: &[Label]) -> usize {
        let mut table: BTreeMap<Label, usize> = expected.iter().map(|label| (*label, 0)).collect();
        table.extend(
            self.0.iter().filter(|((other, _), _)| *other == title).map(|((_, label), times)| (*label, *times)),
        );
        for (label, times) in &table {
            println!("{title} {label}: {times}");
        }
        table.values().filter(|times| **times == 0).count()
    }
}

impl fmt::Display for Label {
    fn fmt(&self, formatter: &mut fmt::Formatter) -> fmt::Result {
        match self {
            Label::Number(number) => write!(formatter, "{number}"),
            Label::Word(word) => write!(formatter, "{word}"),
        }
    }
}

/// An output that is not what it should be.
struct Difference {
    proved: Printed,
    second: Vec<u8>,
}

/// A difference with the job that showed it.
struct Finding<J> {
    turn: Turn,
    job: J,
    difference: Difference,
}

/// What the threads share.
struct Shared<'a, J> {
    plan: &'a mut (dyn Iterator<Item = J> + Send),
    turn: Turn,
    tally: Tally,
    findings: Vec<Finding<J>>,
    /// Each fault with the first job that showed it.
    faults: Vec<(Listed, Option<Turn>)>,
    failure: Option<io::Error>,
}

/// Runs the whole comparison and prints what came of it; answers whether nothing differs, all that is expected came up,
/// and each of the faults was found.
pub fn run<S: Subject>(
    subject: &S,
    plan: &mut (dyn Iterator<Item = S::Job> + Send),
    faults: Vec<Listed>,
) -> io::Result<bool> {
    let folder = std::env::temp_dir().join(format!("second-compare-{}", std::process::id()));
    fs::create_dir_all(&folder)?;
    let shared = Mutex::new(Shared {
        plan,
        turn: Turn::default(),
        tally: Tally::default(),
        findings: Vec::new(),
        faults: faults.into_iter().map(|listed| (listed, None)).collect(),
        failure: None,
    });
    thread::scope(|scope| {
        for worker in 0..THREADS {
            let input = folder.join(format!("input-{worker}"));
            let shared = &shared;
            scope.spawn(move || work(subject, shared, &input));
        }
    });
    let shared = shared.into_inner().expect("no thread stopped");
    for worker in 0..THREADS {
        let _ = fs::remove_file(folder.join(format!("input-{worker}")));
    }
    if let Some(failure) = shared.failure {
        let _ = fs::remove_dir(&folder);
        return Err(failure);
    }
    if let Some(first) = shared.findings.iter().min_by_key(|finding| finding.turn) {
        report_difference::<S>(first, &folder)?;
        return Ok(false);
    }
    fs::remove_dir(&folder)?;
    let complete = report_tally::<S>(&shared.tally);
    Ok(report_faults::<S>(&shared.faults) && complete)
}

/// Takes jobs until there are none, or something differs.
fn work<S: Subject>(subject: &S, shared: &Mutex<Shared<S::Job>>, input: &Path) {
    while let Some((turn, job)) = next_job::<S>(shared) {
        let compared = subject.run_proved(&job, turn, input).map(|proved| compare_job::<S>(&job, proved));
        let proved = match compared {
            Ok(Ok(proved)) => proved,
            Ok(Err(difference)) => {
                lock(shared).findings.push(Finding { turn, job, difference: *difference });
                continue;
            }
            Err(failure) => {
                lock(shared).failure = Some(failure);
                continue;
            }
        };
        let tally = S::tally(&job);
        lock(shared).tally.add(tally);
        look_for_faults::<S>(shared, turn, &job, &proved);
    }
}

/// Notes which faults a job shows, of those that none before it has shown.
fn look_for_faults<S: Subject>(shared: &Mutex<Shared<S::Job>>, turn: Turn, job: &S::Job, proved: &[Printed]) {
    let is_open = |first: &Option<Turn>| first.is_none_or(|first| turn < first);
    let open: Vec<Fault> =
        lock(shared).faults.iter().filter(|(_, first)| is_open(first)).map(|((fault, _, _), _)| *fault).collect();
    let shown: Vec<Fault> = open.into_iter().filter(|fault| shows::<S>(job, proved, Faults::of(*fault))).collect();
    for ((fault, _, _), first) in &mut lock(shared).faults {
        if shown.contains(fault) && is_open(first) {
            *first = Some(turn);
        }
    }
}

fn lock<'s, 'a, J>(shared: &'s Mutex<Shared<'a, J>>) -> MutexGuard<'s, Shared<'a, J>> {
    shared.lock().expect("no thread stopped")
}

/// The next job, with how many have been handed out.
fn next_job<S: Subject>(shared: &Mutex<Shared<S::Job>>) -> Option<(Turn, S::Job)> {
    let mut shared = lock(shared);
    if shared.failure.is_some() || !shared.findings.is_empty() {
        return None;
    }
    let job = shared.plan.next()?;
    shared.turn.0[S::sort(&job)] += 1;
    Some((shared.turn, job))
}

/// Gives back what the proved programs have printed, where it is what it should be.
fn compare_job<S: Subject>(job: &S::Job, proved: Vec<Printed>) -> Result<Vec<Printed>, Box<Difference>> {
    let second = S::second_prints(job, Faults::NONE);
    let differs = |(proved, second): (&Printed, &Vec<u8>)| proved.stopped || proved.bytes != *second;
    match proved.iter().zip(&second).position(differs) {
        None => Ok(proved),
        Some(place) => {
            let proved = proved.into_iter().nth(place).expect("a place of the list");
            Err(Box::new(Difference { proved, second: second[place].clone() }))
        }
    }
}

/// Whether this program with the fault prints another thing for a job than the proved programs.
fn shows<S: Subject>(job: &S::Job, proved: &[Printed], faults: Faults) -> bool {
    S::second_prints(job, faults).iter().zip(proved).any(|(second, proved)| *second != proved.bytes)
}

/// Prints how much was compared and how often each thing came up; answers whether all did.
fn report_tally<S: Subject>(tally: &Tally) -> bool {
    println!("compared {}: no difference", S::summary(tally));
    let missing: usize = S::expected().iter().map(|(title, labels)| tally.print_table(title, labels)).sum();
    if missing > 0 {
        println!("{missing} of these never came up");
    }
    missing == 0
}

/// Prints which job was the first to show each fault; answers whether each has one.
fn report_faults<S: Subject>(faults: &[(Listed, Option<Turn>)]) -> bool {
    for ((_, name, _), first) in faults {
        match first {
            Some(turn) => println!("fault {name}: found after {}", turn.told::<S>()),
            None => println!("fault {name}: NOT FOUND"),
        }
    }
    let missed = faults.iter().filter(|(_, first)| first.is_none()).count();
    if !faults.is_empty() {
        println!("faults: {} found, {missed} not found", faults.len() - missed);
    }
    missed == 0
}

impl Turn {
    fn told<S: Subject>(self) -> String {
        let Turn([first, second]) = self;
        match second {
            0 => format!("{first} {}", S::SORTS[0]),
            _ => format!("{first} {} and {second} {}", S::SORTS[0], S::SORTS[1]),
        }
    }
}

/// Prints where a difference is, and keeps the input that shows it.
fn report_difference<S: Subject>(finding: &Finding<S::Job>, folder: &Path) -> io::Result<()> {
    let Difference { proved: Printed { program, bytes, remark, .. }, second } = &finding.difference;
    let (name, file, ending) = S::describe(&finding.job);
    println!("difference after {}: {program}, {name}", finding.turn.told::<S>());
    print_first_difference(bytes, second);
    println!("{remark}");
    let Turn([first, second]) = finding.turn;
    let kept: PathBuf = folder.join(format!("{first}-{second}.{ending}"));
    fs::write(&kept, file)?;
    println!("kept as {}", kept.display());
    Ok(())
}
