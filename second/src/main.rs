//! The second program: document 01 once more, written apart from the proved programs, to be compared with them.
//!
//! This file has the commands. What they do stands in the modules: `packet` and `card` receive, `sender` sends,
//! `capture` reads and writes files, `listing` prints; `directed`, `transports`, `unnumbered`, `generate`, `sends` and
//! `plan` make what is compared, `compare` compares it. `pcap` imports pcap files and `pcap_export` writes them; `pcap_cases`,
//! `pcap_dice` and `pcap_captures` make what is imported and exported, and `pcap_compare` compares it; `comparison` has what
//! both comparisons share. `calls` answers as the C library does, on tables of `raw`;
//! `call_cases`, `transport_cases`, `unnumbered_cases` and `call_dice`, with `packets`, `tables` and `aimed`, make calls,
//! and `records` writes them. `mpeg` puts frames into MPEG packets and gets them out, and `mpeg_cases` makes calls of that.
//! `faults` makes this program wrong on purpose.

mod aimed;
mod call_cases;
mod call_dice;
mod calls;
mod capture;
mod card;
mod compare;
mod comparison;
mod craft;
mod dice;
mod directed;
mod faults;
mod generate;
mod listing;
mod mpeg;
mod mpeg_cases;
mod packet;
mod packets;
mod pcap;
mod pcap_captures;
mod pcap_cases;
mod pcap_compare;
mod pcap_craft;
mod pcap_dice;
mod pcap_export;
mod pcap_faults;
mod plan;
mod programs;
mod raw;
mod records;
mod sender;
mod sends;
mod tables;
mod transport_cases;
mod transports;
mod unnumbered;
mod unnumbered_cases;

use std::fs;
use std::io::{self, Read, Write};
use std::path::Path;
use std::process::ExitCode;

use faults::{Faults, Listed};
use listing::Detail;
use packet::Refusal;
use pcap::{Addresses, Prints};
use plan::{Job, Plan};
use records::{Recorded, Recorder, Stop};
use sender::Order;

const USAGE: &str = "\
second list < CAPTURE
second trace < CAPTURE
second check KIND TRANSPORT < PACKET
second send SESSION FLOW NUMBER L < FRAMES > CAPTURE
second calls [--faults] SEED COUNT > RECORDS
second generate SEED COUNT FOLDER
second compare [--faults] --list COMMAND --trace COMMAND --send COMMAND SEED COUNT
second mpeg [--faults] SEED COUNT > RECORDS
second stream < FRAMES > PACKETS
second import [ID ...] < FILE.pcap > CAPTURE
second export FROM-MAC TO-MAC FROM-IP TO-IP < CAPTURE > FILE.pcap
second pcap [--faults] --import COMMAND --export COMMAND SEED COUNT
second faults files
second faults calls
second faults mpeg
second faults pcap";

/// Status for a comparison that found a difference, or missed a refusal number or a fault. A refusal alone is an answer:
/// status 0.
const DIFFERENT: u8 = 1;
/// Status for words that make no command, and for files or programs that cannot be used.
const UNUSABLE: u8 = 2;

fn main() -> ExitCode {
    let words: Vec<String> = std::env::args().skip(1).collect();
    match run(&words) {
        Ok(status) => ExitCode::from(status),
        Err(error) => {
            eprintln!("second: {error}");
            ExitCode::from(UNUSABLE)
        }
    }
}

fn run(words: &[String]) -> io::Result<u8> {
    let words: Vec<&str> = words.iter().map(String::as_str).collect();
    match words.as_slice() {
        ["list"] => list(Detail::List),
        ["trace"] => list(Detail::Trace),
        ["check", kind, transport] => check(number(kind)?, number(transport)?),
        ["send", session, flow, first, limit] => send(Order {
            session: number(session)?,
            flow: number(flow)?,
            number: number(first)?,
            limit: number(limit)?,
        }),
        ["calls", rest @ ..] => calls(rest, faults::shown_by_calls().collect(), record_calls),
        ["mpeg", rest @ ..] => calls(rest, faults::MPEG.to_vec(), record_mpeg),
        ["stream"] => stream(),
        ["generate", seed, count, folder] => generate(number(seed)?, number(count)?, Path::new(folder)),
        ["compare", rest @ ..] => compare(rest),
        ["import", sessions @ ..] => import(sessions),
        ["export", from_mac, to_mac, from_ip, to_ip] => export([from_mac, to_mac, from_ip, to_ip]),
        ["pcap", rest @ ..] => compare_pcap(rest),
        ["faults", "files"] => list_faults(faults::FILES.into_iter()),
        ["faults", "calls"] => list_faults(faults::shown_by_calls()),
        ["faults", "mpeg"] => list_faults(faults::MPEG.into_iter()),
        ["faults", "pcap"] => list_faults(pcap_faults::PCAP.into_iter()),
        _ => Err(unusable(USAGE)),
    }
}

fn unusable(text: &str) -> io::Error {
    io::Error::new(io::ErrorKind::InvalidInput, text.to_string())
}

/// A word as a number in decimal.
fn number<N: std::str::FromStr>(word: &str) -> io::Result<N> {
    word.parse().map_err(|_| unusable(&format!("{word} is not a number that fits here")))
}

/// A session's ID in decimal, or in hexadecimal behind 0x.
fn session_number(word: &str) -> io::Result<u32> {
    match word.strip_prefix("0x") {
        Some(digits) => u32::from_str_radix(digits, 16).map_err(|_| unusable(&format!("{word} is no session ID"))),
        None => number(word),
    }
}

fn standard_input() -> io::Result<Vec<u8>> {
    let mut bytes = Vec::new();
    io::stdin().lock().read_to_end(&mut bytes)?;
    Ok(bytes)
}

fn list(detail: Detail) -> io::Result<u8> {
    let text = listing::run(&standard_input()?, detail, Faults::NONE).text;
    io::stdout().lock().write_all(text.as_bytes())?;
    Ok(0)
}

fn check(kind: u64, transport: u64) -> io::Result<u8> {
    println!("{}", packet::check(kind, transport, &standard_input()?, Faults::NONE));
    Ok(0)
}

fn send(order: Order) -> io::Result<u8> {
    match sender::send_file(order, &standard_input()?, Faults::NONE) {
        Ok(capture) => {
            io::stdout().lock().write_all(&capture)?;
            Ok(0)
        }
        Err(Refusal(number)) => {
            eprintln!("refused {number}");
            Ok(0)
        }
    }
}

fn import(words: &[&str]) -> io::Result<u8> {
    let sessions: io::Result<Vec<u32>> = words.iter().map(|word| session_number(word)).collect();
    print(pcap::print_import(&sessions?, &standard_input()?, Faults::NONE))
}

fn export(words: [&str; 4]) -> io::Result<u8> {
    let addresses =
        Addresses::read(words).ok_or_else(|| unusable("addresses are as 02:00:00:00:00:01 and 192.0.2.1"))?;
    print(pcap::print_export(&addresses, &standard_input()?, Faults::NONE))
}

fn print(Prints { error, output }: Prints) -> io::Result<u8> {
    io::stdout().lock().write_all(&output)?;
    io::stderr().lock().write_all(error.as_bytes())?;
    Ok(0)
}

/// Writes a file of frames as MPEG packets, all frames waiting from the start.
fn stream() -> io::Result<u8> {
    let packets = sender::read_frames(&standard_input()?).ok_or(Refusal(52)).and_then(|frames| mpeg::stream(&frames));
    match packets {
        Ok(packets) => io::stdout().lock().write_all(&packets)?,
        Err(Refusal(number)) => eprintln!("refused {number}"),
    }
    Ok(0)
}

/// Writes records of calls for `tests/calls.c` or `tests/mpeg.c`: the directed ones, then others by dice; with `--faults`
/// the faults too, each at the first call that shows it.
fn calls(words: &[&str], faults: Vec<Listed>, record: fn(&mut Recorder, u64) -> Recorded<()>) -> io::Result<u8> {
    let mut words = words.to_vec();
    let faults = if take_word(&mut words, "--faults") { faults } else { Vec::new() };
    let [seed, count] = words.as_slice() else {
        return Err(unusable(USAGE));
    };
    let mut output = io::BufWriter::with_capacity(1 << 16, io::stdout().lock());
    let (seed, count) = (number(seed)?, number(count)?);
    match write_records(&mut output, count, faults, |recorder| record(recorder, seed)) {
        // Who reads the records has seen a difference, and needs no more.
        Err(error) if error.kind() == io::ErrorKind::BrokenPipe => Ok(0),
        recorded => recorded.map(|()| 0),
    }
}

fn record_calls(recorder: &mut Recorder, seed: u64) -> Recorded<()> {
    recorder.begin(&records::CASES)?;
    call_cases::all(recorder)?;
    call_dice::endless(recorder, seed)
}

fn record_mpeg(recorder: &mut Recorder, seed: u64) -> Recorded<()> {
    recorder.begin(&mpeg_cases::CASES)?;
    mpeg_cases::all(recorder)?;
    mpeg_cases::endless(recorder, seed)
}

fn write_records(
    output: &mut dyn Write,
    count: usize,
    faults: Vec<Listed>,
    record: impl FnOnce(&mut Recorder) -> Recorded<()>,
) -> io::Result<()> {
    let mut recorder = Recorder::new(output, count, faults);
    match record(&mut recorder) {
        Err(Stop::Failed(error)) => Err(error),
        Err(Stop::Enough) | Ok(()) => recorder.end(),
    }
}

/// Writes the captures and frames files that a comparison of this seed and count uses.
fn generate(seed: u64, count: usize, folder: &Path) -> io::Result<u8> {
    fs::create_dir_all(folder)?;
    let mut orders = String::new();
    for (index, job) in (1..).zip(Plan::new(seed, count)) {
        match job {
            Job::Capture(capture) => {
                fs::write(folder.join(format!("{index:05}-{}.capture", capture.name)), capture.file)?
            }
            Job::Send(case) => {
                let name = format!("{index:05}-{}.frames", case.name);
                let Order { session, flow, number, limit } = case.order;
                orders.push_str(&format!("{name} {session} {flow} {number} {limit}\n"));
                fs::write(folder.join(name), case.file)?;
            }
        }
    }
    fs::write(folder.join("frames.txt"), orders)?;
    Ok(0)
}

fn compare(words: &[&str]) -> io::Result<u8> {
    let mut words = words.to_vec();
    let faults = if take_word(&mut words, "--faults") { faults::FILES.to_vec() } else { Vec::new() };
    let [list, trace, send] = ["--list", "--trace", "--send"].map(|option| take_program(&mut words, option));
    let (seed, count) = seed_and_count(&words)?;
    let setup = compare::Setup { list: list?, trace: trace?, send: send? };
    status_of(compare::compare(&setup, faults, seed, count)?)
}

fn compare_pcap(words: &[&str]) -> io::Result<u8> {
    let mut words = words.to_vec();
    let faults = if take_word(&mut words, "--faults") { pcap_faults::PCAP.to_vec() } else { Vec::new() };
    let [import, export] = ["--import", "--export"].map(|option| take_program(&mut words, option));
    let (seed, count) = seed_and_count(&words)?;
    let setup = pcap_compare::Setup { import: import?, export: export? };
    status_of(pcap_compare::compare(&setup, faults, seed, count)?)
}

fn seed_and_count(words: &[&str]) -> io::Result<(u64, usize)> {
    match words {
        [seed, count] => Ok((number(seed)?, number(count)?)),
        _ => Err(unusable(USAGE)),
    }
}

fn status_of(agrees: bool) -> io::Result<u8> {
    Ok(if agrees { 0 } else { DIFFERENT })
}

/// Takes an option with a program's command out of the words; answers the command in words of its own.
fn take_program(words: &mut Vec<&str>, option: &str) -> io::Result<Vec<String>> {
    let command = take_option(words, option).ok_or_else(|| unusable(USAGE))?;
    Ok(command.split_whitespace().map(str::to_string).collect())
}

/// Takes a word out of the words; answers whether it was there.
fn take_word(words: &mut Vec<&str>, wanted: &str) -> bool {
    let place = words.iter().position(|word| *word == wanted);
    place.map(|place| words.remove(place)).is_some()
}

/// Takes an option and the word after it out of the words; answers that word.
fn take_option<'a>(words: &mut Vec<&'a str>, option: &str) -> Option<&'a str> {
    let place = words.iter().position(|word| *word == option)?;
    if place + 1 == words.len() {
        return None;
    }
    words.remove(place);
    Some(words.remove(place))
}

fn list_faults(faults: impl Iterator<Item = Listed>) -> io::Result<u8> {
    for (_, name, sentence) in faults {
        println!("{name}: {sentence}");
    }
    Ok(0)
}
