//! The text that `psplist` and `psptrace` print for a capture.
//!
//! Document 01, 'Capture file and listing': a header and a line for each entry. psptrace adds, after each entry's line,
//! lines that start with a space: the frames that the entry delivered, and the open rows with their flows as they stand
//! afterwards. Fresh flows are left out.

use std::fmt::Write;

use crate::capture::{Capture, Entry};
use crate::card::{Answer, Card, Flow};
use crate::faults::{Fault, Faults};
use crate::packet::{Refusal, Transport};

pub const HEADER: &str = "n what code frames bytes dropped gap";

/// How much is printed.
#[derive(Clone, Copy, Debug, PartialEq, Eq)]
pub enum Detail {
    /// psplist's text.
    List,
    /// psptrace's text.
    Trace,
}

/// The text for a capture file, with what a comparison counts.
#[derive(Clone, Debug, PartialEq, Eq)]
pub struct Listing {
    pub text: String,
    /// The file's refusal number, or 0.
    pub file_code: u8,
    /// For each entry: whether it is a data entry, and its refusal number or 0.
    pub entries: Vec<(bool, u8)>,
}

impl Listing {
    pub fn data_entries(&self) -> usize {
        self.entries.iter().filter(|(is_data, _)| *is_data).count()
    }
}

/// Runs a capture file from an empty table and writes down what happens.
pub fn run(file: &[u8], detail: Detail, faults: Faults) -> Listing {
    let capture = match Capture::read(file, faults) {
        Ok(capture) => capture,
        Err(Refusal(number)) => {
            return Listing { text: format!("refused {number}\n"), file_code: number, entries: Vec::new() };
        }
    };
    let mut card = Card::new(faults);
    let mut text = format!("{HEADER}\n");
    let mut entries = Vec::with_capacity(capture.entries.len());
    for (index, entry) in capture.entries.iter().enumerate() {
        let (code, answer) = match call(&mut card, entry) {
            Ok(answer) => (0, answer),
            Err(Refusal(number)) => (number, Answer::default()),
        };
        print_entry(&mut text, index, entry, code, &answer, faults);
        if detail == Detail::Trace {
            print_frames(&mut text, &answer);
            print_rows(&mut text, &card);
        }
        entries.push((matches!(entry, Entry::Data(_)), code));
    }
    Listing { text, file_code: 0, entries }
}

/// The call that an entry stands for.
fn call(card: &mut Card, entry: &Entry) -> Result<Answer, Refusal> {
    match entry {
        Entry::Open(kind, session) => card.open(*session, *kind),
        Entry::Close(session) => card.close(*session),
        Entry::Data(packet) => card.data(packet.transport, &packet.bytes),
    }
}

/// The word for data is the same whatever its transport.
fn print_entry(text: &mut String, index: usize, entry: &Entry, code: u8, answer: &Answer, faults: Faults) {
    let what = match entry {
        Entry::Open(..) => "open",
        Entry::Close(_) => "close",
        Entry::Data(packet) if packet.transport == Transport::Udp && faults.has(Fault::UdpEntryNamedUdp) => "udp",
        Entry::Data(_) => "data",
    };
    let (frames, bytes, dropped, gap) = (answer.frames.len(), answer.bytes(), answer.dropped, answer.gap);
    line(text, format_args!("{index} {what} {code} {frames} {bytes} {dropped} {gap}"));
}

fn print_frames(text: &mut String, answer: &Answer) {
    for frame in &answer.frames {
        line(text, format_args!(" frame {}", hex(frame)));
    }
}

fn print_rows(text: &mut String, card: &Card) {
    for (id, session) in card.rows() {
        let row = session.row;
        line(text, format_args!(" row {row} {id} {}", session.kind.number()));
        for (number, flow) in session.flows.iter().enumerate() {
            print_flow(text, row, number, flow);
        }
    }
}

fn print_flow(text: &mut String, row: usize, number: usize, flow: &Flow) {
    if let Some(expected) = flow.expected {
        let bytes = if flow.held.is_empty() { "-".to_string() } else { hex(&flow.held) };
        line(text, format_args!(" flow {row} {number} {expected} {} {bytes}", flow.held.len()));
    }
}

fn line(text: &mut String, words: std::fmt::Arguments) {
    writeln!(text, "{words}").expect("a string takes any text");
}

/// Lower-case hex.
pub fn hex(bytes: &[u8]) -> String {
    const DIGITS: &[u8; 16] = b"0123456789abcdef";
    bytes.iter().flat_map(|byte| [byte >> 4, byte & 0x0F]).map(|digit| char::from(DIGITS[usize::from(digit)])).collect()
}

#[cfg(test)]
mod tests {
    use super::*;
    use crate::capture::samples::capture;

    const LIST: &str = "\
n what code frames bytes dropped gap
0 open 0 0 0 0 0
1 data 0 1 6 0 0
2 data 0 1 9 0 0
3 data 12 0 0 0 0
4 close 0 0 0 0 0
";

    const TRACE: &str = "\
n what code frames bytes dropped gap
0 open 0 0 0 0 0
 row 0 257 1
1 data 0 1 6 0 0
 frame 111213141516
 row 0 257 1
 flow 0 1 0 2 2122
2 data 0 1 9 0 0
 frame 212223242526272829
 row 0 257 1
 flow 0 1 1 0 -
3 data 12 0 0 0 0
 row 0 257 1
 flow 0 1 1 0 -
4 close 0 0 0 0 0
";

    #[test]
    fn the_paper_s_capture_is_listed_as_printed_there() {
        assert_eq!(run(&capture().write(), Detail::List, Faults::NONE).text, LIST);
    }

    #[test]
    fn the_trace_adds_frames_and_rows() {
        assert_eq!(run(&capture().write(), Detail::Trace, Faults::NONE).text, TRACE);
    }

    /// The same capture with its packets over UDP, and then with every second one: the same listing and trace.
    #[test]
    fn the_transport_is_not_seen_in_what_is_printed() {
        for over_ip in [&[][..], &[1, 3], &[2]] {
            let mut capture = capture();
            for (index, entry) in capture.entries.iter_mut().enumerate() {
                if let Entry::Data(packet) = entry {
                    if !over_ip.contains(&index) {
                        packet.transport = Transport::Udp;
                        packet.bytes.splice(..0, [0, 3, 0, 0]);
                    }
                }
            }
            assert_eq!(run(&capture.write(), Detail::List, Faults::NONE).text, LIST);
            assert_eq!(run(&capture.write(), Detail::Trace, Faults::NONE).text, TRACE);
        }
    }

    #[test]
    fn a_refused_file_prints_one_line() {
        assert_eq!(run(&[], Detail::Trace, Faults::NONE).text, "refused 42\n");
    }
}
