//! Capture files: reading and writing.
//!
//! Document 01, 'Capture file and listing': the number of entries, then the contents, then the bodies back to back;
//! document 02, W1, adds data over UDP. A file is read whole and cut into entries, or refused with one of 41 to 45.

use crate::faults::{Fault, Faults};
use crate::packet::{big_endian, Kind, Packet, Refusal, Transport};

pub const LONGEST_FILE: usize = 60_000;
pub const MOST_ENTRIES: usize = 1_000;
/// The bytes of N, and those of one entry of the contents.
pub const NUMBER_BYTES: usize = 2;
pub const CONTENTS_BYTES: usize = 4;

/// One entry of a capture, together with its body.
#[derive(Clone, Debug, PartialEq, Eq)]
pub enum Entry {
    Open(Kind, u32),
    Close(u32),
    Data(Packet),
}

/// A capture, cut into entries.
#[derive(Clone, Debug, Default, PartialEq, Eq)]
pub struct Capture {
    pub entries: Vec<Entry>,
}

/// An entry of the contents as it stands in a file.
struct Line {
    kind: u8,
    second: u8,
    length: usize,
}

impl Entry {
    pub fn kind_number(&self) -> u8 {
        match self {
            Entry::Open(kind, _) => kind.number(),
            Entry::Close(_) => 3,
            Entry::Data(Packet { transport: Transport::Ip, .. }) => 4,
            Entry::Data(Packet { transport: Transport::Udp, .. }) => 5,
        }
    }

    pub fn body(&self) -> Vec<u8> {
        match self {
            Entry::Open(_, session) | Entry::Close(session) => session.to_be_bytes().to_vec(),
            Entry::Data(packet) => packet.bytes.clone(),
        }
    }

    /// The bytes that the entry takes in a file, contents and body.
    pub fn size(&self) -> usize {
        match self {
            Entry::Open(..) | Entry::Close(_) => CONTENTS_BYTES + 4,
            Entry::Data(packet) => CONTENTS_BYTES + packet.bytes.len(),
        }
    }
}

impl Capture {
    /// Cuts a file into entries, or refuses it.
    pub fn read(file: &[u8], faults: Faults) -> Result<Capture, Refusal> {
        let longest = if faults.has(Fault::LongestFileRefused) { LONGEST_FILE - 1 } else { LONGEST_FILE };
        if file.len() > longest {
            return Err(Refusal(41));
        }
        let (lines, bodies) = split_contents(file, faults)?;
        let fill = check_fill(&lines, bodies, faults);
        if faults.has(Fault::FillBeforeKind) {
            fill?;
        }
        check_lines(&lines, faults)?;
        fill?;
        Ok(Capture { entries: take_bodies(&lines, bodies, faults) })
    }

    /// The file of a capture.
    pub fn write(&self) -> Vec<u8> {
        let mut file = (self.entries.len() as u16).to_be_bytes().to_vec();
        for entry in &self.entries {
            file.extend([entry.kind_number(), 0]);
            file.extend((entry.body().len() as u16).to_be_bytes());
        }
        file.extend(self.entries.iter().flat_map(Entry::body));
        file
    }

    /// The length of the file of a capture.
    pub fn size(&self) -> usize {
        NUMBER_BYTES + self.entries.iter().map(Entry::size).sum::<usize>()
    }

    /// Refusals 41 and 43, for a capture that is about to be written.
    pub fn check_size(&self) -> Result<(), Refusal> {
        if self.size() > LONGEST_FILE {
            return Err(Refusal(41));
        }
        if self.entries.len() > MOST_ENTRIES {
            return Err(Refusal(43));
        }
        Ok(())
    }
}

/// Refusals 42 and 43: cuts the contents off a file.
fn split_contents(file: &[u8], faults: Faults) -> Result<(Vec<Line>, &[u8]), Refusal> {
    let (number, rest) = file.split_at_checked(NUMBER_BYTES).ok_or(Refusal(42))?;
    let entries = big_endian(number) as usize;
    let contents = rest.split_at_checked(CONTENTS_BYTES * entries);
    if entries > MOST_ENTRIES {
        let short = contents.is_none() && faults.has(Fault::ShortBeforeTooMany);
        return Err(Refusal(if short { 42 } else { 43 }));
    }
    let (contents, bodies) = contents.ok_or(Refusal(42))?;
    Ok((contents.chunks_exact(CONTENTS_BYTES).map(read_line).collect(), bodies))
}

fn read_line(bytes: &[u8]) -> Line {
    Line { kind: bytes[0], second: bytes[1], length: big_endian(&bytes[2..4]) as usize }
}

/// Refusal 44: another kind, a second byte not 0, or a wrong length for an entry that has a session ID as its body.
fn check_lines(lines: &[Line], faults: Faults) -> Result<(), Refusal> {
    let sound = lines.iter().all(|line| {
        let second = line.second == 0 || faults.has(Fault::SecondByteUnjudged);
        let length = match line.kind {
            1..=3 => line.length == 4,
            4 => true,
            5 => !faults.has(Fault::UdpKindRefused),
            _ => false,
        };
        second && length
    });
    if sound {
        Ok(())
    } else {
        Err(Refusal(44))
    }
}

/// Refusal 45: the bodies fill the rest of the file exactly.
fn check_fill(lines: &[Line], bodies: &[u8], faults: Faults) -> Result<(), Refusal> {
    let claimed: usize = lines.iter().map(|line| line.length).sum();
    let leftover_passes = faults.has(Fault::LeftoverAccepted) && claimed < bodies.len();
    if claimed == bodies.len() || leftover_passes {
        Ok(())
    } else {
        Err(Refusal(45))
    }
}

/// Hands each entry its body. Only for contents that have been judged sound.
fn take_bodies(lines: &[Line], bodies: &[u8], faults: Faults) -> Vec<Entry> {
    let udp = if faults.has(Fault::UdpKindRunAsIp) { Transport::Ip } else { Transport::Udp };
    let mut rest = bodies;
    let mut entries = Vec::with_capacity(lines.len());
    for line in lines {
        let (body, after) = rest.split_at(line.length);
        rest = after;
        entries.push(match line.kind {
            1 => Entry::Open(Kind::Psp, big_endian(body)),
            2 => Entry::Open(Kind::Dmpt, big_endian(body)),
            3 => Entry::Close(big_endian(body)),
            4 => Entry::Data(Packet { transport: Transport::Ip, bytes: body.to_vec() }),
            _ => Entry::Data(Packet { transport: udp, bytes: body.to_vec() }),
        });
    }
    entries
}

#[cfg(test)]
pub mod samples {
    //! The capture of document 01, 'Capture file and listing', in entries.

    use super::*;
    use crate::packet::samples::{A, B};

    pub fn capture() -> Capture {
        let data = |bytes: &[u8]| Entry::Data(Packet { transport: Transport::Ip, bytes: bytes.to_vec() });
        let entries = vec![Entry::Open(Kind::Psp, 0x101), data(&A), data(&B), data(&B), Entry::Close(0x101)];
        Capture { entries }
    }
}

#[cfg(test)]
mod tests {
    use super::*;

    #[test]
    fn the_paper_s_capture_has_84_bytes_and_is_read_back() {
        let capture = samples::capture();
        let file = capture.write();
        assert_eq!(file.len(), 84);
        assert_eq!(&file[..14], &[0, 5, 1, 0, 0, 4, 4, 0, 0, 20, 4, 0, 0, 17]);
        assert_eq!(Capture::read(&file, Faults::NONE), Ok(capture));
    }

    #[test]
    fn kind_5_is_data_over_udp_of_any_length() {
        let over_udp = |bytes: &[u8]| Entry::Data(Packet { transport: Transport::Udp, bytes: bytes.to_vec() });
        let capture = Capture { entries: vec![over_udp(&[]), over_udp(&[7, 8])] };
        assert_eq!(capture.write(), [0, 2, 5, 0, 0, 0, 5, 0, 0, 2, 7, 8]);
        assert_eq!(Capture::read(&capture.write(), Faults::NONE), Ok(capture));
    }

    #[test]
    fn files_are_refused_in_order() {
        let refused = |file: &[u8]| Capture::read(file, Faults::NONE).unwrap_err().0;
        assert_eq!(refused(&vec![0xFF; 60_001]), 41);
        assert_eq!(refused(&[]), 42);
        assert_eq!(refused(&[0]), 42);
        assert_eq!(refused(&[0, 1, 9, 9, 9]), 42);
        assert_eq!(refused(&[3, 0xE9]), 43);
        assert_eq!(refused(&[0, 1, 8, 0, 0, 9]), 44);
        assert_eq!(refused(&[0, 1, 4, 1, 0, 0]), 44);
        assert_eq!(refused(&[0, 1, 5, 1, 0, 0]), 44);
        assert_eq!(refused(&[0, 1, 3, 0, 0, 5, 0, 0, 0, 0, 0]), 44);
        assert_eq!(refused(&[0, 0, 0]), 45);
        assert_eq!(refused(&[0, 1, 4, 0, 0, 1]), 45);
        assert_eq!(refused(&[0, 1, 5, 0, 0, 1]), 45);
    }
}
