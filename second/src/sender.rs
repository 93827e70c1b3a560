//! The sender: cuts frames into PSP packets, one packet to a call.
//!
//! Document 01, 'The sender'; it knows nothing of transports: over UDP a host puts four bytes before what it writes. The
//! generator of captures uses it to make traffic, and `second send` to make a whole capture out of a file of frames, as
//! `pspsend` does. Refusal 36, an output too short, does not exist here: a packet is a vector of the length that it
//! needs. `calls` has it.

use crate::capture::{Capture, Entry};
use crate::card::LONGEST_FRAME;
use crate::faults::{Fault, Faults};
use crate::packet::{Kind, Packet, Refusal, Transport, HIGHEST_FLOW};

pub const MOST_FRAMES: usize = 127;
pub const MOST_SEGMENTS: usize = 127;
pub const SMALLEST_LIMIT: usize = 16;
pub const LARGEST_LIMIT: usize = 4_096;

/// Where the next segment starts: the frame, and the offset in it.
#[derive(Clone, Copy, Debug, Default, PartialEq, Eq)]
pub struct Position {
    pub frame: usize,
    pub offset: usize,
}

/// What a caller asks for besides the frames: session, flow, sequence number, and the limit L on everything after the
/// session ID.
#[derive(Clone, Copy, Debug)]
pub struct Order {
    pub session: u32,
    pub flow: u8,
    pub number: u16,
    pub limit: usize,
}

/// A packet with the position and the number to go on with.
#[derive(Clone, Debug, PartialEq, Eq)]
pub struct Sent {
    pub packet: Vec<u8>,
    pub position: Position,
    pub number: u16,
}

/// The stretch of a frame that one segment takes.
struct Cut<'a> {
    begins: bool,
    ends: bool,
    bytes: &'a [u8],
}

/// Writes one packet, starting at the position given.
pub fn send(order: Order, frames: &[Vec<u8>], position: Position, faults: Faults) -> Result<Sent, Refusal> {
    check_order(order)?;
    check_frames(frames, faults)?;
    check_position(frames, position, faults)?;
    let (cuts, next) = cut(order.limit, frames, position, faults);
    let number = if faults.has(Fault::SentNumberNotWrapped) {
        order.number.saturating_add(1)
    } else {
        order.number.wrapping_add(1)
    };
    Ok(Sent { packet: write_packet(order, &cuts), position: next, number })
}

/// Refusals 31 and 32.
pub fn check_order(order: Order) -> Result<(), Refusal> {
    if order.session == 0 || order.flow > HIGHEST_FLOW {
        return Err(Refusal(31));
    }
    if !(SMALLEST_LIMIT..=LARGEST_LIMIT).contains(&order.limit) {
        return Err(Refusal(32));
    }
    Ok(())
}

/// Refusal 33, as far as frames in vectors of their own can earn it: their lengths always add up.
fn check_frames(frames: &[Vec<u8>], faults: Faults) -> Result<(), Refusal> {
    let longest = if faults.has(Fault::LongestSentFrameRefused) { LONGEST_FRAME - 1 } else { LONGEST_FRAME };
    let all_sound = frames.iter().all(|frame| (1..=longest).contains(&frame.len()));
    if frames.len() > MOST_FRAMES || !all_sound {
        return Err(Refusal(33));
    }
    Ok(())
}

/// Refusals 34 and 35.
fn check_position(frames: &[Vec<u8>], position: Position, faults: Faults) -> Result<(), Refusal> {
    let end_has_offset = position.offset != 0 && !faults.has(Fault::OffsetAtEndIsEnd);
    match frames.get(position.frame) {
        Some(frame) if position.offset < frame.len() => Ok(()),
        None if position.frame == frames.len() && !end_has_offset => Err(Refusal(35)),
        _ => Err(Refusal(34)),
    }
}

/// Cuts segments off the frames while there is room.
fn cut(limit: usize, frames: &[Vec<u8>], from: Position, faults: Faults) -> (Vec<Cut<'_>>, Position) {
    let least_room = if faults.has(Fault::RoomForFourAsked) { 4 } else { 3 };
    let mut room = limit - 4;
    let mut position = from;
    let mut cuts = Vec::new();
    while position.frame < frames.len() && cuts.len() < MOST_SEGMENTS && room >= least_room {
        let rest = &frames[position.frame][position.offset..];
        let bytes = &rest[..rest.len().min(room - 2)];
        let ends = bytes.len() == rest.len();
        cuts.push(Cut { begins: position.offset == 0 || faults.has(Fault::EveryCutBegins), ends, bytes });
        room -= 2 + bytes.len();
        position = if ends {
            Position { frame: position.frame + 1, offset: 0 }
        } else {
            Position { offset: position.offset + bytes.len(), ..position }
        };
    }
    (cuts, position)
}

fn write_packet(order: Order, cuts: &[Cut]) -> Vec<u8> {
    let mut packet = order.session.to_be_bytes().to_vec();
    packet.push(0x40 | order.flow);
    packet.push(cuts.len() as u8);
    packet.extend(order.number.to_be_bytes());
    for cut in cuts {
        let bits = u16::from(cut.begins) << 15 | u16::from(cut.ends) << 14;
        packet.extend((bits | cut.bytes.len() as u16).to_be_bytes());
    }
    for cut in cuts {
        packet.extend(cut.bytes);
    }
    packet
}

/// The packets that carry all the frames, in order.
pub fn send_all(order: Order, frames: &[Vec<u8>], faults: Faults) -> Result<Vec<Vec<u8>>, Refusal> {
    let mut packets = Vec::new();
    let mut order = order;
    let mut position = Position::default();
    loop {
        match send(order, frames, position, faults) {
            Ok(sent) => {
                packets.push(sent.packet);
                position = sent.position;
                order.number = sent.number;
            }
            Err(Refusal(35)) if !packets.is_empty() => return Ok(packets),
            Err(refusal) => return Err(refusal),
        }
    }
}

/// The frames of a frames file, each 2 bytes of length and then its bytes; None where the file is cut short.
pub fn read_frames(file: &[u8]) -> Option<Vec<Vec<u8>>> {
    let mut frames = Vec::new();
    let mut rest = file;
    while !rest.is_empty() {
        let (length, after) = rest.split_at_checked(2)?;
        let (frame, after) = after.split_at_checked(usize::from(u16::from_be_bytes([length[0], length[1]])))?;
        frames.push(frame.to_vec());
        rest = after;
    }
    Some(frames)
}

/// What `pspsend` writes: a capture that opens the session as PSP and has a data entry for each packet. A capture that
/// would itself be refused, with 41 or 43, is not written.
pub fn send_file(order: Order, file: &[u8], faults: Faults) -> Result<Vec<u8>, Refusal> {
    check_order(order)?;
    let frames = read_frames(file).ok_or(Refusal(33))?;
    let packets = send_all(order, &frames, faults)?;
    let mut entries = vec![Entry::Open(Kind::Psp, order.session)];
    entries.extend(packets.into_iter().map(|bytes| Entry::Data(Packet { transport: Transport::Ip, bytes })));
    let capture = Capture { entries };
    capture.check_size()?;
    Ok(capture.write())
}

#[cfg(test)]
mod tests {
    use super::*;
    use crate::packet::samples::{A, B};

    const ORDER: Order = Order { session: 0x101, flow: 1, number: 0xFFFF, limit: 16 };

    #[test]
    fn frames_of_6_and_9_are_sent_as_a_and_b() {
        let frames = vec![A[12..18].to_vec(), (0x21..=0x29).collect()];
        assert_eq!(send_all(ORDER, &frames, Faults::NONE), Ok(vec![A.to_vec(), B.to_vec()]));
    }

    #[test]
    fn refusals_come_in_order() {
        let refused = |order, file: &[u8]| send_file(order, file, Faults::NONE).unwrap_err().0;
        assert_eq!(refused(Order { session: 0, limit: 15, ..ORDER }, &[0]), 31);
        assert_eq!(refused(Order { flow: 4, ..ORDER }, &[]), 31);
        assert_eq!(refused(Order { limit: 15, ..ORDER }, &[0]), 32);
        assert_eq!(refused(Order { limit: 4_097, ..ORDER }, &[0]), 32);
        assert_eq!(refused(ORDER, &[0]), 33);
        assert_eq!(refused(ORDER, &[0, 0]), 33);
        assert_eq!(refused(ORDER, &[]), 35);
        let outside = |frame, offset| send(ORDER, &[vec![1]], Position { frame, offset }, Faults::NONE).unwrap_err().0;
        assert_eq!((outside(0, 1), outside(1, 1), outside(2, 0), outside(1, 0)), (34, 34, 34, 35));
    }
}
