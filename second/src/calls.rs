//! The calls of the card's library as its host program makes them, answered by this program.
//!
//! Document 01, 'Opening, closing, listening', 'Refusal numbers' and 'The sender'; document 02, W1. A caller brings tables
//! in plain numbers, slices of any length, positions, and numbers for kinds and transports; so refusals 1, 13, 14, 24, 34
//! and 36 exist here. What a call writes is told as changes: everything else has to stay as it was. The answers
//! themselves come from `card`, `packet`, `sender`, `mpeg` and `raw`.

use crate::card::{Card, FLOWS, LONGEST_FRAME, ROWS};
use crate::faults::{Fault, Faults};
use crate::mpeg::{self, Going};
use crate::packet::{self, big_endian, Kind, Packet, Refusal, Transport};
use crate::raw::{place, RawTable};
use crate::sender::{self, Order, Position, MOST_FRAMES};

pub const HOLDING_BYTES: usize = ROWS * FLOWS * LONGEST_FRAME;
pub const MOST_BYTES: usize = 6_144;

/// An array that a caller lends to a call.
#[derive(Clone, Copy, Debug, PartialEq, Eq)]
pub enum Array {
    Holding,
    Packet,
    Output,
    Lengths,
    Frames,
    FrameLengths,
}

/// How long the slices of a data call are, in elements.
#[derive(Clone, Copy, Debug)]
pub struct Lent {
    pub holding: usize,
    pub output: usize,
    pub lengths: usize,
}

impl Lent {
    /// Just long enough.
    pub const ENOUGH: Lent = Lent { holding: HOLDING_BYTES, output: MOST_BYTES, lengths: MOST_FRAMES };
}

/// Elements that a call changes, from that place of an array on, each with its bytes big-endian.
#[derive(Clone, Debug, PartialEq, Eq)]
pub struct Change {
    pub array: Array,
    pub place: usize,
    pub bytes: Vec<u8>,
}

/// What a call gives back: its numbers, in the order of the library's struct and the code first where there is one; the
/// table, where it gives one back; and what it has changed.
#[derive(Clone, Debug, PartialEq, Eq)]
pub struct Answer {
    pub numbers: Vec<u64>,
    pub table: Option<RawTable>,
    pub changes: Vec<Change>,
}

impl Answer {
    fn of(numbers: &[u64]) -> Answer {
        Answer { numbers: numbers.to_vec(), table: None, changes: Vec::new() }
    }

    fn with_table(numbers: &[u64], table: RawTable) -> Answer {
        Answer { table: Some(table), ..Answer::of(numbers) }
    }

    pub fn code(&self) -> u64 {
        self.numbers[0]
    }
}

/// A packet as a caller hands it over: any number stands for its transport.
#[derive(Clone, Debug, PartialEq, Eq, PartialOrd, Ord)]
pub struct Arrival {
    pub transport: u32,
    pub bytes: Vec<u8>,
}

impl From<Packet> for Arrival {
    fn from(packet: Packet) -> Arrival {
        Arrival { transport: packet.transport.number(), bytes: packet.bytes }
    }
}

impl Arrival {
    fn transport(&self, faults: Faults) -> Result<Transport, Refusal> {
        packet::read_transport(u64::from(self.transport), &self.bytes, faults)
    }
}

pub fn check(kind: u32, arrival: &Arrival, faults: Faults) -> Answer {
    Answer::of(&[u64::from(packet::check(u64::from(kind), u64::from(arrival.transport), &arrival.bytes, faults))])
}

pub fn segment_cause(kind: u32, arrival: &Arrival, k: u64, faults: Faults) -> Answer {
    Answer::of(&[find_segment(kind, arrival, k, faults).map_or_else(code, |_| 0)])
}

/// The place and the length of segment k, both 0 where it is refused.
pub fn segment(kind: u32, arrival: &Arrival, k: u64, faults: Faults) -> Answer {
    let (place, length) = find_segment(kind, arrival, k, faults).unwrap_or((0, 0));
    Answer::of(&[place as u64, length as u64])
}

/// How long segment k is, 0 where it is refused; and its bytes at the front of an output, as many as there is room for.
pub fn segment_copy(kind: u32, arrival: &Arrival, k: u64, output: usize, faults: Faults) -> Answer {
    let (place, length) = find_segment(kind, arrival, k, faults).unwrap_or((0, 0));
    let left_out = faults.has(Fault::PartialCopyLeftOut) && length > output;
    let copied = if left_out { 0 } else { length.min(output) };
    // Only a fault places a segment outside its packet.
    let mut bytes = arrival.bytes.get(place..place + copied).unwrap_or_default().to_vec();
    if faults.has(Fault::CopyOneByteShort) {
        bytes.pop();
    }
    if faults.has(Fault::ByteBehindCopyCleared) && bytes.len() < output {
        bytes.push(0);
    }
    let answered = if faults.has(Fault::CopiedBytesAnswered) { copied } else { length };
    let changes = [Change { array: Array::Output, place: 0, bytes }];
    let changes = changes.into_iter().filter(|change| !change.bytes.is_empty()).collect();
    Answer { changes, ..Answer::of(&[answered as u64]) }
}

fn find_segment(kind: u32, arrival: &Arrival, k: u64, faults: Faults) -> Result<(usize, usize), Refusal> {
    packet::segment(u64::from(kind), u64::from(arrival.transport), &arrival.bytes, k, faults)
}

fn code(Refusal(number): Refusal) -> u64 {
    u64::from(number)
}

/// Opening and closing look at no held byte, only at how many there are.
static NO_BYTES: [u8; HOLDING_BYTES] = [0; HOLDING_BYTES];

pub fn open(table: &RawTable, id: u32, kind: u32, faults: Faults) -> Answer {
    let opened = judge_opening(table, kind, faults).and_then(|kind| {
        let mut card = table.card(&NO_BYTES, faults);
        card.open(id, kind)?;
        Ok(RawTable::of(&card))
    });
    match opened {
        Ok(table) => Answer::with_table(&[0], table),
        Err(refusal) => Answer::with_table(&[code(refusal)], *table),
    }
}

/// Refusals 24 and 13, in this order.
fn judge_opening(table: &RawTable, kind: u32, faults: Faults) -> Result<Kind, Refusal> {
    if faults.has(Fault::KindAfterBroken) {
        judge_table(table, faults)?;
    }
    let kind = Kind::from_number(u64::from(kind)).ok_or(Refusal(24))?;
    judge_table(table, faults)?;
    Ok(kind)
}

fn judge_table(table: &RawTable, faults: Faults) -> Result<(), Refusal> {
    if table.is_broken(faults) {
        return Err(Refusal(13));
    }
    Ok(())
}

pub fn close(table: &RawTable, id: u32, faults: Faults) -> Answer {
    let closed = judge_table(table, faults).and_then(|()| {
        let mut card = table.card(&NO_BYTES, faults);
        let dropped = card.close(id)?.dropped;
        Ok((dropped, RawTable::of(&card)))
    });
    match closed {
        Ok((dropped, table)) => Answer::with_table(&[0, dropped as u64], table),
        Err(refusal) => Answer::with_table(&[code(refusal), 0], *table),
    }
}

/// The data call, on a holding slice of which `lent` says how much the caller lends.
pub fn receive(table: &RawTable, holding: &[u8], lent: Lent, arrival: &Arrival, faults: Faults) -> Answer {
    let transport = match judge_call(table, lent, arrival, faults) {
        Ok(transport) => transport,
        Err(refusal) => return Answer::with_table(&[code(refusal), 0, 0, 0, 0], *table),
    };
    let mut card = table.card(holding, faults);
    let heard = card.data(transport, &arrival.bytes);
    let mut answer = Answer::with_table(&[0; 5], RawTable::of(&card));
    answer.changes = held_changes(&card, holding, faults);
    match heard {
        Ok(heard) => {
            let (frames, delivered) = (heard.frames.len() as u64, heard.bytes() as u64);
            answer.numbers = vec![0, frames, delivered, heard.dropped as u64, u64::from(heard.gap)];
            answer.changes.extend(delivered_changes(&heard.frames, faults));
        }
        Err(refusal) => answer.numbers[0] = code(refusal),
    }
    let from_session = &arrival.bytes[transport.lead().min(arrival.bytes.len())..];
    spoil(&mut answer, table, from_session, faults);
    if answer.code() == 0 && from_session[4] & 0x40 == 0 {
        answer.changes.extend(clear_changes(table, holding, transport, &arrival.bytes, faults));
    }
    answer
}

/// Faults `ClearWipesPlace` and `ClearWritesPlace`: what an accepted PSP packet with S clear writes to the place of its
/// flow, which it is to leave as it was.
fn clear_changes(table: &RawTable, holding: &[u8], transport: Transport, bytes: &[u8], faults: Faults) -> Vec<Change> {
    let after = |fault: Fault| {
        let mut card = table.card(holding, Faults::of(fault));
        card.data(transport, bytes).map(|_| card)
    };
    if faults.has(Fault::ClearWritesPlace) {
        return after(Fault::ClearHoldsLast).map_or(Vec::new(), |card| held_changes(&card, holding, faults));
    }
    if !faults.has(Fault::ClearWipesPlace) {
        return Vec::new();
    }
    let left = after(Fault::ClearWipesPlace).map_or(*table, |card| RawTable::of(&card));
    let mut changes = Vec::new();
    for (row, (given, left)) in table.rows.iter().zip(&left.rows).enumerate() {
        for flow in (0..FLOWS).filter(|flow| given.flows[*flow].held > left.flows[*flow].held) {
            let bytes = vec![0; usize::from(given.flows[flow].held)];
            changes.push(Change { array: Array::Holding, place: place(row, flow, faults), bytes });
        }
    }
    changes
}

/// Refusals 1, 13 and 24, in this order.
fn judge_call(table: &RawTable, lent: Lent, arrival: &Arrival, faults: Faults) -> Result<Transport, Refusal> {
    let transport = arrival.transport(faults);
    if faults.has(Fault::TransportBeforeSlices) {
        transport?;
    }
    if faults.has(Fault::BrokenBeforeSlices) {
        judge_table(table, faults)?;
    }
    let least = if faults.has(Fault::ShortHoldingTaken) { HOLDING_BYTES - 1 } else { HOLDING_BYTES };
    if lent.holding < least || lent.output < MOST_BYTES || lent.lengths < MOST_FRAMES {
        return Err(Refusal(1));
    }
    if faults.has(Fault::TransportBeforeBroken) {
        transport?;
    }
    judge_table(table, faults)?;
    transport
}

/// What has to be written so that the first bytes of each place are those that its flow holds.
fn held_changes(card: &Card, holding: &[u8], faults: Faults) -> Vec<Change> {
    let mut changes = Vec::new();
    for (_, session) in card.rows() {
        for (number, flow) in session.flows.iter().enumerate() {
            let start = place(session.row, number, faults);
            if holding[start..start + flow.held.len()] != flow.held {
                let too_far = if faults.has(Fault::HeldOnePlaceTooFar) { LONGEST_FRAME } else { 0 };
                changes.push(Change { array: Array::Holding, place: start + too_far, bytes: flow.held.clone() });
            }
        }
    }
    changes
}

/// The frames back to back, and their lengths.
fn delivered_changes(frames: &[Vec<u8>], faults: Faults) -> Vec<Change> {
    let mut bytes = frames.concat();
    let mut lengths: Vec<u8> = frames.iter().flat_map(|frame| (frame.len() as u16).to_be_bytes()).collect();
    if faults.has(Fault::OutputAfterLastCleared) {
        bytes.push(0);
    }
    if faults.has(Fault::LengthAfterLastCleared) && frames.len() < MOST_FRAMES {
        lengths.extend([0, 0]);
    }
    let output = Change { array: Array::Output, place: 0, bytes };
    let lengths = Change { array: Array::Lengths, place: 0, bytes: lengths };
    [output, lengths].into_iter().filter(|change| !change.bytes.is_empty()).collect()
}

/// The faults of a data call that no part of it would come to by itself; `bytes` are the packet's from its session ID on.
fn spoil(answer: &mut Answer, given: &RawTable, bytes: &[u8], faults: Faults) {
    let Some(table) = &mut answer.table else {
        return;
    };
    let late = answer.numbers[0] == 12;
    for (row, given) in table.rows.iter_mut().zip(&given.rows) {
        for (flow, given) in row.flows.iter_mut().zip(&given.flows) {
            if faults.has(Fault::ExpectedUnmoved) {
                flow.expected = given.expected;
            }
            if faults.has(Fault::LateClearsHeld) && late && row.id == big_endian(&bytes[..4]) {
                flow.held = 0;
            }
        }
    }
    if faults.has(Fault::LateCounted) && late {
        answer.numbers[3] = bytes.len() as u64;
    }
}

/// What a send is given: the frames' bytes back to back, their lengths, where to go on, and how long the output is.
#[derive(Clone, Debug)]
pub struct Sending {
    pub session: u32,
    pub flow: u64,
    pub number: u16,
    pub limit: u64,
    pub frame_bytes: usize,
    pub lengths: Vec<u16>,
    pub frame: u64,
    pub offset: u64,
    pub output: usize,
}

/// A send of the first `frame_bytes` of `frames`.
pub fn send(sending: &Sending, frames: &[u8], faults: Faults) -> Answer {
    match try_send(sending, &frames[..sending.frame_bytes], faults) {
        Ok(sent) => {
            let Position { frame, offset } = sent.position;
            let numbers = [0, u64::from(sent.number), sent.packet.len() as u64, frame as u64, offset as u64];
            let change = Change { array: Array::Output, place: 0, bytes: sent.packet };
            Answer { changes: vec![change], ..Answer::of(&numbers) }
        }
        Err(refusal) => {
            let moved = u16::from(faults.has(Fault::RefusedSendMovesNumber));
            let number = u64::from(sending.number.wrapping_add(moved));
            Answer::of(&[code(refusal), number, 0, sending.frame, sending.offset])
        }
    }
}

fn try_send(sending: &Sending, bytes: &[u8], faults: Faults) -> Result<sender::Sent, Refusal> {
    // A flow or limit that does not fit is as much refused as the largest number that does.
    let order = Order {
        session: sending.session,
        flow: u8::try_from(sending.flow).unwrap_or(u8::MAX),
        number: sending.number,
        limit: usize::try_from(sending.limit).unwrap_or(usize::MAX),
    };
    sender::check_order(order)?;
    let frames = cut_frames(bytes, &sending.lengths, faults).ok_or(Refusal(33))?;
    let position = Position { frame: sending.frame as usize, offset: sending.offset as usize };
    let sent = sender::send(order, &frames, position, faults)?;
    let needed = if faults.has(Fault::ShortOutputSent) { sent.packet.len() } else { order.limit + 4 };
    if sending.output < needed {
        return Err(Refusal(36));
    }
    Ok(sent)
}

/// The frames, if their lengths add up to the bytes.
fn cut_frames(bytes: &[u8], lengths: &[u16], faults: Faults) -> Option<Vec<Vec<u8>>> {
    let mut rest = bytes;
    let mut frames = Vec::new();
    for length in lengths {
        let (frame, after) = rest.split_at_checked(usize::from(*length))?;
        frames.push(frame.to_vec());
        rest = after;
    }
    (rest.is_empty() || faults.has(Fault::LeftoverFrameBytesSent)).then_some(frames)
}

/// What a write of an MPEG packet is given: how many bytes the frames have, their lengths, how many of the bytes have
/// been sent, the count, and how long the output is.
#[derive(Clone, Debug)]
pub struct MpegWriting {
    pub frame_bytes: usize,
    pub lengths: Vec<u16>,
    pub place: u64,
    pub count: u8,
    pub output: usize,
}

/// The next MPEG packet of the first `frame_bytes` of `frames`.
pub fn mpeg_write(writing: &MpegWriting, frames: &[u8], faults: Faults) -> Answer {
    let going = Going { place: writing.place as usize, count: writing.count, output: writing.output };
    match mpeg::write(&frames[..writing.frame_bytes], &writing.lengths, going, faults) {
        Ok(written) => {
            let mut bytes = written.packet;
            if faults.has(Fault::MpegByteBehindPacketCleared) && writing.output > bytes.len() {
                bytes.push(0);
            }
            let numbers = [0, written.place as u64, u64::from(written.count), u64::from(written.null)];
            Answer { changes: vec![Change { array: Array::Output, place: 0, bytes }], ..Answer::of(&numbers) }
        }
        Err(refusal) => {
            let first = writing.lengths.first().map_or(0, |length| u64::from(*length));
            let place = if faults.has(Fault::MpegRefusedWriteMoves) { first } else { writing.place };
            let count = if faults.has(Fault::MpegGivenCountReduced) { writing.count % 16 } else { writing.count };
            Answer::of(&[code(refusal), place, u64::from(count), 0])
        }
    }
}

/// The null packet, with its length.
pub fn mpeg_null(faults: Faults) -> Answer {
    whole_packet(mpeg::next_packet(&[], &[0], 0, 0, faults).packet)
}

/// The packet that a queue hands out, with its length.
pub fn mpeg_hand_out(queue: &[u8], faults: Faults) -> Answer {
    whole_packet(mpeg::hand_out(queue, faults))
}

/// A packet that is given back by value, as a change to the output.
fn whole_packet(bytes: Vec<u8>) -> Answer {
    let length = bytes.len() as u64;
    Answer { changes: vec![Change { array: Array::Output, place: 0, bytes }], ..Answer::of(&[length]) }
}

/// The frames of MPEG packets, into slices of so many bytes and so many lengths.
pub fn mpeg_read(packets: &[u8], output: usize, lengths: usize, faults: Faults) -> Answer {
    match mpeg::read(packets, output, lengths, faults) {
        Ok(frames) => {
            let mut bytes = frames.concat();
            let mut numbers: Vec<u8> = frames.iter().flat_map(|frame| (frame.len() as u16).to_be_bytes()).collect();
            let mut answer = Answer::of(&[0, frames.len() as u64, bytes.len() as u64]);
            if faults.has(Fault::MpegByteBehindFramesCleared) && output > bytes.len() {
                bytes.push(0);
            }
            if faults.has(Fault::MpegLengthBehindLastCleared) && lengths > frames.len() {
                numbers.extend([0, 0]);
            }
            let changes = [(Array::Output, bytes), (Array::Lengths, numbers)];
            let changes = changes.map(|(array, bytes)| Change { array, place: 0, bytes });
            answer.changes = changes.into_iter().filter(|change| !change.bytes.is_empty()).collect();
            answer
        }
        Err(refusal) => {
            let mut answer = Answer::of(&[code(refusal), 0, 0]);
            if faults.has(Fault::MpegRefusedReadWrites) && output > 0 {
                answer.changes.push(Change { array: Array::Output, place: 0, bytes: vec![0] });
            }
            answer
        }
    }
}

#[cfg(test)]
mod tests {
    use super::*;
    use crate::packet::samples::{A, B};
    use crate::raw::{DMPT, PSP};

    fn holding() -> Vec<u8> {
        (0..HOLDING_BYTES).map(|place| (place % 249) as u8).collect()
    }

    #[test]
    fn a_segment_is_copied_as_far_as_there_is_room() {
        let arrival = Arrival { transport: 1, bytes: A.to_vec() };
        for (k, output, length, copied) in
            [(0, 0, 6, 0), (0, 1, 6, 1), (0, 5, 6, 5), (0, 6, 6, 6), (0, 9, 6, 6), (1, 9, 2, 2), (2, 9, 0, 0)]
        {
            let answer = segment_copy(PSP, &arrival, k, output, Faults::NONE);
            let bytes: Vec<u8> = answer.changes.iter().flat_map(|change| change.bytes.clone()).collect();
            assert_eq!(answer.numbers, [length]);
            assert_eq!(bytes, A[12 + 6 * (k as usize).min(1)..][..copied]);
        }
        assert_eq!(segment_copy(DMPT, &arrival, 0, 9, Faults::NONE), Answer::of(&[0]));
    }

    /// M1 over IP and M2 over UDP, in row 1: what is held is written to the place of row 1, flow 1, and nowhere else.
    #[test]
    fn packets_a_and_b_change_their_place_output_and_lengths() {
        let mut table = open(&RawTable::default(), 7, DMPT, Faults::NONE).table.unwrap();
        table = open(&table, 0x101, PSP, Faults::NONE).table.unwrap();
        let mut holding = holding();
        let over_ip = Arrival { transport: 1, bytes: A.to_vec() };
        let first = receive(&table, &holding, Lent::ENOUGH, &over_ip, Faults::NONE);
        assert_eq!(first.numbers, [0, 1, 6, 0, 0]);
        let change = |array, place, bytes: &[u8]| Change { array, place, bytes: bytes.to_vec() };
        let expected = [
            change(Array::Holding, 5 * 2_048, &A[18..]),
            change(Array::Output, 0, &A[12..18]),
            change(Array::Lengths, 0, &[0, 6]),
        ];
        assert_eq!(first.changes, expected);
        holding[5 * 2_048..][..2].copy_from_slice(&A[18..]);
        let over_udp = Arrival { transport: 2, bytes: [&[0, 3, 0, 0], B.as_slice()].concat() };
        let second = receive(&first.table.unwrap(), &holding, Lent::ENOUGH, &over_udp, Faults::NONE);
        assert_eq!(second.numbers, [0, 1, 9, 0, 0]);
        assert_eq!(second.changes.len(), 2);
        assert_eq!(close(&first.table.unwrap(), 0x101, Faults::NONE).numbers, [0, 2]);
    }

    #[test]
    fn short_slices_come_before_a_broken_table_and_that_before_the_transport_and_the_packet() {
        let mut broken = RawTable::default();
        broken.rows[5].id = 1;
        let asked_by = |transport, table: &RawTable, lent| {
            receive(table, &holding(), lent, &Arrival { transport, bytes: Vec::new() }, Faults::NONE)
        };
        let asked = |table: &RawTable, lent: Lent| asked_by(3, table, lent);
        for lent in [
            Lent { holding: HOLDING_BYTES - 1, ..Lent::ENOUGH },
            Lent { output: MOST_BYTES - 1, ..Lent::ENOUGH },
            Lent { lengths: MOST_FRAMES - 1, ..Lent::ENOUGH },
        ] {
            assert_eq!(asked(&broken, lent), Answer::with_table(&[1, 0, 0, 0, 0], broken));
        }
        assert_eq!(asked(&broken, Lent::ENOUGH), Answer::with_table(&[13, 0, 0, 0, 0], broken));
        assert_eq!(asked(&RawTable::default(), Lent::ENOUGH).numbers, [24, 0, 0, 0, 0]);
        assert_eq!(asked_by(1, &RawTable::default(), Lent::ENOUGH).numbers, [2, 0, 0, 0, 0]);
        assert_eq!(asked_by(2, &RawTable::default(), Lent::ENOUGH).numbers, [2, 0, 0, 0, 0]);
        assert_eq!(open(&broken, 0, 3, Faults::NONE).numbers, [24]);
        assert_eq!(open(&broken, 0, PSP, Faults::NONE).numbers, [13]);
        assert_eq!(close(&broken, 0, Faults::NONE).numbers, [13, 0]);
    }

    /// M12, and the refusals that only a caller's slices and positions can earn.
    #[test]
    fn a_send_needs_room_for_l_and_4_bytes() {
        let frames = [&A[12..], &B[10..]].concat();
        let order = Sending {
            session: 0x101,
            flow: 1,
            number: 0xFFFF,
            limit: 16,
            frame_bytes: 15,
            lengths: vec![6, 9],
            frame: 0,
            offset: 0,
            output: 20,
        };
        let sent = send(&order, &frames, Faults::NONE);
        assert_eq!((sent.numbers, &sent.changes[0].bytes), (vec![0, 0, 20, 1, 2], &A.to_vec()));
        let refused = |sending: Sending| send(&sending, &frames, Faults::NONE).numbers;
        assert_eq!(refused(Sending { output: 19, ..order.clone() }), [36, 0xFFFF, 0, 0, 0]);
        assert_eq!(refused(Sending { frame_bytes: 14, ..order.clone() })[0], 33);
        assert_eq!(refused(Sending { frame: u64::MAX, offset: 3, ..order.clone() }), [34, 0xFFFF, 0, u64::MAX, 3]);
        assert_eq!(refused(Sending { frame: 2, output: 0, ..order.clone() })[0], 35);
        assert_eq!(refused(Sending { flow: 1 << 32, limit: 0, ..order })[0], 31);
    }
}
