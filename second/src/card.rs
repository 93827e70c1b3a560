//! The card: its table of sessions with the three calls that change it, open, close and data.
//!
//! Document 01, 'The card in numbers' and 'Opening, closing, listening'. The paper keeps the table as six rows of four
//! flows and the held bytes in a slice of places. Here a session is found by its ID in a map, knows its row, and each
//! flow owns the bytes that it holds, so places cannot overlap; the row is only there to be printed. Each packet says by
//! which transport it came, and nothing of that is kept: a session and its flows take packets by either (document 02,
//! W1). A packet with S clear has no number: it moves none, and what it brings stands by itself (W2). Refusals 1, 13 and 24
//! do not exist here: the slices are always long enough, the table cannot be broken, and there is no third transport. `raw`
//! and `calls` have them.

use std::collections::BTreeMap;

use crate::faults::{Fault, Faults};
use crate::packet::{self, Body, Header, Kind, Refusal, Segment, Transport, NULL_PID};

pub const ROWS: usize = 6;
pub const FLOWS: usize = 4;
pub const LONGEST_FRAME: usize = 2_048;
/// A number this far ahead of the expected one, or further, is late.
pub const LATE_FROM: u16 = 32_768;

/// One flow of a session: fresh as long as no number is expected.
#[derive(Clone, Debug, Default, PartialEq, Eq)]
pub struct Flow {
    pub expected: Option<u16>,
    pub held: Vec<u8>,
}

/// An open session.
#[derive(Clone, Debug)]
pub struct Session {
    pub row: usize,
    pub kind: Kind,
    pub flows: [Flow; FLOWS],
}

/// What an accepted call answers. The number of frames and of bytes delivered follow from the frames themselves.
#[derive(Clone, Debug, Default, PartialEq, Eq)]
pub struct Answer {
    pub frames: Vec<Vec<u8>>,
    pub dropped: usize,
    pub gap: u16,
}

impl Answer {
    pub fn bytes(&self) -> usize {
        self.frames.iter().map(Vec::len).sum()
    }
}

/// The table, by session ID.
#[derive(Debug)]
pub struct Card {
    sessions: BTreeMap<u32, Session>,
    /// Flows of closed sessions, kept for the fault `ReopenKeepsFlows` only.
    closed: BTreeMap<u32, [Flow; FLOWS]>,
    /// What sessions keep apart for packets over UDP, for the faults `HeldApart` and `NumbersApart` only.
    over_udp: BTreeMap<u32, [Flow; FLOWS]>,
    faults: Faults,
}

impl Card {
    /// A card with an empty table.
    pub fn new(faults: Faults) -> Card {
        Card { sessions: BTreeMap::new(), closed: BTreeMap::new(), over_udp: BTreeMap::new(), faults }
    }

    /// A card with these sessions open, by ID, each in a row of its own.
    pub fn with_sessions(sessions: BTreeMap<u32, Session>, faults: Faults) -> Card {
        Card { sessions, ..Card::new(faults) }
    }

    /// The open sessions with their IDs, in the order of their rows.
    pub fn rows(&self) -> Vec<(u32, &Session)> {
        let mut rows: Vec<_> = self.sessions.iter().map(|(&id, session)| (id, session)).collect();
        rows.sort_by_key(|(_, session)| session.row);
        rows
    }

    pub fn is_open(&self, id: u32) -> bool {
        self.sessions.contains_key(&id)
    }

    /// Opens a session in the lowest free row, every flow fresh.
    pub fn open(&mut self, id: u32, kind: Kind) -> Result<Answer, Refusal> {
        let already_open = self.is_open(id);
        let full = self.sessions.len() == ROWS;
        if id == 0 {
            return Err(Refusal(21));
        }
        if already_open && !(full && self.faults.has(Fault::FullBeforeOpen)) {
            return Err(Refusal(22));
        }
        let row = self.free_row().ok_or(Refusal(23))?;
        let mut flows = <[Flow; FLOWS]>::default();
        if self.faults.has(Fault::ReopenKeepsFlows) {
            flows = self.closed.remove(&id).unwrap_or_default();
        }
        self.sessions.insert(id, Session { row, kind, flows });
        Ok(Answer::default())
    }

    fn free_row(&self) -> Option<usize> {
        let is_free = |row: &usize| self.sessions.values().all(|session| session.row != *row);
        if self.faults.has(Fault::HighestRowTaken) {
            (0..ROWS).rev().find(is_free)
        } else {
            (0..ROWS).find(is_free)
        }
    }

    /// Closes a session; what it holds counts as dropped. ID 0 is never open, so it needs no rule of its own.
    pub fn close(&mut self, id: u32) -> Result<Answer, Refusal> {
        let session = self.sessions.remove(&id).ok_or(Refusal(25))?;
        let held = session.flows.iter().map(|flow| flow.held.len()).sum();
        let dropped = if self.faults.has(Fault::CloseDropsNothing) { 0 } else { held };
        if self.faults.has(Fault::ReopenKeepsFlows) {
            self.closed.insert(id, session.flows);
        }
        self.over_udp.remove(&id);
        Ok(Answer { dropped, ..Answer::default() })
    }

    /// The data call: a packet is refused with the first number that applies and changes nothing, or is taken in.
    pub fn data(&mut self, transport: Transport, bytes: &[u8]) -> Result<Answer, Refusal> {
        self.keep_apart(transport);
        let answer = self.take_packet(transport, bytes);
        self.keep_apart(transport);
        answer
    }

    fn take_packet(&mut self, transport: Transport, bytes: &[u8]) -> Result<Answer, Refusal> {
        let faults = self.faults;
        let header = packet::read_header(transport, bytes, faults)?;
        let session = self.sessions.get_mut(&header.session).ok_or(Refusal(5))?;
        if let (true, Some(number)) = (faults.has(Fault::LateBeforeLayout), header.number()) {
            if let Some(flow) = session.flows.get(usize::from(header.flow)) {
                flow.judge(number, faults)?;
            }
        }
        let body = packet::read_body(session.kind, transport, &header, bytes, faults);
        if body.is_err() {
            session.spoil_refused(&header, faults);
        }
        let body = body?;
        packet::refuse_clear(session.kind, &header, faults.has(Fault::ClearRefusedByData))?;
        let flow = &mut session.flows[usize::from(header.flow)];
        let ahead = flow.hear(session.kind, &header, faults)?;
        let mut answer = match body {
            Body::Segments(segments) => {
                if faults.has(Fault::UdpForgetsHeld) && transport == Transport::Udp {
                    flow.held.clear();
                }
                flow.take_segments(&segments, ahead, faults)
            }
            Body::Mpeg(packets) => sort_mpeg(&packets, ahead.unwrap_or(0), faults),
        };
        let clear = session.kind == Kind::Psp && !header.sequenced;
        if clear && faults.has(Fault::ClearGapReported) {
            answer.gap = flow.expected.map_or(0, |expected| header.number_field.wrapping_sub(expected));
        }
        if clear && (faults.has(Fault::ClearEmptiesFlows) || faults.has(Fault::ClearEmptiesSessions)) {
            self.empty_others(&header);
        }
        if faults.has(Fault::PlaceByFlowAlone) {
            self.spill(header.session, usize::from(header.flow));
        }
        Ok(answer)
    }

    /// Faults `ClearEmptiesFlows` and `ClearEmptiesSessions`: the other flows of the session, or the same flow of the other
    /// sessions, hold nothing any more.
    fn empty_others(&mut self, header: &Header) {
        let of_session = self.faults.has(Fault::ClearEmptiesFlows);
        for (id, session) in &mut self.sessions {
            for (flow, other) in session.flows.iter_mut().enumerate() {
                let (same_session, same_flow) = (*id == header.session, flow == usize::from(header.flow));
                if same_session != same_flow && same_session == of_session {
                    other.held.clear();
                }
            }
        }
    }

    /// Faults `HeldApart` and `NumbersApart`: around a packet over UDP, each flow's bytes or number change places with
    /// those that it has for that transport alone.
    fn keep_apart(&mut self, transport: Transport) {
        let (held, numbers) = (self.faults.has(Fault::HeldApart), self.faults.has(Fault::NumbersApart));
        if transport == Transport::Ip || !(held || numbers) {
            return;
        }
        for (id, session) in &mut self.sessions {
            let others = self.over_udp.entry(*id).or_default();
            for (flow, other) in session.flows.iter_mut().zip(others) {
                if held {
                    std::mem::swap(&mut flow.held, &mut other.held);
                } else {
                    std::mem::swap(&mut flow.expected, &mut other.expected);
                }
            }
        }
    }

    /// Fault `PlaceByFlowAlone`: what one session holds overwrites what the same flow of the others holds.
    fn spill(&mut self, id: u32, flow: usize) {
        let written = self.sessions[&id].flows[flow].held.clone();
        for (_, other) in self.sessions.iter_mut().filter(|(&other, _)| other != id) {
            for (place, byte) in other.flows[flow].held.iter_mut().zip(&written) {
                *place = *byte;
            }
        }
    }
}

impl Session {
    /// The faults of a packet that is refused for its layout.
    fn spoil_refused(&mut self, header: &Header, faults: Faults) {
        let Some(flow) = self.flows.get_mut(usize::from(header.flow)) else {
            return;
        };
        if faults.has(Fault::RefusedMovesNumber) {
            flow.expected = Some(header.number_field.wrapping_add(1));
        }
        if faults.has(Fault::RefusedClearDropsHeld) && !header.sequenced {
            flow.held.clear();
        }
    }
}

impl Flow {
    /// How many numbers are missing before the packet, or refusal 12 for a late one. A packet that has no number is never
    /// late, nothing can be said to be missing before it, and the flow goes on expecting what it did, if anything.
    fn hear(&mut self, kind: Kind, header: &Header, faults: Faults) -> Result<Option<u16>, Refusal> {
        if !header.sequenced {
            if let Some(ahead) = self.spoil_clear(kind, header.number_field, faults)? {
                return Ok(Some(ahead));
            }
        }
        header.number().map(|number| self.accept(number, faults)).transpose()
    }

    /// The faults that make something of the number field of a packet with S clear.
    fn spoil_clear(&mut self, kind: Kind, field: u16, faults: Faults) -> Result<Option<u16>, Refusal> {
        if kind == Kind::Dmpt {
            let judged = faults.has(Fault::DmptClearNumberJudged).then(|| self.accept(field, faults));
            return judged.transpose();
        }
        if faults.has(Fault::ClearLateRefused) {
            self.judge(field, faults)?;
        }
        let moved = if self.expected.is_some() { Fault::ClearMovesNumber } else { Fault::ClearMakesHeard };
        if faults.has(moved) {
            self.expected = Some(field.wrapping_add(1));
        }
        if faults.has(Fault::ClearMakesFresh) {
            self.expected = None;
        }
        Ok(None)
    }

    /// Judges a sequence number: the gap in front of it, or refusal 12 for a late one.
    fn judge(&self, number: u16, faults: Faults) -> Result<u16, Refusal> {
        let expected = match self.expected {
            Some(expected) => expected,
            None if faults.has(Fault::FreshFlowExpectsZero) => 0,
            None => return Ok(0),
        };
        let ahead = number.wrapping_sub(expected);
        let late = if faults.has(Fault::PlainComparison) {
            number < expected
        } else if faults.has(Fault::PlainComparisonWithLast) {
            number <= expected.wrapping_sub(1)
        } else if faults.has(Fault::HalfwayAccepted) {
            ahead > LATE_FROM
        } else {
            ahead >= LATE_FROM
        };
        if late {
            Err(Refusal(12))
        } else {
            Ok(ahead)
        }
    }

    /// Judges a sequence number and, unless it is late, expects the one after it.
    fn accept(&mut self, number: u16, faults: Faults) -> Result<u16, Refusal> {
        let gap = self.judge(number, faults)?;
        let next =
            if faults.has(Fault::ExpectedNotWrapped) { number.saturating_add(1) } else { number.wrapping_add(1) };
        self.expected = Some(next);
        Ok(gap)
    }

    /// Drops what is held; answers how many bytes that were.
    fn drop_held(&mut self, faults: Faults) -> usize {
        let held = std::mem::take(&mut self.held).len();
        if faults.has(Fault::DroppedWithoutHeld) {
            0
        } else {
            held
        }
    }

    /// Takes in the segments of an accepted PSP packet, one after the other; `ahead` says how many numbers are missing
    /// before it. Only a packet that follows the last one directly goes on with what is held. One without a number follows
    /// none, and none follows it: what is held is dropped before its segments, and what they would leave held after them,
    /// so that its whole frames alone are delivered.
    fn take_segments(&mut self, segments: &[Segment], ahead: Option<u16>, faults: Faults) -> Answer {
        let mut answer = Answer { gap: ahead.unwrap_or(0), ..Answer::default() };
        let left = (ahead.is_none() && faults.has(Fault::ClearLeavesHeld)).then(|| std::mem::take(&mut self.held));
        if !follows(ahead, faults) {
            let held = self.drop_held(faults);
            answer.dropped += if ahead.is_none() && faults.has(Fault::ClearHeldUncounted) { 0 } else { held };
        }
        for segment in segments {
            self.take_segment(segment, ahead, &mut answer, faults);
        }
        if ahead.is_none() {
            self.drop_begun(&mut answer, faults);
        }
        if let Some(left) = left {
            self.held = left;
        }
        answer
    }

    /// Drops what the last segment of a packet without a number has begun.
    fn drop_begun(&mut self, answer: &mut Answer, faults: Faults) {
        if faults.has(Fault::ClearBeginningDelivered) && !self.held.is_empty() {
            answer.frames.push(std::mem::take(&mut self.held));
        }
        if !faults.has(Fault::ClearHoldsLast) {
            let begun = self.drop_held(faults);
            answer.dropped += if faults.has(Fault::ClearLastUncounted) { 0 } else { begun };
        }
    }

    fn take_segment(&mut self, segment: &Segment, ahead: Option<u16>, answer: &mut Answer, faults: Faults) {
        if segment.begins && !faults.has(Fault::BeginningKeepsHeld) {
            answer.dropped += self.drop_held(faults);
        }
        let headless = !segment.begins && self.held.is_empty();
        let end_taken = ahead.is_none() && segment.ends && faults.has(Fault::ClearEndDelivered);
        if headless && !end_taken && !faults.has(Fault::HeadlessSegmentHeld) {
            answer.dropped += segment.bytes.len();
            return;
        }
        let mut joined = std::mem::take(&mut self.held);
        joined.extend_from_slice(segment.bytes);
        if joined.len() > longest_frame(ahead, faults) {
            answer.dropped += joined.len();
            if faults.has(Fault::OverlongTailHeld) {
                answer.dropped -= segment.bytes.len();
                self.held = segment.bytes.to_vec();
            }
        } else if segment.ends {
            answer.frames.push(joined);
        } else {
            self.held = joined;
        }
    }
}

/// Whether a packet with so many numbers missing before it, or without a number, goes on with what is held.
fn follows(ahead: Option<u16>, faults: Faults) -> bool {
    match ahead {
        Some(0) => true,
        Some(_) => faults.has(Fault::GapKeepsHeld),
        None => faults.has(Fault::ClearJoinsHeld),
    }
}

fn longest_frame(ahead: Option<u16>, faults: Faults) -> usize {
    let clear = ahead.is_none();
    if faults.has(Fault::LongestFrameRefused) || (clear && faults.has(Fault::ClearLongestDropped)) {
        LONGEST_FRAME - 1
    } else if faults.has(Fault::LongerFrameAllowed) || (clear && faults.has(Fault::ClearLongerDelivered)) {
        LONGEST_FRAME + 1
    } else {
        LONGEST_FRAME
    }
}

/// D-MPT: MPEG packets with the null PID are dropped, the others delivered.
fn sort_mpeg(packets: &[&[u8]], gap: u16, faults: Faults) -> Answer {
    let delivered = |mpeg: &&[u8]| packet::pid(mpeg, faults) != NULL_PID || faults.has(Fault::NullDelivered);
    let (frames, nulls): (Vec<&[u8]>, Vec<&[u8]>) = packets.iter().copied().partition(delivered);
    Answer {
        frames: frames.into_iter().map(<[u8]>::to_vec).collect(),
        dropped: nulls.into_iter().map(<[u8]>::len).sum(),
        gap,
    }
}

#[cfg(test)]
mod tests {
    use super::*;
    use crate::packet::samples::{A, B};

    fn card_with_psp() -> Card {
        let mut card = Card::new(Faults::NONE);
        card.open(0x101, Kind::Psp).unwrap();
        card
    }

    #[test]
    fn a_frame_is_joined_across_packets_and_numbers_wrap() {
        let mut card = card_with_psp();
        let first = card.data(Transport::Ip, &A).unwrap();
        assert_eq!((first.frames, first.dropped, first.gap), (vec![A[12..18].to_vec()], 0, 0));
        let second = card.data(Transport::Ip, &B).unwrap();
        assert_eq!(second.frames, vec![vec![0x21, 0x22, 0x23, 0x24, 0x25, 0x26, 0x27, 0x28, 0x29]]);
        assert_eq!(card.data(Transport::Ip, &B), Err(Refusal(12)));
    }

    /// Document 02, W1: each call says the transport by itself, and what joins does not depend on it.
    #[test]
    fn a_frame_is_joined_across_transports() {
        let over_udp = |packet: &[u8]| [&[0x7F, 0xF3, 9, 9], packet].concat();
        for transports in [[Transport::Ip, Transport::Udp], [Transport::Udp, Transport::Ip]] {
            let mut card = card_with_psp();
            let mut data = |transport, packet: &[u8]| match transport {
                Transport::Ip => card.data(transport, packet),
                Transport::Udp => card.data(transport, &over_udp(packet)),
            };
            assert_eq!(data(transports[0], &A).unwrap().frames, vec![A[12..18].to_vec()]);
            assert_eq!(data(transports[1], &B).unwrap().frames, vec![(0x21..=0x29).collect::<Vec<u8>>()]);
            assert_eq!((data(transports[0], &B), data(transports[1], &B)), (Err(Refusal(12)), Err(Refusal(12))));
        }
    }

    #[test]
    fn a_segment_without_beginning_is_dropped() {
        let answer = card_with_psp().data(Transport::Ip, &B).unwrap();
        assert_eq!((answer.frames.len(), answer.dropped), (0, 7));
    }

    /// Document 02, W2, worked out by hand: between A and B, with any number field, the end of B's frame and a whole frame
    /// of 3. What A began is lost; B's number is still the expected one.
    #[test]
    fn a_packet_without_a_number_stands_by_itself() {
        for field in [0, 1, 0x7FFF, 0x8000, 0xFFFF_u16] {
            let mut packet = vec![0, 0, 1, 1, 0x01, 3];
            packet.extend(field.to_be_bytes());
            packet.extend([0x40, 1, 0xC0, 3, 0x80, 2, 0x23, 0x31, 0x32, 0x33, 0x41, 0x42]);
            let mut card = card_with_psp();
            let whole = |dropped| Answer { frames: vec![vec![0x31, 0x32, 0x33]], dropped, gap: 0 };
            assert_eq!(card.data(Transport::Ip, &packet), Ok(whole(3)));
            assert_eq!(card.rows()[0].1.flows[1], Flow::default());
            card.data(Transport::Ip, &A).unwrap();
            assert_eq!(card.data(Transport::Ip, &packet), Ok(whole(5)));
            assert_eq!(card.rows()[0].1.flows[1], Flow { expected: Some(0), held: Vec::new() });
            assert_eq!(card.data(Transport::Ip, &A), Err(Refusal(12)));
            assert_eq!(card.data(Transport::Ip, &B), Ok(Answer { dropped: 7, ..Answer::default() }));
        }
    }

    #[test]
    fn closing_drops_what_is_held_and_frees_the_row() {
        let mut card = card_with_psp();
        card.data(Transport::Ip, &A).unwrap();
        assert_eq!(card.close(0x101).unwrap().dropped, 2);
        assert_eq!(card.close(0x101), Err(Refusal(25)));
        for id in 1..=6 {
            card.open(id, Kind::Dmpt).unwrap();
        }
        assert_eq!(card.open(7, Kind::Psp), Err(Refusal(23)));
        assert_eq!(card.open(6, Kind::Psp), Err(Refusal(22)));
        assert_eq!(card.open(0, Kind::Psp), Err(Refusal(21)));
    }
}
