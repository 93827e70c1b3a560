//! The packet: how it came, its layout, and the packet check.
//!
//! Document 01, 'Packet layout' and 'Refusal numbers', and document 02, W1: over IP a packet begins with its session ID,
//! over UDP with four more bytes. Reading is done in two steps because the data call looks the session up between them:
//! `read_header` gives refusals 2, 3, 15 and 4, then the card says whether the session is open (5) and of which kind it
//! is, then `read_body` gives refusals 6, 7, 9, 10 and 11. The packet check without a table is both steps in a row. What
//! they give back has only been cut out of the packet: nothing here knows of tables or of which number is expected. A
//! packet with S clear is as sound as one with S set and only has no number (document 02, W2); no call gives refusal 8.

use crate::faults::{Fault, Faults};

/// A refusal, by document 01's number.
#[derive(Clone, Copy, Debug, PartialEq, Eq, PartialOrd, Ord)]
pub struct Refusal(pub u8);

/// The bytes of session ID and header, and of the longest packet, both counted from the session ID on.
pub const HEADER_BYTES: usize = 8;
pub const LONGEST_PACKET: usize = 4_100;
/// The bytes before the session ID over UDP (RFC 3931, section 4.1.2.1).
pub const UDP_BYTES: usize = 4;
pub const MPEG_BYTES: usize = 188;
pub const MPEG_SYNC: u8 = 0x47;
pub const NULL_PID: u16 = 0x1FFF;
pub const HIGHEST_FLOW: u8 = 3;

/// The two kinds of session.
#[derive(Clone, Copy, Debug, PartialEq, Eq)]
pub enum Kind {
    Psp,
    Dmpt,
}

impl Kind {
    /// The number that stands for a kind in the packet check, in captures' open entries and in psptrace's row lines.
    pub fn number(self) -> u8 {
        match self {
            Kind::Psp => 1,
            Kind::Dmpt => 2,
        }
    }

    pub fn from_number(number: u64) -> Option<Kind> {
        match number {
            1 => Some(Kind::Psp),
            2 => Some(Kind::Dmpt),
            _ => None,
        }
    }
}

/// How a packet came.
#[derive(Clone, Copy, Debug, PartialEq, Eq, PartialOrd, Ord)]
pub enum Transport {
    Ip,
    Udp,
}

impl Transport {
    pub const ALL: [Transport; 2] = [Transport::Ip, Transport::Udp];

    /// The number that stands for a transport in calls.
    pub fn number(self) -> u32 {
        match self {
            Transport::Ip => 1,
            Transport::Udp => 2,
        }
    }

    /// How many bytes stand before the session ID.
    pub fn lead(self) -> usize {
        match self {
            Transport::Ip => 0,
            Transport::Udp => UDP_BYTES,
        }
    }
}

/// A packet together with the transport that it came by.
#[derive(Clone, Debug, PartialEq, Eq, PartialOrd, Ord)]
pub struct Packet {
    pub transport: Transport,
    pub bytes: Vec<u8>,
}

impl Packet {
    /// The packet from its session ID on; nothing where it ends before that.
    pub fn after_lead(&self) -> &[u8] {
        self.bytes.get(self.transport.lead()..).unwrap_or(&[])
    }
}

/// The first 8 bytes of a packet from its session ID on. X and the reserved bit of byte 5 are ignored on receipt and
/// have no place here.
#[derive(Clone, Copy, Debug, PartialEq, Eq)]
pub struct Header {
    pub session: u32,
    /// V.
    pub version: bool,
    /// S: the packet has a sequence number.
    pub sequenced: bool,
    /// H.
    pub h: u8,
    pub flow: u8,
    /// The segment count; without meaning for D-MPT.
    pub count: u8,
    /// What stands where the sequence number does, whether the packet has one or not.
    pub number_field: u16,
}

impl Header {
    /// The sequence number, for either kind of session; with S clear there is none.
    pub fn number(&self) -> Option<u16> {
        self.sequenced.then_some(self.number_field)
    }
}

/// A stretch of a frame, as it stands in a PSP packet.
#[derive(Clone, Copy, Debug, PartialEq, Eq)]
pub struct Segment<'a> {
    /// B: a frame begins here.
    pub begins: bool,
    /// E: the frame ends here.
    pub ends: bool,
    pub bytes: &'a [u8],
}

/// What follows the header.
#[derive(Clone, Debug, PartialEq, Eq)]
pub enum Body<'a> {
    Segments(Vec<Segment<'a>>),
    Mpeg(Vec<&'a [u8]>),
}

/// The number that stands big-endian in the bytes given.
pub fn big_endian(bytes: &[u8]) -> u32 {
    bytes.iter().fold(0, |number, &byte| (number << 8) | u32::from(byte))
}

/// The transport of a number, or refusal 24.
pub fn read_transport(number: u64, packet: &[u8], faults: Faults) -> Result<Transport, Refusal> {
    let bits = if faults.has(Fault::TransportOfEightBits) {
        0xFF
    } else if faults.has(Fault::TransportOfSixteenBits) {
        0xFFFF
    } else {
        u64::MAX
    };
    match number & bits {
        1 => Ok(Transport::Ip),
        2 => Ok(Transport::Udp),
        _ if faults.has(Fault::UnknownTransportIsIp) => Ok(Transport::Ip),
        _ if faults.has(Fault::UnknownTransportIsUdp) => Ok(Transport::Udp),
        _ if faults.has(Fault::ShortBeforeTransport) && packet.len() < HEADER_BYTES => Err(Refusal(2)),
        _ => Err(Refusal(24)),
    }
}

/// Refusals 2, 3, 15 and 4, in this order: a packet too short or too long, over UDP one that is not a data packet of
/// version 3, and a control message.
pub fn read_header(transport: Transport, packet: &[u8], faults: Faults) -> Result<Header, Refusal> {
    let (shortest, longest) = limits(transport, faults);
    if faults.has(Fault::FlagsBeforeShort) {
        check_flags(transport, packet, faults)?;
    }
    if packet.len() < shortest {
        return Err(Refusal(2));
    }
    if faults.has(Fault::FlagsBeforeLong) {
        check_flags(transport, packet, faults)?;
    }
    if packet.len() > longest {
        return Err(Refusal(3));
    }
    let header = split_header(transport, packet, faults);
    let control = header.session == 0 && !faults.has(Fault::SessionZeroLookedUp);
    if !(control && faults.has(Fault::ControlBeforeFlags)) {
        check_flags(transport, packet, faults)?;
    }
    if control {
        return Err(Refusal(4));
    }
    Ok(header)
}

/// The fewest and the most bytes of a packet.
fn limits(transport: Transport, faults: Faults) -> (usize, usize) {
    let shortest_lead = match transport {
        Transport::Udp if faults.has(Fault::UdpShortestAsIp) => 0,
        Transport::Ip if faults.has(Fault::IpShortestAsUdp) => UDP_BYTES,
        _ => transport.lead(),
    };
    let longest_lead = match transport {
        Transport::Udp if faults.has(Fault::UdpLongestAsIp) => 0,
        Transport::Ip if faults.has(Fault::IpLongestAsUdp) => UDP_BYTES,
        _ => transport.lead(),
    };
    let less = usize::from(faults.has(Fault::LongestPacketRefused));
    (shortest_lead + HEADER_BYTES, longest_lead + LONGEST_PACKET - less)
}

/// Refusal 15, over UDP alone: T, the top bit of the first byte, is set, or the version, the low four bits of the
/// second, is not 3. Everything else in the four bytes is ignored.
fn check_flags(transport: Transport, packet: &[u8], faults: Faults) -> Result<(), Refusal> {
    let judged = transport == Transport::Udp || faults.has(Fault::FlagsJudgedOverIp);
    // Only a fault asks before there are four bytes.
    let byte = |place: usize| packet.get(place).copied().unwrap_or(0);
    let t_bits = if faults.has(Fault::IgnoredBitsJudged) { 0xFF } else { 0x80 };
    let control = byte(0) & t_bits != 0 && !faults.has(Fault::TBitUnjudged);
    let version = byte(1) & if faults.has(Fault::VersionOfEightBits) { 0xFF } else { 0x0F };
    let other_version = if faults.has(Fault::HigherVersionTaken) {
        version < 3
    } else {
        version != 3 && !faults.has(Fault::VersionUnjudged)
    };
    let reserved = faults.has(Fault::ReservedBytesJudged) && (byte(2), byte(3)) != (0, 0);
    if judged && (control || other_version || reserved) {
        return Err(Refusal(15));
    }
    Ok(())
}

fn split_header(transport: Transport, packet: &[u8], faults: Faults) -> Header {
    // Only a fault lets a packet through that ends inside its header.
    let byte = |place: usize| packet.get(transport.lead() + place).copied().unwrap_or(0);
    let flow_bits = if faults.has(Fault::XBitRead) { 0x0F } else { 0x07 };
    let count_bits = if faults.has(Fault::ReservedBitRead) { 0xFF } else { 0x7F };
    let session = if faults.has(Fault::UdpSessionAtStart) {
        big_endian(&packet[..4])
    } else {
        big_endian(&[byte(0), byte(1), byte(2), byte(3)])
    };
    Header {
        session,
        version: byte(4) & 0x80 != 0,
        sequenced: byte(4) & 0x40 != 0,
        h: (byte(4) >> 4) & 0x03,
        flow: byte(4) & flow_bits,
        count: byte(5) & count_bits,
        number_field: u16::from_be_bytes([byte(6), byte(7)]),
    }
}

/// Refusals 6, 7, 9, 10 and 11, in order, for a packet whose header has been read and whose kind is known.
pub fn read_body<'a>(
    kind: Kind,
    transport: Transport,
    header: &Header,
    packet: &'a [u8],
    faults: Faults,
) -> Result<Body<'a>, Refusal> {
    if faults.has(Fault::FlowBeforeVersion) {
        check_flow(kind, header, faults)?;
        check_version(header)?;
    } else {
        check_version(header)?;
        check_flow(kind, header, faults)?;
    }
    let rest = packet.get(transport.lead() + HEADER_BYTES..).unwrap_or(&[]);
    match kind {
        Kind::Psp => read_segments(usize::from(header.count), rest, faults).map(Body::Segments),
        Kind::Dmpt => read_mpeg(rest, faults).map(Body::Mpeg),
    }
}

fn check_version(header: &Header) -> Result<(), Refusal> {
    if header.version || header.h != 0 {
        return Err(Refusal(6));
    }
    Ok(())
}

fn check_flow(kind: Kind, header: &Header, faults: Faults) -> Result<(), Refusal> {
    let highest = match kind {
        Kind::Psp => HIGHEST_FLOW,
        Kind::Dmpt if faults.has(Fault::DmptFlowUnjudged) => HIGHEST_FLOW,
        Kind::Dmpt => 0,
    };
    if header.flow > highest {
        return Err(Refusal(7));
    }
    Ok(())
}

/// An entry of the segment table: B, E and a length of 14 bits.
fn split_entry(entry: &[u8]) -> (bool, bool, usize) {
    let begins = entry[0] & 0x80 != 0;
    let ends = entry[0] & 0x40 != 0;
    let length = usize::from(u16::from_be_bytes([entry[0] & 0x3F, entry[1]]));
    (begins, ends, length)
}

/// The segments of a PSP packet, from the bytes after its header (refusals 9, 10 and 11).
fn read_segments(count: usize, rest: &[u8], faults: Faults) -> Result<Vec<Segment<'_>>, Refusal> {
    if count == 0 {
        let stray = faults.has(Fault::LengthBeforeCount) && !rest.is_empty();
        return Err(Refusal(if stray { 10 } else { 9 }));
    }
    let (table, mut bodies) = rest.split_at_checked(2 * count).ok_or(Refusal(10))?;
    let entries: Vec<_> = table.chunks_exact(2).map(split_entry).collect();
    let claimed: usize = entries.iter().map(|&(_, _, length)| length).sum();
    let claimed = if faults.has(Fault::LengthsAddedInSixteenBits) { claimed % 65_536 } else { claimed };
    if claimed != bodies.len() {
        return Err(Refusal(10));
    }
    let mut segments = Vec::with_capacity(count);
    for (begins, ends, length) in entries {
        let (bytes, after) = bodies.split_at(length.min(bodies.len()));
        segments.push(Segment { begins, ends, bytes });
        bodies = after;
    }
    check_segments(&segments, faults)?;
    Ok(segments)
}

/// Refusal 11 for PSP: each segment has a byte, only the first may lack B and only the last may lack E.
fn check_segments(segments: &[Segment], faults: Faults) -> Result<(), Refusal> {
    let last = segments.len() - 1;
    let sound = segments.iter().enumerate().all(|(place, segment)| {
        let has_bytes = !segment.bytes.is_empty() || faults.has(Fault::EmptySegmentAllowed);
        has_bytes && (segment.begins || place == 0) && (segment.ends || place == last)
    });
    if sound {
        Ok(())
    } else {
        Err(Refusal(11))
    }
}

/// The MPEG packets of a D-MPT packet, from the bytes after its header (refusals 9, 10 and 11).
fn read_mpeg(rest: &[u8], faults: Faults) -> Result<Vec<&[u8]>, Refusal> {
    if rest.is_empty() {
        return Err(Refusal(9));
    }
    if !rest.len().is_multiple_of(MPEG_BYTES) {
        return Err(Refusal(10));
    }
    let packets: Vec<&[u8]> = rest.chunks_exact(MPEG_BYTES).collect();
    let judged = if faults.has(Fault::OnlyFirstSyncJudged) { 1 } else { packets.len() };
    if packets[..judged].iter().any(|packet| packet[0] != MPEG_SYNC) {
        return Err(Refusal(11));
    }
    Ok(packets)
}

/// The PID of an MPEG packet: the low 5 bits of its byte 1, then byte 2.
pub fn pid(mpeg: &[u8], faults: Faults) -> u16 {
    let high_bits = if faults.has(Fault::PidOfSixteenBits) { 0xFF } else { 0x1F };
    u16::from_be_bytes([mpeg[1] & high_bits, mpeg[2]])
}

/// The packet check without a table: 24 for another kind or transport, else the first of 2, 3, 15, 4, 6, 7, 9, 10 and 11
/// that applies, else 0.
pub fn check(kind_number: u64, transport_number: u64, packet: &[u8], faults: Faults) -> u8 {
    let verdict = read_kind(kind_number).and_then(|kind| {
        let transport = read_transport(transport_number, packet, faults)?;
        let header = read_header(transport, packet, faults)?;
        read_body(kind, transport, &header, packet, faults)?;
        refuse_clear(kind, &header, faults.has(Fault::ClearRefusedByCheck))
    });
    match verdict {
        Ok(()) => 0,
        Err(Refusal(number)) => number,
    }
}

/// Faults `ClearRefusedByData`, `ClearRefusedByCheck` and `ClearRefusedBySegment`: refusal 8 as document 01 had it, for a
/// PSP packet with S clear that is sound.
pub fn refuse_clear(kind: Kind, header: &Header, faulty: bool) -> Result<(), Refusal> {
    if faulty && kind == Kind::Psp && !header.sequenced {
        return Err(Refusal(8));
    }
    Ok(())
}

fn read_kind(number: u64) -> Result<Kind, Refusal> {
    Kind::from_number(number).ok_or(Refusal(24))
}

/// Segment k of a packet, by its place, counted from the packet's first byte, and its length. Refused with 24 for another
/// kind than PSP or another transport, else as the check refuses the packet, or with 14 where there is no segment k.
pub fn segment(
    kind_number: u64,
    transport_number: u64,
    packet: &[u8],
    k: u64,
    faults: Faults,
) -> Result<(usize, usize), Refusal> {
    let kind = read_kind(kind_number)?;
    if kind != Kind::Psp && !faults.has(Fault::SegmentKindUnjudged) {
        return Err(Refusal(24));
    }
    let transport = read_transport(transport_number, packet, faults)?;
    let header = read_header(transport, packet, faults)?;
    let Body::Segments(segments) = read_body(Kind::Psp, transport, &header, packet, faults)? else {
        unreachable!("a PSP packet has segments");
    };
    refuse_clear(kind, &header, faults.has(Fault::ClearRefusedBySegment))?;
    let count = segments.len();
    let k = usize::try_from(k).unwrap_or(usize::MAX);
    let Some(segment) = segments.get(k) else {
        let given = faults.has(Fault::SegmentAtCountGiven) && k == count;
        return if given { Ok((packet.len(), 0)) } else { Err(Refusal(14)) };
    };
    let lead = if faults.has(Fault::SegmentPlacedWithoutLead) { 0 } else { transport.lead() };
    let table_end = if faults.has(Fault::SegmentPlacedInBodies) { 0 } else { lead + HEADER_BYTES + 2 * count };
    let before: usize = segments[..k].iter().map(|segment| segment.bytes.len()).sum();
    Ok((table_end + before, segment.bytes.len()))
}

#[cfg(test)]
pub mod samples {
    //! Packets A and B of document 01, 'Capture file and listing'.

    pub const A: [u8; 20] = [
        0x00, 0x00, 0x01, 0x01, 0x41, 0x02, 0xFF, 0xFF, 0xC0, 0x06, 0x80, 0x02, 0x11, 0x12, 0x13, 0x14, 0x15, 0x16,
        0x21, 0x22,
    ];
    pub const B: [u8; 17] =
        [0x00, 0x00, 0x01, 0x01, 0x41, 0x01, 0x00, 0x00, 0x40, 0x07, 0x23, 0x24, 0x25, 0x26, 0x27, 0x28, 0x29];
}

#[cfg(test)]
mod tests {
    use super::samples::{A, B};
    use super::*;

    const IP: u64 = 1;
    const UDP: u64 = 2;

    /// A packet with these four bytes before its session ID.
    fn led(lead: [u8; 4], packet: &[u8]) -> Vec<u8> {
        [&lead, packet].concat()
    }

    fn checked(kind: u64, transport: u64, packet: &[u8]) -> u8 {
        check(kind, transport, packet, Faults::NONE)
    }

    #[test]
    fn packet_a_is_cut_into_a_whole_frame_and_a_beginning() {
        for (transport, packet) in [(Transport::Ip, A.to_vec()), (Transport::Udp, led([0, 3, 0, 0], &A))] {
            let header = read_header(transport, &packet, Faults::NONE).unwrap();
            assert_eq!((header.session, header.flow, header.count, header.number()), (0x101, 1, 2, Some(0xFFFF)));
            let body = read_body(Kind::Psp, transport, &header, &packet, Faults::NONE).unwrap();
            let expected = vec![
                Segment { begins: true, ends: true, bytes: &A[12..18] },
                Segment { begins: true, ends: false, bytes: &A[18..20] },
            ];
            assert_eq!(body, Body::Segments(expected));
        }
    }

    #[test]
    fn the_packet_check_answers_by_number() {
        assert_eq!(checked(1, IP, &A), 0);
        assert_eq!(checked(1, IP, &B), 0);
        assert_eq!(checked(1, IP, &A[..19]), 10);
        assert_eq!(checked(1, IP, &A[..7]), 2);
        assert_eq!(checked(1, IP, &[0; 8]), 4);
        assert_eq!(checked(1, IP, &vec![1; 4_101]), 3);
        assert_eq!(checked(2, IP, &A), 7);
        assert_eq!(checked(0, IP, &A), 24);
        assert_eq!(checked(3, IP, &[]), 24);
    }

    /// Document 02, W1: T and the version are judged, everything else in the four bytes is ignored.
    #[test]
    fn over_udp_t_and_version_are_judged_and_nothing_else() {
        for first in 0..=255 {
            let expected = if first < 0x80 { 0 } else { 15 };
            assert_eq!(checked(1, UDP, &led([first, 3, 0, 0], &A)), expected);
        }
        for second in 0..=255 {
            let expected = if second % 16 == 3 { 0 } else { 15 };
            assert_eq!(checked(1, UDP, &led([0, second, 0, 0], &A)), expected);
        }
        assert_eq!(checked(1, UDP, &led([0x7F, 0xF3, 0xFF, 0xFF], &A)), 0);
        assert_eq!(checked(1, UDP, &A), 15);
        // Over IP the session ID is 0x00030000 then, and A's own is S clear and count 0.
        assert_eq!(checked(1, IP, &led([0, 3, 0, 0], &A)), 9);
    }

    /// 24, then 2 and 3, then 15, then 4; 12 to 4,104 bytes over UDP, 8 to 4,100 over IP.
    #[test]
    fn refusals_of_either_transport_come_in_order() {
        let longest = |length: usize| {
            let mut packet = vec![0, 3, 0, 0];
            packet.extend(&A[..5]);
            packet.resize(length, 0);
            packet
        };
        assert_eq!([4, 8, 11, 12].map(|length| checked(1, UDP, &longest(length))), [2, 2, 2, 9]);
        assert_eq!([4_100, 4_104, 4_105].map(|length| checked(1, UDP, &longest(length))), [9, 9, 3]);
        assert_eq!([8, 11, 12, 4_100, 4_101].map(|length| checked(1, IP, &longest(length))), [9, 9, 9, 9, 3]);
        assert_eq!([11, 12].map(|length| checked(1, UDP, &vec![0x80; length])), [2, 15]);
        assert_eq!([4_104, 4_105].map(|length| checked(1, UDP, &vec![0x80; length])), [15, 3]);
        assert_eq!(checked(1, UDP, &led([0x80, 3, 0, 0], &[0; 8])), 15);
        assert_eq!(checked(1, UDP, &led([0, 3, 0, 0], &[0; 8])), 4);
        for transport in [0, 3, 257, 258, 65_537, (1 << 32) + 1, u64::MAX] {
            assert_eq!((checked(1, transport, &A), checked(2, transport, &[])), (24, 24));
            assert_eq!(checked(9, transport, &[0x80; 5_000]), 24);
        }
    }

    /// Document 02, W2: S alone is never a cause to refuse, whatever stands where the number does; the others stay.
    #[test]
    fn with_s_clear_the_other_refusals_are_as_with_s_set() {
        let clear = |packet: &[u8]| {
            let mut packet = packet.to_vec();
            packet[4] &= !0x40;
            packet
        };
        for (packet, expected) in [(&A[..], 0), (&B[..], 0), (&A[..19], 10), (&A[..9], 10)] {
            assert_eq!((checked(1, IP, packet), checked(1, IP, &clear(packet))), (expected, expected));
            assert_eq!(checked(1, UDP, &led([0, 3, 0, 0], &clear(packet))), expected);
        }
        let with = |place: usize, byte: u8| {
            let mut packet = clear(&A);
            packet[place] = byte;
            checked(1, IP, &packet)
        };
        assert_eq!([0x81, 0x11, 0x21, 0x31].map(|byte4| with(4, byte4)), [6; 4]);
        assert_eq!([4, 5, 6, 7].map(|byte4| with(4, byte4)), [7; 4]);
        assert_eq!([0, 3, 8, 9].map(|byte4| with(4, byte4)), [0; 4]);
        assert_eq!((with(5, 0), with(5, 3), with(8, 0x80), with(10, 0x40)), (9, 10, 11, 11));
        let asked = |k| segment(1, IP, &clear(&A), k, Faults::NONE);
        assert_eq!((asked(0), asked(1), asked(2)), (Ok((12, 6)), Ok((18, 2)), Err(Refusal(14))));
        assert_eq!(read_header(Transport::Ip, &clear(&A), Faults::NONE).unwrap().number(), None);
    }

    #[test]
    fn segments_are_given_by_place_and_length() {
        let asked = |kind, transport, packet: &[u8], k| {
            segment(kind, transport, packet, k, Faults::NONE).map_err(|Refusal(number)| number)
        };
        let a = led([0x7F, 0xF3, 1, 2], &A);
        assert_eq!((asked(1, IP, &A, 0), asked(1, IP, &A, 1)), (Ok((12, 6)), Ok((18, 2))));
        assert_eq!((asked(1, UDP, &a, 0), asked(1, UDP, &a, 1)), (Ok((16, 6)), Ok((22, 2))));
        assert_eq!((asked(1, IP, &A, 2), asked(1, UDP, &a, u64::MAX)), (Err(14), Err(14)));
        assert_eq!((asked(1, IP, &A[..19], 0), asked(1, IP, &A[..7], 9)), (Err(10), Err(2)));
        assert_eq!((asked(1, UDP, &a[..23], 0), asked(1, UDP, &a[..11], 9)), (Err(10), Err(2)));
        assert_eq!((asked(2, IP, &A, 0), asked(0, UDP, &a, 0), asked(1, 3, &[], 0)), (Err(24), Err(24), Err(24)));
    }

    #[test]
    fn the_pid_has_thirteen_bits() {
        assert_eq!(pid(&[0x47, 0xFF, 0xFF], Faults::NONE), NULL_PID);
        assert_eq!(pid(&[0x47, 0x1F, 0xFE], Faults::NONE), 0x1FFE);
    }
}
