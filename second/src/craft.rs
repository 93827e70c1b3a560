//! Packets made by hand, sound or not.
//!
//! The sender only makes sound packets. Directed cases and damaged traffic need others: any segment marks, lengths that
//! do not add up, any byte 4. Layout as in document 01, 'Packet layout'. All are made from the session ID on; what comes
//! before it over UDP is put there at last.

use crate::packet::{Packet, Transport, MPEG_BYTES, MPEG_SYNC, UDP_BYTES};

/// B and E of a segment, as they stand in its table entry.
pub const MIDDLE: u16 = 0x0000;
pub const END: u16 = 0x4000;
pub const BEGIN: u16 = 0x8000;
pub const WHOLE: u16 = 0xC000;

/// S in byte 4.
pub const S: u8 = 0x40;

/// What stands before the session ID over UDP (RFC 3931, section 4.1.2.1).
pub type Lead = [u8; UDP_BYTES];

/// T clear, version 3 and nothing else: what a host puts before a packet that it sends over UDP.
pub const PLAIN_LEAD: Lead = [0x00, 0x03, 0x00, 0x00];
/// Leads that are as good, with bits set that are ignored: all of them, then some alone.
pub const SOUND_LEADS: [Lead; 8] = [
    PLAIN_LEAD,
    [0x7F, 0xF3, 0xFF, 0xFF],
    [0x40, 0x03, 0x00, 0x14],
    [0x01, 0x03, 0x00, 0x00],
    [0x00, 0x13, 0x00, 0x00],
    [0x00, 0x83, 0x80, 0x00],
    [0x00, 0x03, 0x00, 0x01],
    [0x48, 0xF3, 0x12, 0x34],
];
/// Leads for refusal 15: T set; other versions, 3 in the wrong half or byte among them; both. The second is how a control
/// message begins, the fourth how L2TPv2 does.
pub const WRONG_LEADS: [Lead; 12] = [
    [0x80, 0x03, 0x00, 0x00],
    [0xC8, 0x03, 0x00, 0x14],
    [0x00, 0x00, 0x00, 0x00],
    [0x40, 0x02, 0x00, 0x14],
    [0x00, 0x01, 0x00, 0x00],
    [0x00, 0x04, 0x00, 0x00],
    [0x00, 0x0B, 0x00, 0x00],
    [0x00, 0x30, 0x00, 0x00],
    [0x03, 0x00, 0x00, 0x00],
    [0x00, 0x00, 0x03, 0x03],
    [0x80, 0x02, 0x00, 0x00],
    [0xFF, 0xFF, 0xFF, 0xFF],
];

pub fn over_ip(bytes: Vec<u8>) -> Packet {
    Packet { transport: Transport::Ip, bytes }
}

/// A packet over UDP, from the bytes that begin with its session ID.
pub fn over_udp(lead: Lead, bytes: &[u8]) -> Packet {
    Packet { transport: Transport::Udp, bytes: [&lead, bytes].concat() }
}

/// A packet by that transport; the turn says which of the sound leads it has over UDP.
pub fn carried(transport: Transport, turn: usize, bytes: &[u8]) -> Packet {
    match transport {
        Transport::Ip => over_ip(bytes.to_vec()),
        Transport::Udp => over_udp(SOUND_LEADS[turn % SOUND_LEADS.len()], bytes),
    }
}

/// Bytes that tell their place: counted up from `first`, with a period of 251 so that a shift by 256 or 2,048 shows.
pub fn pattern(first: usize, length: usize) -> Vec<u8> {
    (first..first + length).map(|place| (place % 251) as u8).collect()
}

/// The first 8 bytes of a packet: session ID and header.
pub fn header(session: u32, byte4: u8, byte5: u8, number: u16) -> Vec<u8> {
    let mut packet = session.to_be_bytes().to_vec();
    packet.extend([byte4, byte5]);
    packet.extend(number.to_be_bytes());
    packet
}

/// A PSP packet with the marks and lengths given, its bytes a pattern that depends on the number.
pub fn psp(session: u32, flow: u8, number: u16, segments: &[(u16, usize)]) -> Vec<u8> {
    psp_with(session, S | flow, segments.len() as u8, number, segments)
}

/// A PSP packet with S clear; what stands where the number does has no meaning.
pub fn unnumbered(session: u32, flow: u8, field: u16, segments: &[(u16, usize)]) -> Vec<u8> {
    psp_with(session, flow, segments.len() as u8, field, segments)
}

/// A packet with its S cleared.
pub fn without_number(mut packet: Vec<u8>) -> Vec<u8> {
    packet[4] &= !S;
    packet
}

/// A PSP packet with any bytes 4 and 5.
pub fn psp_with(session: u32, byte4: u8, byte5: u8, number: u16, segments: &[(u16, usize)]) -> Vec<u8> {
    let mut packet = header(session, byte4, byte5, number);
    for (marks, length) in segments {
        packet.extend((marks | *length as u16).to_be_bytes());
    }
    let bytes = segments.iter().map(|(_, length)| length).sum();
    packet.extend(pattern(usize::from(number) * 7 + usize::from(byte4), bytes));
    packet
}

/// One MPEG packet with bytes 1 and 2 as given.
pub fn mpeg(byte1: u8, byte2: u8, filling: usize) -> Vec<u8> {
    let mut mpeg = vec![MPEG_SYNC, byte1, byte2];
    mpeg.extend(pattern(filling, MPEG_BYTES - 3));
    mpeg
}

/// A D-MPT packet with a MPEG packet for each pair of bytes 1 and 2.
pub fn dmpt(session: u32, byte4: u8, number: u16, pids: &[(u8, u8)]) -> Vec<u8> {
    let mut packet = header(session, byte4, 0, number);
    for (place, (byte1, byte2)) in pids.iter().enumerate() {
        packet.extend(mpeg(*byte1, *byte2, usize::from(number) + 17 * place));
    }
    packet
}
