//! Pcap files made by dice, for the import: sound ones, damaged ones, random ones.
//!
//! A file depends on the seed and its index only. Most have a few records, so that a comparison can have many of them; one in
//! sixty is long, with its capture close to 60,000 bytes or 1,000 entries.

use crate::capture::{LONGEST_FILE, MOST_ENTRIES};
use crate::craft::{psp, BEGIN, WHOLE};
use crate::dice::Dice;
use crate::generate::flip_bits;
use crate::pcap::{
    ByteOrder, ETHERNET_BYTES, FILE_HEADER_BYTES, IPV4, IP_BYTES, L2TP, MORE_FRAGMENTS, PORT, RECORD_HEADER_BYTES, UDP,
    VLAN,
};
use crate::pcap_cases::ImportCase;
use crate::pcap_craft::{
    arp, ethernet, ipv6, padded, tagged, File, FileHeader, Ip, Udp, OVER_IP, SOUND_HEADER, TO_PORT,
};

/// How a file is made.
#[derive(Clone, Copy)]
enum Family {
    Sound,
    /// Bits flipped anywhere, or in the headers of one frame.
    Flipped,
    FlippedFrame,
    Cut,
    /// A record's lengths changed.
    RecordLengths,
    /// A frame's own lengths changed.
    FrameLengths,
    /// Random bytes behind headers that are sound as far as they go.
    RandomFrames,
    RandomRecords,
    RandomFile,
}

/// The families, in rotation.
const ROTATION: [Family; 16] = [
    Family::Sound,
    Family::Sound,
    Family::FrameLengths,
    Family::FlippedFrame,
    Family::Sound,
    Family::RecordLengths,
    Family::RandomFrames,
    Family::FlippedFrame,
    Family::Cut,
    Family::Sound,
    Family::FrameLengths,
    Family::Flipped,
    Family::RandomFrames,
    Family::RecordLengths,
    Family::RandomRecords,
    Family::RandomFile,
];
/// One file in so many is long.
const LONG: usize = 60;

/// The case of that index.
pub fn random(seed: u64, index: usize) -> ImportCase {
    let mut dice = Dice::for_index(seed ^ 0x7063_6170, index as u64);
    let family = ROTATION[index % ROTATION.len()];
    let (name, sessions, file) = if index % LONG == LONG - 1 {
        let sessions = some_sessions(&mut dice, 60);
        let file = long_file(&mut dice, sessions.len());
        ("long", sessions, file)
    } else {
        let (name, file) = some_file(&mut dice, family);
        (name, some_sessions(&mut dice, 1), file)
    };
    ImportCase { name: format!("random-{name}"), sessions, file }
}

/// Mostly none or a few; in so many of 100 throws as many as make a capture full or too full.
fn some_sessions(dice: &mut Dice, many: usize) -> Vec<u32> {
    let count = match dice.below(10) {
        _ if dice.percent(many) && dice.percent(20) => dice.between(MOST_ENTRIES - 8, MOST_ENTRIES + 2),
        0..=5 => 0,
        6..=8 => dice.between(1, 3),
        _ => dice.between(4, 9),
    };
    (0..count).map(|_| some_session(dice)).collect()
}

fn some_session(dice: &mut Dice) -> u32 {
    let any = dice.next() as u32;
    dice.pick(&[0x101, 0x101, 0, 1, any, any, any & 0xFF, u32::MAX])
}

fn some_order(dice: &mut Dice) -> ByteOrder {
    dice.pick(&[ByteOrder::Little, ByteOrder::Big])
}

/// A file's header with what is ignored thrown.
fn some_beginning(dice: &mut Dice) -> File {
    let any = [dice.next() as u32, dice.next() as u32, dice.next() as u32];
    let thrown = FileHeader { zone: any[0], accuracy: any[1], snap_length: any[2], ..SOUND_HEADER };
    let header = dice.pick(&[SOUND_HEADER, thrown]);
    File::headed(some_order(dice), header)
}

fn some_file(dice: &mut Dice, family: Family) -> (&'static str, Vec<u8>) {
    let file = some_beginning(dice);
    match family {
        Family::Sound => ("sound", some_records(dice, file).bytes),
        Family::Flipped => ("flipped", flipped_file(dice, file)),
        Family::FlippedFrame => ("flipped-frame", with_frame_between(dice, file, flipped_frame)),
        Family::Cut => ("cut", cut_file(dice, file)),
        Family::RecordLengths => ("record-lengths", wrong_record(dice, file)),
        Family::FrameLengths => ("frame-lengths", with_frame_between(dice, file, wrong_frame)),
        Family::RandomFrames => {
            let frames: Vec<Vec<u8>> = (0..dice.between(1, 6)).map(|_| random_frame(dice)).collect();
            ("random-frames", file.records(&frames).bytes)
        }
        Family::RandomRecords => {
            let length = dice.below(80);
            ("random-records", [file.bytes, dice.bytes(length)].concat())
        }
        Family::RandomFile => {
            let length = dice.below(80);
            ("random-file", dice.bytes(length))
        }
    }
}

/// One to three frames of a sort, with mostly sound ones before and behind them.
fn with_frame_between(dice: &mut Dice, file: File, frame: fn(&mut Dice) -> Vec<u8>) -> Vec<u8> {
    let mut file = some_records(dice, file);
    for _ in 0..dice.between(1, 3) {
        file = file.record(&frame(dice));
    }
    some_records(dice, file).bytes
}

/// A packet with bits flipped where the headers are that decide.
fn flipped_frame(dice: &mut Dice) -> Vec<u8> {
    let mut frame = some_packet(dice);
    let low = dice.pick(&[ETHERNET_BYTES - 2, ETHERNET_BYTES, ETHERNET_BYTES, ETHERNET_BYTES + IP_BYTES]);
    flip_bits(dice, &mut frame, low, ETHERNET_BYTES + IP_BYTES + 8);
    frame
}

fn flipped_file(dice: &mut Dice, file: File) -> Vec<u8> {
    let mut bytes = some_records(dice, file).bytes;
    let (low, high) = (dice.pick(&[0, FILE_HEADER_BYTES]), bytes.len());
    flip_bits(dice, &mut bytes, low, high);
    bytes
}

fn cut_file(dice: &mut Dice, file: File) -> Vec<u8> {
    let mut bytes = some_records(dice, file).bytes;
    let least = if dice.percent(20) { 0 } else { FILE_HEADER_BYTES };
    bytes.truncate(dice.between(least, bytes.len()));
    bytes
}

/// Up to five records, mostly sound; some are said to have been longer or shorter.
fn some_records(dice: &mut Dice, mut file: File) -> File {
    for _ in 0..dice.below(6) {
        let frame = some_frame(dice);
        let length = frame.len() as u32;
        let original = if dice.percent(20) { dice.next() as u32 >> dice.below(32) } else { length };
        file = file.claiming(length, original, &frame);
    }
    file
}

/// A record whose captured length is not its own, among sound ones.
fn wrong_record(dice: &mut Dice, file: File) -> Vec<u8> {
    let file = some_records(dice, file);
    let frame = some_frame(dice);
    let length = frame.len() as u32;
    let little = dice.between(1, 20) as u32;
    let start = (file.bytes.len() + RECORD_HEADER_BYTES) as u32;
    let wrapped = (dice.below(start as usize + frame.len()) as u32).wrapping_sub(start);
    let any = dice.next() as u32 >> dice.below(32);
    let captured = dice.pick(&[length + little, length.saturating_sub(little), length.swap_bytes(), wrapped, any]);
    let file = file.claiming(captured, length, &frame);
    some_records(dice, file).bytes
}

/// The bytes of a packet, short as a rule.
fn some_body(dice: &mut Dice) -> Vec<u8> {
    let length = match dice.below(12) {
        0 => 0,
        1 => dice.between(1, 3),
        2..=9 => dice.between(4, 40),
        10 => dice.between(41, 300),
        _ => return psp(0x101, dice.below(4) as u8, dice.next() as u16, &[(WHOLE, 5), (BEGIN, dice.between(1, 20))]),
    };
    dice.bytes(length)
}

fn some_options(dice: &mut Dice) -> usize {
    if dice.percent(15) {
        dice.between(1, 10)
    } else {
        0
    }
}

/// An IP header of that protocol with what is ignored thrown.
fn some_ip(dice: &mut Dice, protocol: u8) -> Ip {
    let fragment = dice.pick(&[0, 0, 0x4000, 0x8000, 0xC000]);
    Ip { options: some_options(dice), fragment, protocol, summed: dice.percent(70), ..OVER_IP }
}

/// A frame that is taken.
fn some_packet(dice: &mut Dice) -> Vec<u8> {
    let body = some_body(dice);
    let frame = if dice.percent(60) {
        some_ip(dice, L2TP).frame(&body)
    } else {
        let source = dice.pick(&[PORT, 50_000, 0, 53]);
        // Bytes between the end of what UDP carries and the end of the datagram are no part of the body.
        let behind = if dice.percent(15) { dice.between(1, 9) } else { 0 };
        let udp = Udp { source, length: Some((8 + body.len()) as u16), ..TO_PORT };
        let payload = [udp.payload(&body), dice.bytes(behind)].concat();
        some_ip(dice, UDP).frame(&payload)
    };
    some_padding(dice, frame)
}

fn some_padding(dice: &mut Dice, frame: Vec<u8>) -> Vec<u8> {
    let length = frame.len();
    let padding = dice.pick(&[0, 60, 60, length + 1, length + 4]);
    padded(frame, padding)
}

/// A frame of any sort.
fn some_frame(dice: &mut Dice) -> Vec<u8> {
    let body = some_body(dice);
    match dice.below(20) {
        0 => arp(),
        1 => ipv6(&body),
        2 => tagged(VLAN, &some_packet(dice)),
        3 => ethernet(dice.next() as u16, &OVER_IP.datagram(&body)),
        4 => {
            let protocol = dice.pick(&[1, 6, 47, 50, 89, 114, 116]);
            some_ip(dice, protocol).frame(&body)
        }
        5 => {
            let destination = dice.pick(&[53, 1_700, 1_702, PORT.swap_bytes(), 65_535]);
            Udp { source: PORT, destination, length: None }.frame(&body)
        }
        6 => {
            let protocol = dice.pick(&[L2TP, UDP, UDP, 6]);
            let fragment = dice.pick(&[MORE_FRAGMENTS, MORE_FRAGMENTS | 185, 185, 0x1FFF, 1]);
            Ip { fragment, protocol, ..OVER_IP }.frame(&body)
        }
        7 => wrong_frame(dice),
        _ => some_packet(dice),
    }
}

/// A frame with a length of its own changed: the header's, the total one, UDP's, or several; now and then a fragment too.
fn wrong_frame(dice: &mut Dice) -> Vec<u8> {
    let protocol = dice.pick(&[L2TP, UDP, UDP, 6]);
    let body = some_body(dice);
    let near = |dice: &mut Dice, length: usize| {
        let little = dice.between(0, 9);
        let any = dice.next() as usize >> dice.between(48, 63);
        dice.pick(&[length + little, length.saturating_sub(little), little, any]) as u16
    };
    let udp_length = near(dice, 8 + body.len());
    let udp = Udp {
        source: dice.pick(&[PORT, 50_000]),
        destination: dice.pick(&[PORT, PORT, 1_700]),
        length: dice.percent(50).then_some(udp_length),
    };
    let payload = if protocol == UDP { udp.payload(&body) } else { body };
    let options = some_options(dice);
    let total = near(dice, IP_BYTES + 4 * options + payload.len());
    let words = dice.below(16) as u8;
    let ip = Ip {
        options,
        protocol,
        total: dice.percent(50).then_some(total),
        words: dice.percent(25).then_some(words),
        fragment: dice.pick(&[0, 0, 0, 0x4000, MORE_FRAGMENTS, 3]),
        ..OVER_IP
    };
    some_padding(dice, ip.frame(&payload))
}

/// Random bytes, some of the places that decide set right.
fn random_frame(dice: &mut Dice) -> Vec<u8> {
    let length = dice.between(0, 90);
    let mut frame = dice.bytes(length);
    let right = [(12, (IPV4 >> 8) as u8), (13, IPV4 as u8), (14, 0x45), (16, 0), (20, 0), (21, 0), (23, UDP)];
    for (place, value) in right.into_iter().chain([(36, (PORT >> 8) as u8), (37, PORT as u8), (38, 0)]) {
        if place < length && dice.percent(96) {
            frame[place] = value;
        }
    }
    for (place, most) in [(17, 80), (39, 50)] {
        if place < length {
            frame[place] = dice.below(most) as u8;
        }
    }
    if length > 23 && dice.percent(30) {
        frame[23] = L2TP;
    }
    frame
}

/// A file whose capture comes close to the limits, from either side.
fn long_file(dice: &mut Dice, sessions: usize) -> Vec<u8> {
    let mut file = some_beginning(dice);
    if dice.percent(50) {
        let wanted = (MOST_ENTRIES + 2).saturating_sub(sessions + dice.below(5));
        for _ in 0..wanted {
            file = file.record(&OVER_IP.frame(&[]));
        }
        return some_records(dice, file).bytes;
    }
    let mut room = LONGEST_FILE + 4 - 2 - 8 * sessions - dice.below(8);
    while room > 4 {
        let most = dice.pick(&[5_000, 20_000, 60_000]);
        let length = dice.between(1, most).min(room - 4);
        let body = vec![dice.byte(); length];
        let udp = dice.percent(40);
        file = file.record(&if udp { TO_PORT.frame(&body) } else { some_ip(dice, L2TP).frame(&body) });
        room -= 4 + length;
    }
    file.bytes
}
