//! Frames files for the sender: directed cases for every boundary, and others made by dice.
//!
//! Document 01, 'The sender' and the size limits of 'Capture file and listing'.

use crate::capture::{LONGEST_FILE, MOST_ENTRIES};
use crate::card::LONGEST_FRAME;
use crate::craft::pattern;
use crate::dice::Dice;
use crate::sender::{Order, LARGEST_LIMIT, MOST_FRAMES, SMALLEST_LIMIT};

/// What `pspsend` is asked for, with a name that tells why.
#[derive(Clone, Debug)]
pub struct SendCase {
    pub name: String,
    pub order: Order,
    pub file: Vec<u8>,
}

const ORDER: Order = Order { session: 0x101, flow: 1, number: 0xFFFF, limit: 16 };

/// A frames file of frames of the lengths given.
fn frames_file(lengths: &[usize]) -> Vec<u8> {
    let mut file = Vec::new();
    for (place, length) in lengths.iter().enumerate() {
        file.extend((*length as u16).to_be_bytes());
        file.extend(pattern(31 * place + 0x11, *length));
    }
    file
}

fn case(name: &str, order: Order, file: Vec<u8>) -> SendCase {
    SendCase { name: format!("directed-{name}"), order, file }
}

/// All directed cases.
pub fn directed() -> Vec<SendCase> {
    let mut all = orders();
    all.extend(limits());
    all.extend(files());
    all.extend(captures());
    all
}

/// Session, flow and number: refusal 31 before the others.
fn orders() -> Vec<SendCase> {
    let frames = frames_file(&[6, 9]);
    let cut = frames[..9].to_vec();
    vec![
        case("paper", ORDER, frames.clone()),
        case("session-0", Order { session: 0, ..ORDER }, frames.clone()),
        case("session-0-limit-15-cut", Order { session: 0, limit: 15, ..ORDER }, cut.clone()),
        case("session-highest", Order { session: u32::MAX, ..ORDER }, frames.clone()),
        case("flow-0", Order { flow: 0, ..ORDER }, frames.clone()),
        case("flow-3", Order { flow: 3, ..ORDER }, frames.clone()),
        case("flow-4", Order { flow: 4, ..ORDER }, frames.clone()),
        case("flow-7", Order { flow: 7, ..ORDER }, frames.clone()),
        case("flow-255", Order { flow: 255, ..ORDER }, frames.clone()),
        case("flow-4-and-nothing", Order { flow: 4, ..ORDER }, Vec::new()),
        case("number-0", Order { number: 0, ..ORDER }, frames.clone()),
        case("numbers-wrap", Order { number: 65_533, ..ORDER }, frames_file(&[100])),
        case("limit-15-cut", Order { limit: 15, ..ORDER }, cut),
        case("limit-4097-and-nothing", Order { limit: 4_097, ..ORDER }, Vec::new()),
    ]
}

/// Limits, against frames whose ends come close to the end of the room: refusal 32, and where segments are cut.
fn limits() -> Vec<SendCase> {
    let mut all = Vec::new();
    let around = [(5..=13).collect::<Vec<usize>>(), vec![1; 20], vec![2_048, 1, 2_047, 3]].concat();
    for limit in [0, 4, 15, 16, 17, 18, 19, 20, 21, 64, 2_050, 2_054, 2_055, 4_095, 4_096, 4_097, 65_535] {
        all.push(case(&format!("limit-{limit}"), Order { limit, ..ORDER }, frames_file(&around)));
    }
    for first in 5..=11 {
        all.push(case(&format!("first-{first}"), ORDER, frames_file(&[first, 12, 1, 1])));
    }
    all
}

/// Frames and files of frames: refusals 33 and 35.
fn files() -> Vec<SendCase> {
    let order = Order { limit: 400, ..ORDER };
    let widest = Order { limit: LARGEST_LIMIT, ..ORDER };
    let cut = |length: usize| frames_file(&[6, 9])[..length].to_vec();
    let with = |more: &[u8]| [frames_file(&[6, 9]).as_slice(), more].concat();
    let mut all = vec![
        case("empty", order, Vec::new()),
        case("one-byte", order, vec![0]),
        case("length-0", order, vec![0, 0]),
        case("length-0-in-the-middle", order, frames_file(&[3, 0, 4])),
        case("length-0-at-the-end", order, frames_file(&[3, 0])),
        case("length-1", order, frames_file(&[1])),
        case("length-2047", order, frames_file(&[2_047])),
        case("length-2048", order, frames_file(&[LONGEST_FRAME])),
        case("length-2049", order, frames_file(&[LONGEST_FRAME + 1])),
        case("length-2049-at-the-end", order, frames_file(&[5, LONGEST_FRAME, LONGEST_FRAME + 1])),
        case("length-65535", order, frames_file(&[65_535])),
        case("126-frames", order, frames_file(&[3; MOST_FRAMES - 1])),
        case("127-frames", order, frames_file(&[3; MOST_FRAMES])),
        case("128-frames", order, frames_file(&[3; MOST_FRAMES + 1])),
        case("127-frames-of-1-in-a-packet", widest, frames_file(&[1; MOST_FRAMES])),
        case("127-frames-of-30-in-a-packet", widest, frames_file(&[30; MOST_FRAMES])),
        case("128-frames-of-1", widest, frames_file(&[1; MOST_FRAMES + 1])),
        case("127-frames-and-a-byte", order, [frames_file(&[3; MOST_FRAMES]), vec![0]].concat()),
        case("1000-frames", order, frames_file(&[1; 1_000])),
        case("longest-file", widest, frames_file(&[LONGEST_FRAME; MOST_FRAMES])),
        case("longer-file", widest, frames_file(&[LONGEST_FRAME; MOST_FRAMES + 20])),
        case("leftover-byte", order, with(&[0])),
        case("leftover-length", order, with(&[0, 1])),
        case("leftover-length-0", order, with(&[0, 0])),
    ];
    for length in [1, 2, 3, 7, 8, 9, 10, 18] {
        all.push(case(&format!("cut-to-{length}"), order, cut(length)));
    }
    all
}

/// Captures that reach 60,000 bytes or 1,000 entries, and pass them: 41 and 43.
fn captures() -> Vec<SendCase> {
    let mut all = Vec::new();
    // With L = 16 a packet has room for 10 bytes of a frame; frames of 10 take one packet each.
    for packets in [MOST_ENTRIES - 2, MOST_ENTRIES - 1, MOST_ENTRIES, MOST_ENTRIES + 1] {
        let lengths = lengths_of(10 * packets, 2_000);
        all.push(case(&format!("{packets}-packets"), ORDER, frames_file(&lengths)));
    }
    // With L = 2,006 a packet has room for 2,000 bytes and takes 2,014 in the file; 29 full ones leave 1,584 for the last.
    let order = Order { limit: 2_006, ..ORDER };
    let last = LONGEST_FILE - 2 - 8 - 29 * (4 + 8 + 2 + 2_000) - (4 + 8 + 2);
    for length in [last - 1, last, last + 1] {
        let mut lengths = vec![2_000; 29];
        lengths.push(length);
        all.push(case(&format!("capture-with-last-{length}"), order, frames_file(&lengths)));
    }
    // Too long and too many at once: 24 bytes to a packet.
    all.push(case("too-long-and-too-many", ORDER, frames_file(&lengths_of(10 * 2_600, 2_000))));
    all.push(case("too-many-not-too-long", ORDER, frames_file(&lengths_of(10 * 2_400, 2_000))));
    all
}

/// Lengths of `each`, and a rest, that add up to `sum`.
fn lengths_of(sum: usize, each: usize) -> Vec<usize> {
    let mut lengths = vec![each; sum / each];
    if !sum.is_multiple_of(each) {
        lengths.push(sum % each);
    }
    lengths
}

/// The case of that index, made by dice.
pub fn random(seed: u64, index: usize) -> SendCase {
    let mut dice = Dice::for_index(!seed, index as u64);
    let order = random_order(&mut dice);
    let mut file = random_frames(&mut dice);
    let name = match dice.below(20) {
        0 => {
            file.truncate(dice.below(file.len() + 1));
            "cut"
        }
        1 => {
            let place = dice.below(file.len());
            file[place] ^= 1 << dice.below(8);
            "flipped"
        }
        2 => {
            file.push(dice.byte());
            "longer"
        }
        3 => {
            file.clear();
            "empty"
        }
        _ => "sound",
    };
    SendCase { name: format!("random-{name}"), order, file }
}

fn random_order(dice: &mut Dice) -> Order {
    let any = dice.next();
    let session = dice.pick(&[1, 0x101, any as u32, any as u32, any as u32 & 0xFF, u32::MAX]);
    let flow = if dice.percent(4) { dice.below(256) as u8 } else { dice.below(4) as u8 };
    let number = dice.pick(&[65_535, 65_530, 65_500, 0, 32_767, any as u16]);
    let limit = match dice.below(10) {
        0 => dice.between(0, LARGEST_LIMIT + 20),
        1..=4 => dice.between(SMALLEST_LIMIT, 60),
        5..=7 => dice.between(SMALLEST_LIMIT, 600),
        _ => dice.between(SMALLEST_LIMIT, LARGEST_LIMIT),
    };
    Order { session, flow, number, limit }
}

fn random_frames(dice: &mut Dice) -> Vec<u8> {
    let most = dice.pick(&[1, 3, 10, 40, MOST_FRAMES]);
    let longest = dice.pick(&[3, 12, 12, 40, 300, LONGEST_FRAME]);
    let mut file = Vec::new();
    for _ in 0..dice.between(1, most) {
        let length = dice.between(1, longest);
        file.extend((length as u16).to_be_bytes());
        file.extend(dice.bytes(length));
    }
    file
}
