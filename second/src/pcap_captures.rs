//! Captures that are exported: directed ones, and others made by dice, with addresses of all sorts.
//!
//! Captures that are refused, and long ones, are those of the comparison on captures; here are such besides as show how
//! headers depend on lengths and addresses.

use crate::capture::{Capture, Entry};
use crate::craft::pattern;
use crate::dice::Dice;
use crate::directed;
use crate::generate;
use crate::packet::{big_endian, Kind, Packet, Transport};
use crate::pcap::{Addresses, IP_BYTES, L2TP, UDP, UDP_HEADER_BYTES};

/// What `pspexport` is asked for, with a name that tells why.
#[derive(Clone, Debug)]
pub struct ExportCase {
    pub name: String,
    pub addresses: Addresses,
    pub file: Vec<u8>,
}

const ADDRESSES: Addresses = Addresses {
    from_mac: [0x02, 0, 0, 0, 0, 0x01],
    to_mac: [0x02, 0, 0, 0, 0, 0x02],
    from_ip: [192, 0, 2, 1],
    to_ip: [192, 0, 2, 2],
};

fn data(transport: Transport, length: usize) -> Entry {
    Entry::Data(Packet { transport, bytes: pattern(length, length) })
}

fn case(name: &str, addresses: Addresses, entries: Vec<Entry>) -> ExportCase {
    ExportCase { name: format!("directed-{name}"), addresses, file: Capture { entries }.write() }
}

/// All directed cases.
pub fn directed() -> Vec<ExportCase> {
    let mut all = kinds();
    all.extend(lengths());
    all.extend(addresses());
    all.extend(sums());
    let captures = directed::captures().into_iter();
    all.extend(captures.map(|capture| ExportCase { name: capture.name, addresses: ADDRESSES, file: capture.file }));
    let form_2 = [0xFF, 0xFF, 0, 1, 4, 0, 0, 0, 0, 0, 0, 0].to_vec();
    all.push(ExportCase { name: "directed-form-2".to_string(), addresses: ADDRESSES, file: form_2 });
    all
}

/// Entries that are not exported, alone and between others.
fn kinds() -> Vec<ExportCase> {
    let sorts = [
        Entry::Open(Kind::Psp, 5),
        Entry::Open(Kind::Dmpt, 6),
        Entry::Close(5),
        data(Transport::Ip, 9),
        data(Transport::Udp, 13),
    ];
    let mut all = vec![case("empty", ADDRESSES, Vec::new())];
    for (place, entry) in sorts.iter().enumerate() {
        all.push(case(&format!("entry-{place}-alone"), ADDRESSES, vec![entry.clone()]));
        all.push(case(&format!("entry-{place}-often"), ADDRESSES, vec![entry.clone(); 257]));
        for (other, after) in sorts.iter().enumerate() {
            let entries = vec![entry.clone(), after.clone(), entry.clone()];
            all.push(case(&format!("entries-{place}-{other}"), ADDRESSES, entries));
        }
    }
    all
}

/// Bodies of every short length, and up to the longest that a capture has.
fn lengths() -> Vec<ExportCase> {
    let mut all = Vec::new();
    for length in (0..=40).chain([211, 235, 236, 1_000, 4_100, 4_104, 32_768, 59_993, 59_994]) {
        for transport in [Transport::Ip, Transport::Udp] {
            all.push(case(&format!("body-{length}-{transport:?}"), ADDRESSES, vec![data(transport, length)]));
        }
    }
    all
}

/// Addresses in which each byte tells its place, and others with bytes that are all alike.
fn addresses() -> Vec<ExportCase> {
    let entries = vec![data(Transport::Ip, 20), data(Transport::Udp, 20)];
    let told = Addresses {
        from_mac: [0x10, 0x21, 0x32, 0x43, 0x54, 0x65],
        to_mac: [0xA9, 0xB8, 0xC7, 0xD6, 0xE5, 0xF4],
        from_ip: [1, 20, 122, 203],
        to_ip: [250, 99, 100, 9],
    };
    let alike =
        |byte: u8| Addresses { from_mac: [byte; 6], to_mac: [!byte; 6], from_ip: [byte; 4], to_ip: [byte ^ 0x55; 4] };
    [told, alike(0), alike(0xFF), alike(0x7F), alike(0x80), Addresses::default()]
        .into_iter()
        .map(|addresses| case("addresses", addresses, entries.clone()))
        .collect()
}

/// Headers whose words add up to numbers close to where the sum runs over, once and twice: the last two bytes of an address
/// are chosen so.
fn sums() -> Vec<ExportCase> {
    let mut all = Vec::new();
    for (transport, protocol, more) in [(Transport::Ip, L2TP, 0), (Transport::Udp, UDP, UDP_HEADER_BYTES)] {
        for from_ip in [[0, 0, 0, 0], [1, 2, 3, 4], [192, 0, 2, 1], [255, 255, 255, 255]] {
            for high in [0x0000_u16, 0xFFFF] {
                for wanted in [0xFFFD_u16, 0xFFFE, 0xFFFF, 0x0000, 0x0001, 0x0002, 0x7FFF, 0x8000] {
                    let length = 3;
                    let words = [0x4500, (IP_BYTES + more + length) as u16, 0x4000 | u16::from(protocol), high];
                    let [first, second] = [0, 2].map(|place| big_endian(&from_ip[place..place + 2]) as u16);
                    let sum = words.into_iter().chain([first, second]).fold(0, u16::wrapping_add);
                    let last = wanted.wrapping_sub(sum).to_be_bytes();
                    let [top, next] = high.to_be_bytes();
                    let addresses = Addresses { from_ip, to_ip: [top, next, last[0], last[1]], ..ADDRESSES };
                    let name = format!("sum-{wanted:04x}-{transport:?}");
                    all.push(case(&name, addresses, vec![data(transport, length), data(transport, length)]));
                }
            }
        }
    }
    all
}

/// The case of that index, made by dice: one in three is a capture of the comparison on captures, sound or damaged.
pub fn random(seed: u64, index: usize) -> ExportCase {
    let mut dice = Dice::for_index(seed ^ 0x6578_706F, index as u64);
    let addresses = some_addresses(&mut dice);
    if index.is_multiple_of(3) {
        let capture = generate::capture(seed, index / 3);
        return ExportCase { name: format!("random-{}", capture.name), addresses, file: capture.file };
    }
    let entries = (0..dice.below(8)).map(|_| some_entry(&mut dice)).collect();
    let mut file = Capture { entries }.write();
    let name = match dice.below(12) {
        0 => {
            let high = file.len();
            generate::flip_bits(&mut dice, &mut file, 0, high);
            "flipped"
        }
        1 => {
            file.truncate(dice.below(file.len() + 1));
            "cut"
        }
        2 => {
            file.push(dice.byte());
            "longer"
        }
        _ => "sound",
    };
    ExportCase { name: format!("random-{name}"), addresses, file }
}

fn some_entry(dice: &mut Dice) -> Entry {
    let session = dice.next() as u32;
    let most = dice.pick(&[0, 12, 40, 40, 300, 1_500]);
    let length = dice.between(0, most);
    let bytes = dice.bytes(length);
    match dice.below(10) {
        0 => Entry::Open(Kind::Psp, session),
        1 => Entry::Open(Kind::Dmpt, session),
        2 => Entry::Close(session),
        3..=6 => Entry::Data(Packet { transport: Transport::Ip, bytes }),
        _ => Entry::Data(Packet { transport: Transport::Udp, bytes }),
    }
}

fn some_addresses(dice: &mut Dice) -> Addresses {
    let mut mac = || -> [u8; 6] { dice.bytes(6).try_into().expect("six bytes") };
    let (from_mac, to_mac) = (mac(), mac());
    let mut ip = || -> [u8; 4] { dice.bytes(4).try_into().expect("four bytes") };
    let (from_ip, to_ip) = (ip(), ip());
    Addresses { from_mac, to_mac, from_ip, to_ip }
}
