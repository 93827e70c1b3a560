//! Captures from and to pcap files, as packet viewers read and write them: what both directions share, and the import.
//!
//! Document 02, W5. A classic pcap file has a header of 24 bytes and then records, each a header of 16 bytes and a frame.
//! Ethernet has 14 bytes before what it carries, IPv4 (RFC 791) 20 and up to 40 of options, UDP (RFC 768) 8. Numbers of the
//! file and its records are in the byte order that the file's first bytes tell; numbers in frames are big-endian.
//!
//! Import cuts a file into records, each frame into what the layers carry, and passes over a frame at the first cause:
//! not IPv4, bad lengths, fragment, other protocol or port. `pcap_export` puts the layers around a capture's packets.

use crate::capture::{Capture, Entry};
use crate::faults::{Fault, Faults};
use crate::packet::{big_endian, Kind, Packet, Refusal, Transport, LONGEST_PACKET};
use crate::pcap_export::{export, Exported};

pub const MAGIC: u32 = 0xA1B2_C3D4;
pub const NANOSECONDS_MAGIC: u32 = 0xA1B2_3C4D;
pub const VERSION: (u16, u16) = (2, 4);
pub const ETHERNET: u32 = 1;

pub const FILE_HEADER_BYTES: usize = 24;
pub const RECORD_HEADER_BYTES: usize = 16;
pub const ETHERNET_BYTES: usize = 14;
pub const IP_BYTES: usize = 20;
pub const UDP_HEADER_BYTES: usize = 8;

pub const IPV4: u16 = 0x0800;
pub const VLAN: u16 = 0x8100;
/// IP protocol numbers: UDP, and L2TPv3 straight over IP (RFC 3931, section 4.1.1).
pub const UDP: u8 = 17;
pub const L2TP: u8 = 115;
/// L2TP's port (RFC 3931, section 4.1.2).
pub const PORT: u16 = 1701;

/// Bytes 6 and 7 of an IP header: a reserved bit, two flags and where a fragment belongs.
pub const RESERVED_BIT: u16 = 0x8000;
pub const DONT_FRAGMENT: u16 = 0x4000;
pub const MORE_FRAGMENTS: u16 = 0x2000;
pub const FRAGMENT_OFFSET: u16 = 0x1FFF;

/// The longest file that the proved import program has room for.
pub const LONGEST_IMPORT: usize = 4_194_304;

/// How the numbers of a file and its records stand there.
#[derive(Clone, Copy, Debug, PartialEq, Eq)]
pub enum ByteOrder {
    Little,
    Big,
}

/// Why a record is passed over.
#[derive(Clone, Copy, Debug, PartialEq, Eq)]
pub enum Cause {
    NotIpv4,
    BadLengths,
    Fragment,
    Other,
}

/// What an import gives: the capture, and how many records were passed over for each cause, in their order.
#[derive(Clone, Debug, PartialEq, Eq)]
pub struct Imported {
    pub capture: Capture,
    pub skipped: [usize; 4],
}

/// The addresses that an export writes.
#[derive(Clone, Copy, Debug, Default, PartialEq, Eq)]
pub struct Addresses {
    pub from_mac: [u8; 6],
    pub to_mac: [u8; 6],
    pub from_ip: [u8; 4],
    pub to_ip: [u8; 4],
}

/// What a program prints.
#[derive(Clone, Debug, PartialEq, Eq)]
pub struct Prints {
    pub error: String,
    pub output: Vec<u8>,
}

impl ByteOrder {
    pub fn read(self, bytes: &[u8]) -> u32 {
        let mut bytes = bytes.to_vec();
        if self == ByteOrder::Little {
            bytes.reverse();
        }
        big_endian(&bytes)
    }

    pub fn write_2(self, number: u16) -> [u8; 2] {
        match self {
            ByteOrder::Little => number.to_le_bytes(),
            ByteOrder::Big => number.to_be_bytes(),
        }
    }

    pub fn write_4(self, number: u32) -> [u8; 4] {
        match self {
            ByteOrder::Little => number.to_le_bytes(),
            ByteOrder::Big => number.to_be_bytes(),
        }
    }
}

impl Cause {
    pub const ALL: [Cause; 4] = [Cause::NotIpv4, Cause::BadLengths, Cause::Fragment, Cause::Other];

    pub fn name(self) -> &'static str {
        match self {
            Cause::NotIpv4 => "not-ipv4",
            Cause::BadLengths => "bad-lengths",
            Cause::Fragment => "fragment",
            Cause::Other => "other",
        }
    }
}

impl Addresses {
    /// Four words: the MAC address from which, the one to which, and the same of the IP addresses.
    pub fn read(words: [&str; 4]) -> Option<Addresses> {
        let hexadecimal = |word: &str| u8::from_str_radix(word, 16).ok();
        let decimal = |word: &str| word.parse().ok();
        Some(Addresses {
            from_mac: parts(words[0], ':', hexadecimal)?,
            to_mac: parts(words[1], ':', hexadecimal)?,
            from_ip: parts(words[2], '.', decimal)?,
            to_ip: parts(words[3], '.', decimal)?,
        })
    }

    pub fn words(&self) -> [String; 4] {
        let mac = |address: [u8; 6]| address.map(|byte| format!("{byte:02x}")).join(":");
        let ip = |address: [u8; 4]| address.map(|byte| byte.to_string()).join(".");
        [mac(self.from_mac), mac(self.to_mac), ip(self.from_ip), ip(self.to_ip)]
    }
}

fn parts<const N: usize>(word: &str, between: char, read: impl Fn(&str) -> Option<u8>) -> Option<[u8; N]> {
    let parts: Option<Vec<u8>> = word.split(between).map(read).collect();
    parts?.try_into().ok()
}

/// What pspimport prints.
pub fn print_import(sessions: &[u32], file: &[u8], faults: Faults) -> Prints {
    match import(sessions, file, faults) {
        Err(refusal) => refused(refusal),
        Ok(Imported { capture, skipped }) => {
            let lines = Cause::ALL.iter().zip(skipped).map(|(cause, times)| format!("{} {times}\n", cause.name()));
            Prints { error: lines.collect(), output: capture.write() }
        }
    }
}

/// What pspexport prints.
pub fn print_export(addresses: &Addresses, capture: &[u8], faults: Faults) -> Prints {
    match export(addresses, capture, faults) {
        Err(refusal) => refused(refusal),
        Ok(Exported { file, opens, closes }) => {
            Prints { error: format!("opens {opens}\ncloses {closes}\n"), output: file }
        }
    }
}

fn refused(Refusal(number): Refusal) -> Prints {
    Prints { error: format!("refused {number}\n"), output: Vec::new() }
}

/// A capture that opens the sessions named and has the packets of a pcap file; or 61, 62 or 63.
pub fn import(sessions: &[u32], file: &[u8], faults: Faults) -> Result<Imported, Refusal> {
    let (header, records) = file.split_at_checked(FILE_HEADER_BYTES).ok_or(Refusal(61))?;
    let order = read_file_header(header, faults)?;
    if faults.has(Fault::PcapEmptyFileRefused) && records.is_empty() {
        return Err(Refusal(61));
    }
    let snap_length = order.read(&header[16..20]) as usize;
    let (frames, ending) = cut_records(records, order, snap_length, faults);

    let mut entries = opens(sessions, faults);
    let mut skipped = [0; 4];
    for frame in frames {
        match read_frame(frame, faults) {
            Ok(packet) => entries.push(Entry::Data(packet)),
            Err(cause) => skipped[cause as usize] += 1,
        }
    }
    let imported = Imported { capture: Capture { entries }, skipped };
    let size = check_size(&imported, sessions.len(), faults);
    if faults.has(Fault::PcapSizeBeforeEnding) {
        size?;
    }
    ending?;
    size?;
    Ok(imported)
}

/// Refusal 61: a magic, version or link type that W5 does not name. The rest of the header has no say.
fn read_file_header(header: &[u8], faults: Faults) -> Result<ByteOrder, Refusal> {
    let is_magic = |number| number == MAGIC || faults.has(Fault::PcapNanosecondsTaken) && number == NANOSECONDS_MAGIC;
    let orders = [ByteOrder::Little, ByteOrder::Big];
    let order = orders.into_iter().find(|order| is_magic(order.read(&header[..4]))).ok_or(Refusal(61))?;
    if faults.has(Fault::PcapBigEndianRefused) && order == ByteOrder::Big {
        return Err(Refusal(61));
    }
    let major = order.read(&header[4..6]) == u32::from(VERSION.0);
    let minor = order.read(&header[6..8]) == u32::from(VERSION.1) || faults.has(Fault::PcapMinorVersionUnjudged);
    let link_type = order.read(&header[20..24]);
    let ethernet = match faults.has(Fault::PcapLinkTypeOfSixteenBits) {
        true => link_type & 0xFFFF == ETHERNET,
        false => link_type == ETHERNET,
    };
    if major && minor && ethernet {
        Ok(order)
    } else {
        Err(Refusal(61))
    }
}

/// The frames of the records up to the first that runs past the end; and refusal 62 where there is such a one.
fn cut_records(
    records: &[u8],
    order: ByteOrder,
    snap_length: usize,
    faults: Faults,
) -> (Vec<&[u8]>, Result<(), Refusal>) {
    let past_the_end = Err(Refusal(62));
    let mut frames = Vec::new();
    let mut rest = records;
    while !rest.is_empty() {
        let Some((header, after)) = rest.split_at_checked(RECORD_HEADER_BYTES) else {
            return (frames, if faults.has(Fault::PcapShortRestIgnored) { Ok(()) } else { past_the_end });
        };
        let length = record_length(header, order, frames.len(), faults);
        if faults.has(Fault::PcapSnapLengthJudged) && length > snap_length {
            return (frames, past_the_end);
        }
        let Some((frame, next)) = after.split_at_checked(length) else {
            if taken_cut(FILE_HEADER_BYTES + records.len(), after.len(), length, faults) {
                frames.push(after);
                return (frames, Ok(()));
            }
            return (frames, past_the_end);
        };
        frames.push(frame);
        rest = next;
    }
    (frames, Ok(()))
}

/// How long the frame of a record is that comes behind so many others: the captured length, not the original one.
fn record_length(header: &[u8], order: ByteOrder, before: usize, faults: Faults) -> usize {
    let order = match faults.has(Fault::PcapOrderOfFirstRecordOnly) && before > 0 {
        true => ByteOrder::Little,
        false => order,
    };
    let captured = if faults.has(Fault::PcapOriginalLengthRead) { &header[12..16] } else { &header[8..12] };
    match faults.has(Fault::PcapLengthOfSixteenBits) {
        true => order.read(captured) as usize & 0xFFFF,
        false => order.read(captured) as usize,
    }
}

/// Whether a fault lets a record that runs past the end pass, as far as it goes.
fn taken_cut(file: usize, left: usize, length: usize, faults: Faults) -> bool {
    let end = file - left + length;
    let wrapped = end > u32::MAX as usize && end as u32 as usize <= file;
    faults.has(Fault::PcapCutRecordTaken)
        || faults.has(Fault::PcapLastByteMayLack) && length == left + 1
        || faults.has(Fault::PcapRecordEndWraps) && wrapped
}

/// An entry for each session that is named, whatever becomes of it when the capture is run.
fn opens(sessions: &[u32], faults: Faults) -> Vec<Entry> {
    let mut opens: Vec<Entry> = Vec::new();
    for session in sessions {
        let open = Entry::Open(Kind::Psp, *session);
        let left_out = faults.has(Fault::PcapSessionZeroLeftOut) && *session == 0
            || faults.has(Fault::PcapDoublesLeftOut) && opens.contains(&open)
            || faults.has(Fault::PcapSeventhLeftOut) && opens.len() == 6;
        if !left_out {
            opens.push(open);
        }
    }
    opens
}

/// Refusal 63: what 41 or 43 would be said of.
fn check_size(imported: &Imported, opens: usize, faults: Faults) -> Result<(), Refusal> {
    let refusal = Refusal(63);
    let Imported { capture, skipped } = imported;
    if faults.has(Fault::PcapOpensUncounted) {
        let data = Capture { entries: capture.entries[opens..].to_vec() };
        return data.check_size().map_err(|_| refusal);
    }
    let entries = capture.entries.len();
    let wrong = faults.has(Fault::PcapThousandEntriesRefused) && entries == 1_000
        || faults.has(Fault::PcapLongestCaptureRefused) && capture.size() == 60_000
        || faults.has(Fault::PcapSkippedCounted) && entries + skipped.iter().sum::<usize>() > 1_000;
    if wrong {
        return Err(refusal);
    }
    capture.check_size().map_err(|_| refusal)
}

/// The packet that a frame carries, or the first cause to pass it over.
fn read_frame(frame: &[u8], faults: Faults) -> Result<Packet, Cause> {
    let datagram = read_ethernet(frame, faults)?;
    if faults.has(Fault::PcapFragmentBeforeLengths) && datagram.len() >= 8 {
        check_fragment(datagram, faults)?;
    }
    let (header, payload) = read_ip(datagram, faults)?;
    if faults.has(Fault::PcapUdpLengthsOfFragments) && header[9] == UDP {
        read_udp(payload, faults)?;
    }
    if faults.has(Fault::PcapProtocolBeforeFragment) && header[9] != UDP && header[9] != L2TP {
        return Err(Cause::Other);
    }
    check_fragment(header, faults)?;
    let for_udp = if faults.has(Fault::PcapUdpJudgedByRecord) { &datagram[header.len()..] } else { payload };
    let (transport, bytes) = match header[9] {
        L2TP => (Transport::Ip, payload),
        UDP => (Transport::Udp, read_udp(for_udp, faults)?),
        _ => return Err(Cause::Other),
    };
    if faults.has(Fault::PcapEmptyBodySkipped) && bytes.is_empty() {
        return Err(Cause::Other);
    }
    if faults.has(Fault::PcapLongPacketSkipped) && bytes.len() > transport.lead() + LONGEST_PACKET {
        return Err(Cause::BadLengths);
    }
    let transport = if faults.has(Fault::PcapUdpBecomesKindFour) { Transport::Ip } else { transport };
    Ok(Packet { transport, bytes: bytes.to_vec() })
}

/// What an Ethernet frame carries: under 14 bytes, of another type or, as far as that can be seen, of another version than
/// 4, it is not IPv4. A VLAN's tag is another type.
fn read_ethernet(frame: &[u8], faults: Faults) -> Result<&[u8], Cause> {
    let (header, mut datagram) = frame.split_at_checked(ETHERNET_BYTES).ok_or(Cause::NotIpv4)?;
    let mut ether_type = big_endian(&header[12..14]) as u16;
    if faults.has(Fault::PcapVlanPassedOver) && ether_type == VLAN && datagram.len() >= 4 {
        ether_type = big_endian(&datagram[2..4]) as u16;
        datagram = &datagram[4..];
    }
    if ether_type != IPV4 {
        return Err(Cause::NotIpv4);
    }
    let short = datagram.len() < IP_BYTES;
    let another_version = match datagram {
        _ if short && faults.has(Fault::PcapShortHeaderIsNotIpv4) => true,
        _ if short && faults.has(Fault::PcapLengthsBeforeVersion) => false,
        [] => faults.has(Fault::PcapMissingVersionIsNotIpv4),
        [first, ..] => first >> 4 != 4 && !faults.has(Fault::PcapVersionUnjudged),
    };
    if another_version {
        Err(Cause::NotIpv4)
    } else {
        Ok(datagram)
    }
}

/// Cuts a datagram into header and payload. It ends where its total length says: what comes behind is padding. A header
/// under 20 bytes, a total length below the header's or beyond the record are bad lengths.
fn read_ip(datagram: &[u8], faults: Faults) -> Result<(&[u8], &[u8]), Cause> {
    if datagram.len() < IP_BYTES {
        return Err(Cause::BadLengths);
    }
    let words = usize::from(datagram[0] & 0x0F);
    let header = match words {
        _ if faults.has(Fault::PcapHeaderLengthUnread) => IP_BYTES,
        0..5 if faults.has(Fault::PcapShortHeaderLengthTaken) => IP_BYTES,
        0..5 => return Err(Cause::BadLengths),
        _ => 4 * words,
    };
    let mut total = big_endian(&datagram[2..4]) as usize;
    if faults.has(Fault::PcapTotalZeroIsRecord) && total == 0 {
        total = datagram.len();
    }
    let wrapped = (ETHERNET_BYTES + total) as u16 as usize;
    let wraps = faults.has(Fault::PcapTotalEndWraps) && wrapped <= ETHERNET_BYTES + datagram.len();
    if faults.has(Fault::PcapTotalBeyondRecordTaken) || wraps {
        total = total.min(datagram.len());
    }
    if faults.has(Fault::PcapTotalWithoutHeader) {
        total += header;
    }
    let empty = total < header && total >= IP_BYTES && faults.has(Fault::PcapTotalBelowHeaderTaken);
    if empty && header <= datagram.len() {
        total = header;
    }
    if total < header || total > datagram.len() {
        return Err(Cause::BadLengths);
    }
    if faults.has(Fault::PcapChecksumJudged) && checksum(&datagram[..header], faults) != 0 {
        return Err(Cause::BadLengths);
    }
    let end = if faults.has(Fault::PcapBodyToRecordEnd) { datagram.len() } else { total };
    Ok(datagram[..end].split_at(header))
}

/// Whether more fragments follow, or this one belongs further on. That it may not be fragmented makes it none.
fn check_fragment(header: &[u8], faults: Faults) -> Result<(), Cause> {
    let mask = match faults {
        _ if faults.has(Fault::PcapFragmentTaken) => 0,
        _ if faults.has(Fault::PcapMoreFragmentsUnjudged) => FRAGMENT_OFFSET,
        _ if faults.has(Fault::PcapFragmentOffsetUnjudged) => MORE_FRAGMENTS,
        _ if faults.has(Fault::PcapOffsetOfEightBits) => MORE_FRAGMENTS | FRAGMENT_OFFSET & 0xFF,
        _ if faults.has(Fault::PcapDontFragmentJudged) => DONT_FRAGMENT | MORE_FRAGMENTS | FRAGMENT_OFFSET,
        _ if faults.has(Fault::PcapReservedBitJudged) => RESERVED_BIT | MORE_FRAGMENTS | FRAGMENT_OFFSET,
        _ => MORE_FRAGMENTS | FRAGMENT_OFFSET,
    };
    if big_endian(&header[6..8]) as u16 & mask == 0 {
        Ok(())
    } else {
        Err(Cause::Fragment)
    }
}

/// What UDP carries to port 1701: lengths first, then the port. It ends where UDP's own length says.
fn read_udp(payload: &[u8], faults: Faults) -> Result<&[u8], Cause> {
    let (header, after) = payload.split_at_checked(UDP_HEADER_BYTES).ok_or(Cause::BadLengths)?;
    let [source, destination] = [0, 2].map(|place| big_endian(&header[place..place + 2]) as u16);
    let named = match faults {
        _ if faults.has(Fault::PcapSourcePortJudged) => source == PORT,
        _ if faults.has(Fault::PcapEitherPortTaken) => source == PORT || destination == PORT,
        _ if faults.has(Fault::PcapBothPortsJudged) => source == PORT && destination == PORT,
        _ => destination == PORT,
    };
    if faults.has(Fault::PcapPortBeforeUdpLengths) && !named {
        return Err(Cause::Other);
    }
    let mut length = big_endian(&header[4..6]) as usize;
    if faults.has(Fault::PcapUdpLengthUnread) {
        length = payload.len();
    }
    if faults.has(Fault::PcapShortUdpLengthTaken) {
        length = length.max(UDP_HEADER_BYTES);
    }
    if faults.has(Fault::PcapUdpLengthBeyondTaken) {
        length = length.min(payload.len());
    }
    let filled = length == payload.len() || !faults.has(Fault::PcapUdpLengthMustFill);
    if length < UDP_HEADER_BYTES || length > payload.len() || !filled {
        return Err(Cause::BadLengths);
    }
    if !named {
        return Err(Cause::Other);
    }
    Ok(if faults.has(Fault::PcapUdpHeaderKept) { &payload[..length] } else { &after[..length - UDP_HEADER_BYTES] })
}

/// The Internet checksum (RFC 1071): the complement of the words' sum, with what runs over added at the low end.
pub fn checksum(header: &[u8], faults: Faults) -> u16 {
    let fold = |sum: u32| (sum & 0xFFFF) + (sum >> 16);
    let once = fold(header.chunks_exact(2).map(big_endian).sum());
    let sum = match faults.has(Fault::PcapChecksumFoldedOnce) {
        true => once,
        false => fold(once),
    };
    !(sum as u16)
}

#[cfg(test)]
pub mod samples {
    //! Files and frames in hexadecimal, worked out by hand.

    use super::*;

    pub fn bytes(hex: &str) -> Vec<u8> {
        let digits: String = hex.split_whitespace().collect();
        let pairs = (0..digits.len()).step_by(2).map(|place| &digits[place..place + 2]);
        pairs.map(|pair| u8::from_str_radix(pair, 16).expect("two digits")).collect()
    }

    pub fn data(transport: Transport, hex: &str) -> Entry {
        Entry::Data(Packet { transport, bytes: bytes(hex) })
    }

    pub const LITTLE: &str = "d4c3b2a1 0200 0400 00000000 00000000 ffff0000 01000000";
    pub const BIG: &str = "a1b2c3d4 0002 0004 00000000 00000000 0000ffff 00000001";
    /// From 02:00:00:00:00:01 and 192.0.2.1 to 02:00:00:00:00:02 and 192.0.2.2: bytes 01 02 03 over IP, then over UDP.
    /// The sum of the first header is 4500 + 0017 + 4073 + c000 + 0201 + c000 + 0202 = 2 098d, folded 098f, so f670; of the
    /// second 4500 + 001f + 4011 + ... = 2 0933, folded 0935, so f6ca.
    pub const OVER_IP: &str = "020000000002 020000000001 0800 4500 0017 0000 0000 4073 f670 c0000201 c0000202 010203";
    pub const OVER_UDP: &str = "020000000002 020000000001 0800 4500 001f 0000 0000 4011 f6ca c0000201 c0000202 \
                                06a5 06a5 000b 0000 010203";

    pub fn addresses() -> Addresses {
        Addresses::read(["02:00:00:00:00:01", "02:00:00:00:00:02", "192.0.2.1", "192.0.2.2"]).expect("addresses")
    }
}

#[cfg(test)]
mod tests {
    use super::samples::*;
    use super::*;

    /// A little-endian file of these frames, in hexadecimal.
    fn little(frames: &[&str]) -> Vec<u8> {
        let mut file = bytes(LITTLE);
        for frame in frames.iter().map(|frame| bytes(frame)) {
            file.extend([0; 8]);
            file.extend((frame.len() as u32).to_le_bytes());
            file.extend([0xEE; 4]);
            file.extend(frame);
        }
        file
    }

    fn cause(frame: &str) -> Option<Cause> {
        read_frame(&bytes(frame), Faults::NONE).err()
    }

    #[test]
    fn checksums_are_as_worked_out_by_hand() {
        let known = bytes("4500 0073 0000 4000 4011 0000 c0a80001 c0a800c7");
        assert_eq!(checksum(&known, Faults::NONE), 0xB861);
        // With its checksum in place a header gives 0.
        assert_eq!(checksum(&bytes("4500 0073 0000 4000 4011 b861 c0a80001 c0a800c7"), Faults::NONE), 0);
        // 4500 + baff + ffff + ffff is 2 fffd, folded ffff.
        assert_eq!(checksum(&bytes("4500 baff ffff ffff"), Faults::NONE), 0);
        // 4500 + baff + ffff + 0001 + ffff is 2 fffe: folded once 1 0000, twice 1.
        assert_eq!(checksum(&bytes("4500 baff ffff 0001 ffff"), Faults::NONE), 0xFFFE);
    }

    #[test]
    fn packets_become_entries_behind_the_opens() {
        let file = little(&[OVER_UDP, "ffffffffffff 020000000001 0806 0001", &format!("{OVER_IP} 000000"), ""]);
        let imported = import(&[7, 0, 7], &file, Faults::NONE).expect("a sound file");
        let mut entries: Vec<Entry> = [7, 0, 7].map(|session| Entry::Open(Kind::Psp, session)).into();
        entries.extend([data(Transport::Udp, "010203"), data(Transport::Ip, "010203")]);
        assert_eq!(imported, Imported { capture: Capture { entries }, skipped: [2, 0, 0, 0] });
        let prints = print_import(&[], &file[..24], Faults::NONE);
        assert_eq!(prints.output, [0, 0]);
        assert_eq!(prints.error, "not-ipv4 0\nbad-lengths 0\nfragment 0\nother 0\n");
    }

    #[test]
    fn either_byte_order_is_read() {
        let file = bytes(&[BIG, "00000000 00000000 00000025 00000025", OVER_IP].concat());
        let imported = import(&[], &file, Faults::NONE).expect("a sound file");
        assert_eq!(imported.capture.entries, [data(Transport::Ip, "010203")]);
        let swapped = bytes(&[BIG, "00000000 00000000 25000000 25000000", OVER_IP].concat());
        assert_eq!(import(&[], &swapped, Faults::NONE), Err(Refusal(62)));
    }

    #[test]
    fn causes_come_in_their_order() {
        let ethernet = "020000000002 020000000001 0800";
        let cut = |text: &str, length: usize| read_frame(&bytes(text)[..length], Faults::NONE).err();
        assert_eq!(cut(OVER_IP, 13), Some(Cause::NotIpv4));
        assert_eq!(cut(OVER_IP, 14), Some(Cause::BadLengths));
        assert_eq!(cause(&format!("{ethernet} 60")), Some(Cause::NotIpv4));
        assert_eq!(cause(&format!("{ethernet} 40")), Some(Cause::BadLengths));
        assert_eq!(cut(OVER_IP, 36), Some(Cause::BadLengths));
        let ip = |words: &str, payload: &str| cause(&format!("{ethernet} {words} c0000201 c0000202 {payload}"));
        assert_eq!(ip("4400 0014 0000 0000 4073 0000", ""), Some(Cause::BadLengths));
        assert_eq!(ip("4600 0014 0000 0000 4073 0000", "00000000"), Some(Cause::BadLengths));
        assert_eq!(ip("4600 0018 0000 0000 4073 0000", "00000000"), None);
        assert_eq!(ip("4500 0000 0000 2000 4073 0000", ""), Some(Cause::BadLengths));
        assert_eq!(ip("4500 0014 0000 2000 4006 0000", ""), Some(Cause::Fragment));
        assert_eq!(ip("4500 0014 0000 0001 4011 0000", ""), Some(Cause::Fragment));
        assert_eq!(ip("4500 0014 0000 c000 4073 0000", ""), None);
        assert_eq!(ip("4500 0014 0000 0000 4011 0000", ""), Some(Cause::BadLengths));
        assert_eq!(ip("4500 001c 0000 0000 4011 0000", "06a5 06a4 0007 0000"), Some(Cause::BadLengths));
        assert_eq!(ip("4500 001c 0000 0000 4011 0000", "06a5 06a4 0009 0000 00"), Some(Cause::BadLengths));
        assert_eq!(ip("4500 001c 0000 0000 4011 0000", "06a5 06a4 0008 0000"), Some(Cause::Other));
        assert_eq!(ip("4500 001c 0000 0000 4011 0000", "06a4 06a5 0008 0000"), None);
        assert_eq!(ip("4500 0014 0000 0000 4001 0000", ""), Some(Cause::Other));
    }

    #[test]
    fn files_are_refused_in_their_order() {
        let refused = |sessions: usize, file: &[u8]| import(&vec![1; sessions], file, Faults::NONE).map(|_| ()).err();
        let sound = little(&[OVER_IP]);
        assert_eq!(refused(999, &sound), None);
        assert_eq!(refused(1_000, &sound), Some(Refusal(63)));
        assert_eq!(refused(1_001, &sound[..sound.len() - 1]), Some(Refusal(62)));
        assert_eq!(refused(1_001, &sound[..39]), Some(Refusal(62)));
        assert_eq!(refused(1_001, &sound[..23]), Some(Refusal(61)));
        for (place, value) in [(0, 0xD5), (4, 3), (6, 3), (20, 2), (23, 1)] {
            let mut changed = sound.clone();
            changed[place] = value;
            assert_eq!(refused(0, &changed), Some(Refusal(61)));
        }
    }

    #[test]
    fn addresses_are_read_as_they_are_written() {
        let words = addresses().words();
        assert_eq!(words, ["02:00:00:00:00:01", "02:00:00:00:00:02", "192.0.2.1", "192.0.2.2"]);
        assert_eq!(Addresses::read(["02:00:00:00:01", &words[1], &words[2], &words[3]]), None);
        assert_eq!(Addresses::read([&words[0], &words[1], "192.0.2.256", &words[3]]), None);
    }
}
