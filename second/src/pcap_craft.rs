//! Pcap files made by hand, sound or not: files, records, frames, datagrams and what UDP carries.
//!
//! Each layer has its fields as they are to stand, right or wrong; what is not given is worked out from what it carries.

use crate::pcap::{
    checksum, ByteOrder, ETHERNET, ETHERNET_BYTES, IPV4, IP_BYTES, L2TP, MAGIC, PORT, UDP, UDP_HEADER_BYTES, VERSION,
};

/// A file under construction.
#[derive(Clone)]
pub struct File {
    order: ByteOrder,
    pub bytes: Vec<u8>,
}

/// The numbers of a file's header.
#[derive(Clone, Copy)]
pub struct FileHeader {
    pub magic: u32,
    pub version: (u16, u16),
    pub zone: u32,
    pub accuracy: u32,
    pub snap_length: u32,
    pub link_type: u32,
}

pub const SOUND_HEADER: FileHeader =
    FileHeader { magic: MAGIC, version: VERSION, zone: 0, accuracy: 0, snap_length: 65_535, link_type: ETHERNET };

impl File {
    pub fn new(order: ByteOrder) -> File {
        File::headed(order, SOUND_HEADER)
    }

    pub fn headed(order: ByteOrder, header: FileHeader) -> File {
        let FileHeader { magic, version, zone, accuracy, snap_length, link_type } = header;
        let mut bytes = order.write_4(magic).to_vec();
        bytes.extend([version.0, version.1].map(|number| order.write_2(number)).concat());
        bytes.extend([zone, accuracy, snap_length, link_type].map(|number| order.write_4(number)).concat());
        File { order, bytes }
    }

    pub fn record(self, frame: &[u8]) -> File {
        let length = frame.len() as u32;
        self.claiming(length, length, frame)
    }

    /// A record with the captured and the original length as given, whatever its frame has. Its time depends on its place.
    pub fn claiming(mut self, captured: u32, original: u32, frame: &[u8]) -> File {
        let place = self.bytes.len() as u32;
        let header = [0x6000_0000 + place, place % 1_000_000, captured, original];
        self.bytes.extend(header.map(|number| self.order.write_4(number)).concat());
        self.bytes.extend(frame);
        self
    }

    pub fn records(self, frames: &[Vec<u8>]) -> File {
        frames.iter().fold(self, |file, frame| file.record(frame))
    }
}

/// An Ethernet frame of that type.
pub fn ethernet(ether_type: u16, payload: &[u8]) -> Vec<u8> {
    let addresses = [0x02, 0, 0, 0x10, 0x20, 0x30, 0x02, 0, 0, 0x40, 0x50, 0x60];
    [&addresses, &ether_type.to_be_bytes()[..], payload].concat()
}

/// An IP header as it is to stand.
#[derive(Clone, Copy)]
pub struct Ip {
    pub version: u8,
    /// The header's length in words, as its first byte tells it; without one it is what the options make it.
    pub words: Option<u8>,
    /// How many words of options there are.
    pub options: usize,
    pub total: Option<u16>,
    /// The reserved bit, the flags and the fragment's offset.
    pub fragment: u16,
    pub protocol: u8,
    /// Whether the checksum is right; else it is a number that is wrong.
    pub summed: bool,
}

pub const OVER_IP: Ip =
    Ip { version: 4, words: None, options: 0, total: None, fragment: 0, protocol: L2TP, summed: true };
pub const OVER_UDP: Ip = Ip { protocol: UDP, ..OVER_IP };

impl Ip {
    /// The datagram with that payload.
    pub fn datagram(self, payload: &[u8]) -> Vec<u8> {
        let length = IP_BYTES + 4 * self.options;
        let words = self.words.unwrap_or((length / 4) as u8);
        let total = self.total.unwrap_or((length + payload.len()) as u16);
        let mut header = vec![self.version << 4 | words & 0x0F, 0xB8];
        header.extend(total.to_be_bytes());
        header.extend([0x12, 0x34]);
        header.extend(self.fragment.to_be_bytes());
        header.extend([62, self.protocol, 0, 0, 10, 0, 0, 1, 198, 51, 100, 7]);
        header.extend((IP_BYTES..length).map(|place| [0x94, 0x04, 0x01, 0x01][place % 4]));
        let sum = checksum(&header, crate::faults::Faults::NONE);
        let written = if self.summed { sum } else { sum ^ 0x0101 };
        header[10..12].copy_from_slice(&written.to_be_bytes());
        [&header, payload].concat()
    }

    /// An Ethernet frame with that datagram, not padded.
    pub fn frame(self, payload: &[u8]) -> Vec<u8> {
        ethernet(IPV4, &self.datagram(payload))
    }
}

/// A UDP header as it is to stand.
#[derive(Clone, Copy)]
pub struct Udp {
    pub source: u16,
    pub destination: u16,
    pub length: Option<u16>,
}

pub const TO_PORT: Udp = Udp { source: 50_000, destination: PORT, length: None };

impl Udp {
    pub fn payload(self, body: &[u8]) -> Vec<u8> {
        let length = self.length.unwrap_or((UDP_HEADER_BYTES + body.len()) as u16);
        let mut payload = [self.source, self.destination, length, 0xABCD].map(u16::to_be_bytes).concat();
        payload.extend(body);
        payload
    }

    /// An Ethernet frame with these bytes over UDP, not padded.
    pub fn frame(self, body: &[u8]) -> Vec<u8> {
        OVER_UDP.frame(&self.payload(body))
    }
}

/// A frame padded to that length, with bytes that are not 0.
pub fn padded(mut frame: Vec<u8>, length: usize) -> Vec<u8> {
    frame.resize(frame.len().max(length), 0xEE);
    frame
}

/// A frame with the tag of a VLAN before its type.
pub fn tagged(tag: u16, frame: &[u8]) -> Vec<u8> {
    let (addresses, rest) = frame.split_at(ETHERNET_BYTES - 2);
    [addresses, &tag.to_be_bytes(), &[0x20, 0x65], rest].concat()
}

/// An ARP request, padded as it is sent.
pub fn arp() -> Vec<u8> {
    let request = [0, 1, 0x08, 0, 6, 4, 0, 1, 2, 0, 0, 0x40, 0x50, 0x60, 192, 0, 2, 1, 0, 0, 0, 0, 0, 0, 192, 0, 2, 2];
    padded(ethernet(0x0806, &request), 60)
}

/// An IPv6 datagram that carries L2TPv3.
pub fn ipv6(body: &[u8]) -> Vec<u8> {
    let mut datagram = vec![0x60, 0, 0, 0];
    datagram.extend((body.len() as u16).to_be_bytes());
    datagram.extend([L2TP, 64]);
    datagram.extend([0x20; 32]);
    datagram.extend(body);
    ethernet(0x86DD, &datagram)
}
