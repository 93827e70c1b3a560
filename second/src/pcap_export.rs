//! The export of captures as pcap files.
//!
//! Document 02, W5: each packet of a capture becomes a record with Ethernet, IPv4 and, for kind 5, UDP headers around it.
//! What is not told there is 0: times, identification, flags, the UDP checksum. Nothing is padded.

use crate::capture::{Capture, Entry};
use crate::faults::{Fault, Faults};
use crate::packet::{Kind, Packet, Refusal, Transport};
use crate::pcap::{
    checksum, Addresses, ByteOrder, DONT_FRAGMENT, ETHERNET, IPV4, IP_BYTES, L2TP, MAGIC, PORT, UDP, UDP_HEADER_BYTES,
    VERSION,
};

const SNAP_LENGTH: u32 = 65_535;
const TIME_TO_LIVE: u8 = 64;

/// What an export gives: the file, and how many entries are not in it.
#[derive(Clone, Debug, PartialEq, Eq)]
pub struct Exported {
    pub file: Vec<u8>,
    pub opens: usize,
    pub closes: usize,
}

/// The pcap file of a capture's packets, or 41 to 45.
pub fn export(addresses: &Addresses, capture: &[u8], faults: Faults) -> Result<Exported, Refusal> {
    let capture = Capture::read(capture, faults)?;
    let mut exported = Exported { file: file_header(faults), opens: 0, closes: 0 };
    let mut last_checksum = 0;
    for entry in &capture.entries {
        match entry {
            Entry::Open(Kind::Dmpt, _) if faults.has(Fault::PcapDmptOpensUncounted) => {}
            Entry::Open(..) => exported.opens += 1,
            Entry::Close(_) => exported.closes += 1,
            Entry::Data(packet) => {
                let frame = write_frame(addresses, packet, &mut last_checksum, faults);
                exported.file.extend(record_header(frame.len(), packet.bytes.len(), faults));
                exported.file.extend(frame);
            }
        }
    }
    Ok(exported)
}

/// Little-endian; zone and accuracy are 0.
fn file_header(faults: Faults) -> Vec<u8> {
    let order = written_order(faults);
    let snap_length = if faults.has(Fault::PcapSnapLengthOf65536) { SNAP_LENGTH + 1 } else { SNAP_LENGTH };
    let mut header = order.write_4(MAGIC).to_vec();
    header.extend([VERSION.0, VERSION.1].map(|number| order.write_2(number)).concat());
    header.extend([0, 0, snap_length, ETHERNET].map(|number| order.write_4(number)).concat());
    header
}

fn written_order(faults: Faults) -> ByteOrder {
    match faults.has(Fault::PcapWrittenBigEndian) {
        true => ByteOrder::Big,
        false => ByteOrder::Little,
    }
}

/// Time 0, and the frame's length twice: nothing was cut off.
fn record_header(frame: usize, body: usize, faults: Faults) -> Vec<u8> {
    let original = if faults.has(Fault::PcapOriginalLengthOfBody) { body } else { frame };
    [0, 0, frame, original].map(|number| written_order(faults).write_4(number as u32)).concat()
}

/// A packet in the layers that its transport asks for, not padded.
fn write_frame(addresses: &Addresses, packet: &Packet, last_checksum: &mut u16, faults: Faults) -> Vec<u8> {
    let Packet { transport, bytes } = packet;
    let (protocol, udp) = match transport {
        Transport::Ip => (L2TP, Vec::new()),
        Transport::Udp => (UDP, udp_header(bytes.len(), faults)),
    };
    let mut ip = ip_header(addresses, protocol, udp.len() + bytes.len(), faults);
    let before = if faults.has(Fault::PcapChecksumOverTheLast) { *last_checksum } else { 0 };
    ip[10..12].copy_from_slice(&before.to_be_bytes());
    *last_checksum = checksum(&ip, faults);
    ip[10..12].copy_from_slice(&last_checksum.to_be_bytes());
    let macs = match faults.has(Fault::PcapSourceMacFirst) {
        true => [addresses.from_mac, addresses.to_mac],
        false => [addresses.to_mac, addresses.from_mac],
    };
    let mut frame = [&macs.concat(), &IPV4.to_be_bytes()[..], &ip, &udp, bytes].concat();
    if faults.has(Fault::PcapFramesPadded) {
        frame.resize(frame.len().max(60), 0);
    }
    frame
}

/// An IP header with its checksum still 0.
fn ip_header(addresses: &Addresses, protocol: u8, payload: usize, faults: Faults) -> [u8; IP_BYTES] {
    let mut header = [0; IP_BYTES];
    header[0] = 0x45;
    header[2..4].copy_from_slice(&((IP_BYTES + payload) as u16).to_be_bytes());
    if faults.has(Fault::PcapDontFragmentSet) {
        header[6..8].copy_from_slice(&DONT_FRAGMENT.to_be_bytes());
    }
    header[8] = TIME_TO_LIVE;
    header[9] = protocol;
    let ips = match faults.has(Fault::PcapIpAddressesSwapped) {
        true => [addresses.to_ip, addresses.from_ip],
        false => [addresses.from_ip, addresses.to_ip],
    };
    header[12..].copy_from_slice(&ips.concat());
    header
}

/// A UDP header without a checksum, which RFC 768 allows.
fn udp_header(body: usize, faults: Faults) -> Vec<u8> {
    let length = if faults.has(Fault::PcapUdpLengthOfBody) { body } else { UDP_HEADER_BYTES + body };
    let source = if faults.has(Fault::PcapSourcePortZero) { 0 } else { PORT };
    [source, PORT, length as u16, 0].map(u16::to_be_bytes).concat()
}

#[cfg(test)]
mod tests {
    use super::*;
    use crate::pcap::samples::{addresses, bytes, data, LITTLE, OVER_IP, OVER_UDP};

    #[test]
    fn exports_are_as_worked_out_by_hand() {
        let entries = vec![
            Entry::Open(Kind::Psp, 1),
            data(Transport::Ip, "010203"),
            Entry::Close(1),
            Entry::Open(Kind::Dmpt, 2),
            data(Transport::Udp, "010203"),
            data(Transport::Ip, ""),
        ];
        let exported = export(&addresses(), &Capture { entries }.write(), Faults::NONE).expect("a sound capture");
        assert_eq!((exported.opens, exported.closes), (2, 1));
        // Without a body the sum of the header is 2 098a, folded 098c, so f673.
        let empty = "020000000002 020000000001 0800 4500 0014 0000 0000 4073 f673 c0000201 c0000202";
        let headers = [37, 45, 34].map(|length| format!("00000000 00000000 {length:02x}000000 {length:02x}000000"));
        let all = [LITTLE, &headers[0], OVER_IP, &headers[1], OVER_UDP, &headers[2], empty];
        assert_eq!(exported.file, bytes(&all.concat()));
        let refused = |file: &[u8]| export(&addresses(), file, Faults::NONE).unwrap_err().0;
        assert_eq!(refused(&[0]), 42);
        assert_eq!(refused(&[0xFF, 0xFF, 0]), 43);
    }
}
