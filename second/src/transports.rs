//! Directed captures of packets over UDP, and of both transports in one session.
//!
//! Document 02, W1: over UDP four more bytes stand before the session ID. T, the top bit of the first, has to be 0, the
//! version in the low four bits of the second has to be 3, and the rest is ignored (RFC 3931, section 4.1.2.1). Refusal
//! 15 comes straight after 3, so before 4, and never over IP. A packet has 12 to 4,104 bytes over UDP and 8 to 4,100 over
//! IP. Each packet says its transport by itself, and what joins, drops and delivers does not depend on it.

use crate::capture::{Capture, Entry};
use crate::craft::{
    carried, dmpt, header, over_ip, over_udp, pattern, psp, psp_with, Lead, BEGIN, END, MIDDLE, PLAIN_LEAD, S,
    SOUND_LEADS, WHOLE, WRONG_LEADS,
};
use crate::dice::Dice;
use crate::directed::{packets_of, Case, NamedCapture, MPT, PSP, STRANGER};
use crate::faults::Faults;
use crate::packet::{Kind, Packet, Transport, HEADER_BYTES, LONGEST_PACKET, MPEG_BYTES, UDP_BYTES};

/// All captures of this file.
pub fn captures() -> Vec<NamedCapture> {
    let mut all = vec![short_sizes(), first_bytes(), second_bytes(), other_bytes(), versions(), control_messages()];
    all.extend([joined_across(), numbers_across(), sessions_across(), repeated(), mistaken(), sound_both_ways()]);
    all.extend(long_sizes());
    all.extend([fullest(), orders_psp(Transport::Udp), orders_psp(Transport::Ip), orders_dmpt(), every_header()]);
    all
}

/// The packets of those that are about layout, for the packet check without a table.
pub fn packets() -> Vec<Packet> {
    let mut about_layout = vec![short_sizes(), first_bytes(), second_bytes(), other_bytes(), versions()];
    about_layout.extend([control_messages(), mistaken(), sound_both_ways(), fullest()]);
    about_layout.extend(long_sizes());
    packets_of(about_layout)
}

/// Captures over IP once more: with all packets over UDP, then with each by one transport or the other, as dice say.
pub fn once_more(captures: Vec<NamedCapture>) -> Vec<NamedCapture> {
    let over_udp = captures.iter().map(|capture| moved(capture, "over-udp", &mut |_| Transport::Udp));
    let mut dice = Dice::new(0x0115);
    let mut some = |_| dice.pick(&Transport::ALL);
    let by_both = captures.iter().map(|capture| moved(capture, "by-both", &mut some));
    over_udp.chain(by_both).collect()
}

/// A capture over IP with each packet moved to the transport that its index is given.
fn moved(capture: &NamedCapture, how: &str, transport: &mut dyn FnMut(usize) -> Transport) -> NamedCapture {
    let NamedCapture { name, file } = capture;
    let mut capture = Capture::read(file, Faults::NONE).unwrap_or_else(|_| panic!("{name} is a sound file"));
    for (index, entry) in capture.entries.iter_mut().enumerate() {
        if let Entry::Data(packet) = entry {
            *packet = carried(transport(index), index, &packet.bytes);
        }
    }
    NamedCapture { name: format!("{name}-{how}"), file: capture.write() }
}

/// A small packet that ends what is held and begins anew, so that it shows whether the one before was taken.
fn link(number: u16) -> Vec<u8> {
    psp(PSP, 1, number, &[(END, 2), (BEGIN, 3)])
}

/// Every value of the first byte: T is its top bit.
fn first_bytes() -> NamedCapture {
    let mut case = Case::new("udp-first-bytes").open(Kind::Psp, PSP);
    for first in 0..=255 {
        case = case.led([first, 3, 0, 0], link(first.into()));
    }
    case.done()
}

/// Every value of the second byte: the version is its low four bits.
fn second_bytes() -> NamedCapture {
    let mut case = Case::new("udp-second-bytes").open(Kind::Psp, PSP);
    for second in 0..=255 {
        case = case.led([0, second, 0, 0], link(second.into()));
    }
    case.done()
}

/// The third and the fourth byte: each value alone, both alike, and opposite ones. They are ignored.
fn other_bytes() -> NamedCapture {
    let mut case = Case::new("udp-other-bytes").open(Kind::Psp, PSP);
    let mut number = 65_000u16;
    for byte in (0..=255u8).step_by(3) {
        for (third, fourth) in [(byte, 0), (0, byte), (byte, byte), (byte, !byte)] {
            case = case.led([0, 3, third, fourth], link(number));
            number = number.wrapping_add(1);
        }
    }
    case.done()
}

/// T set and clear with every version, the ignored bits clear and set; then the leads that other cases use.
fn versions() -> NamedCapture {
    let mut case = Case::new("udp-versions").open(Kind::Psp, PSP);
    let mut number = 65_500u16;
    let mut next = || {
        number = number.wrapping_add(1);
        number
    };
    for first in [0x00, 0x7F, 0x80, 0xFF] {
        for version in 0..16 {
            for (upper, others) in [(0x00, 0x00), (0xF0, 0xFF), (0x10, 0x03)] {
                case = case.led([first, upper | version, others, others], link(next()));
            }
        }
    }
    for lead in SOUND_LEADS.iter().chain(&WRONG_LEADS) {
        case = case.led(*lead, link(next()));
    }
    case.done()
}

/// Packets over UDP of 0 to 18 bytes, sound ones and such as have T set or another version; the same lengths over IP.
fn short_sizes() -> NamedCapture {
    let mut case = Case::new("udp-short-sizes").open(Kind::Psp, PSP).open(Kind::Dmpt, MPT);
    let sound = psp(PSP, 0, 1, &[(WHOLE, 4)]);
    for lead in [PLAIN_LEAD, [0x80, 3, 0, 0], [0, 2, 0, 0], [0x80, 0, 0, 0]] {
        let whole = over_udp(lead, &sound);
        for length in 0..=whole.bytes.len() {
            case = case.packet(Packet { bytes: whole.bytes[..length].to_vec(), ..whole.clone() });
        }
    }
    for length in 0..=13 {
        case = case.packet(Packet { transport: Transport::Udp, bytes: vec![0; length] });
        case = case.packet(Packet { transport: Transport::Udp, bytes: vec![0xFF; length] });
        case = case.packet(over_ip(vec![0; length])).packet(over_ip(vec![0xFF; length]));
    }
    for length in [0, HEADER_BYTES, HEADER_BYTES + 1, HEADER_BYTES + MPEG_BYTES - 1, HEADER_BYTES + MPEG_BYTES] {
        case = case.udp(dmpt(MPT, S, 1, &[(1, 1)])[..length].to_vec());
    }
    case.done()
}

/// Packets of 4,098 to 4,106 bytes: over each transport, and over UDP with T set and with session ID 0.
fn long_sizes() -> Vec<NamedCapture> {
    let longest = |transport: Transport, session: u32, number: u16, length: usize| {
        let bodies = length - transport.lead() - HEADER_BYTES - 4;
        psp(session, 2, number, &[(WHOLE, 2_048), (BEGIN, bodies - 2_048)])
    };
    let around = LONGEST_PACKET - 2..=LONGEST_PACKET + UDP_BYTES + 2;
    let mut over_both = Vec::new();
    for transport in Transport::ALL {
        let mut case = Case::new(&format!("udp-long-sizes-{}", transport.number())).open(Kind::Psp, PSP);
        for (number, length) in (1..).zip(around.clone()) {
            case = case.packet(carried(transport, length, &longest(transport, PSP, number, length)));
        }
        over_both.push(case.done());
    }
    let mut refused = Case::new("udp-long-sizes-refused").open(Kind::Psp, PSP);
    for length in [LONGEST_PACKET + UDP_BYTES, LONGEST_PACKET + UDP_BYTES + 1] {
        for (lead, session) in [([0x80, 3, 0, 0], PSP), ([0, 2, 0, 0], PSP), ([0x80, 3, 0, 0], 0), (PLAIN_LEAD, 0)] {
            refused = refused.led(lead, longest(Transport::Udp, session, 1, length));
        }
    }
    refused = refused.packet(Packet { transport: Transport::Udp, bytes: vec![0; 5_000] });
    over_both.push(refused.packet(Packet { transport: Transport::Udp, bytes: vec![0xFF; 9_000] }).done());
    over_both
}

/// Session ID 0: 15 where T is set or the version is another, and else 4. Over IP there is no T.
fn control_messages() -> NamedCapture {
    let mut case = Case::new("udp-control-messages").open(Kind::Psp, PSP).udp(psp(PSP, 0, 1, &[(BEGIN, 2)]));
    for lead in SOUND_LEADS.iter().chain(&WRONG_LEADS) {
        for session in [0, STRANGER, PSP] {
            case = case.led(*lead, header(session, 0, 0, 0)).led(*lead, psp(session, 7, 1, &[(WHOLE, 2)]));
            case = case.led(*lead, header(session, 0xF0, 0, 0)[..7].to_vec());
        }
    }
    // A Hello as RFC 3931 has it: T, L and S set, length 20, control connection 1, Ns and Nr, then its message type.
    let hello = [[0xC8, 0x03, 0x00, 0x14], [0, 0, 0, 1], [0, 1, 0, 1], [0x80, 0x08, 0, 0], [0, 0, 0, 6]].concat();
    case = case.packet(Packet { transport: Transport::Udp, bytes: hello.clone() });
    // Over IP a control message begins with session ID 0, and then has the same bytes.
    case = case.data([vec![0; 4], hello.clone()].concat()).data(hello);
    case.data(psp(0, 0, 1, &[(WHOLE, 2)])).udp(psp(PSP, 0, 2, &[(END, 2)])).done()
}

/// The transports of three packets in every combination.
fn combinations() -> impl Iterator<Item = [Transport; 3]> {
    (0..8).map(|set| [0, 1, 2].map(|place| Transport::ALL[set >> place & 1]))
}

/// Frames cut over packets of both transports: joined whole, up to 2,048 bytes, and dropped above.
fn joined_across() -> NamedCapture {
    let mut case = Case::new("udp-joined-across").open(Kind::Psp, PSP);
    let mut number = 65_520u16;
    for (round, transports) in combinations().enumerate() {
        for lengths in [[3, 4, 5], [1, 1, 1], [700, 700, 648], [700, 700, 649]] {
            for ((transport, length), marks) in transports.into_iter().zip(lengths).zip([BEGIN, MIDDLE, END]) {
                let packet = psp(PSP, 3, number, &[(marks, length)]);
                case = case.packet(carried(transport, round + length, &packet));
                number = number.wrapping_add(1);
            }
        }
    }
    case.close(PSP).done()
}

/// Gaps and late packets between packets of both transports, for each kind.
fn numbers_across() -> NamedCapture {
    let mut case = Case::new("udp-numbers-across").open(Kind::Psp, PSP).open(Kind::Dmpt, MPT);
    for (turn, [first, second, third]) in combinations().enumerate() {
        for ahead in [0, 1, 32_767, 32_768, 65_535] {
            let numbers = [(first, 9), (second, 10u16.wrapping_add(ahead)), (third, 11u16.wrapping_add(ahead))];
            for ((transport, number), marks) in numbers.into_iter().zip([BEGIN, MIDDLE, END]) {
                case = case.packet(carried(transport, turn, &psp(PSP, 0, number, &[(marks, 4)])));
                if ahead < 2 {
                    case = case.packet(carried(transport, turn, &dmpt(MPT, S, number, &[(1, 1)])));
                }
            }
            case = case.afresh(Kind::Psp, PSP).afresh(Kind::Dmpt, MPT);
        }
    }
    case.done()
}

/// Six sessions and their flows, each packet of a flow by the other transport than the one before.
fn sessions_across() -> NamedCapture {
    let mut case = Case::new("udp-sessions-across");
    for id in 1..=6 {
        case = case.open(Kind::Psp, id);
    }
    for (round, marks) in [(0, BEGIN), (1, MIDDLE), (2, MIDDLE), (3, END), (4, BEGIN)] {
        for id in 1..=6u32 {
            for flow in 0..4u8 {
                let transport = Transport::ALL[(id as usize + usize::from(flow) + round) % 2];
                let number = 1_000u16.wrapping_mul(id as u16).wrapping_add(round as u16);
                let packet = psp(id, flow, number, &[(marks, 2 + usize::from(flow) + id as usize)]);
                case = case.packet(carried(transport, round, &packet));
            }
        }
    }
    for id in 1..=6 {
        case = case.close(id);
    }
    case.done()
}

/// Packets that come again, by the same transport and by the other: late both times. Refused ones move nothing.
fn repeated() -> NamedCapture {
    let mut case = Case::new("udp-repeated").open(Kind::Psp, PSP);
    for (number, transport) in (65_530..=65_535).chain(0..10).zip(Transport::ALL.into_iter().cycle()) {
        let packet = link(number);
        case = case.packet(carried(transport, 0, &packet));
        case = case.led(WRONG_LEADS[usize::from(number) % WRONG_LEADS.len()], link(number.wrapping_add(500)));
        case = case.data(packet.clone()).udp(packet);
    }
    case.done()
}

/// Packets given as what came by the other transport: a lead taken for a session ID, and a session ID for a lead.
fn mistaken() -> NamedCapture {
    let other = |transport| if transport == Transport::Ip { Transport::Udp } else { Transport::Ip };
    // Session IDs that begin as a lead does: 00 03, and 7F F3; and such as do not, by T and by the version.
    let ids = [0x0003_0000, 0x0003_0101, 0x7FF3_FFFF, 0x8003_0000, 0x0002_0000];
    let mut case = Case::new("udp-mistaken");
    for id in ids {
        case = case.open(Kind::Psp, id);
    }
    for id in ids {
        for (number, lead) in (1..).zip(SOUND_LEADS) {
            let packet = psp(id, 1, number, &[(END, 5), (BEGIN, 6)]);
            for sent in [over_ip(packet.clone()), over_udp(lead, &packet)] {
                case = case.packet(Packet { transport: other(sent.transport), ..sent.clone() }).packet(sent);
            }
        }
    }
    for length in [HEADER_BYTES, HEADER_BYTES + 3, HEADER_BYTES + 4] {
        let packet = psp(0x0003_0000, 1, 20, &[(WHOLE, 3)])[..length].to_vec();
        case = case.packet(Packet { transport: Transport::Udp, bytes: packet.clone() }).data(packet);
    }
    case.done()
}

/// Bytes that are a sound packet over IP, for session 0x00030000, and another one over UDP, for session 0x41020007: two
/// segments of 2 and 6 bytes there, and two of 2 bytes here. Then the same with either session closed.
fn sound_both_ways() -> NamedCapture {
    let (by_ip, by_udp) = (0x0003_0000, 0x4102_0007);
    let bytes = [
        vec![0x00, 0x03, 0x00, 0x00, 0x41, 0x02, 0x00, 0x07],
        vec![0x40, 0x02, 0xC0, 0x06, 0xC0, 0x02, 0xC0, 0x02],
        pattern(9, 4),
    ]
    .concat();
    let both = Transport::ALL.map(|transport| Packet { transport, bytes: bytes.clone() });
    let mut case = Case::new("udp-sound-both-ways").open(Kind::Psp, by_ip).open(Kind::Psp, by_udp);
    let all = |mut case: Case| {
        for packet in both.iter().chain(&both) {
            case = case.packet(packet.clone());
        }
        case
    };
    case = all(case).close(by_ip);
    case = all(case).open(Kind::Psp, by_ip).close(by_udp);
    all(case).done()
}

/// 127 segments and the longest packets over UDP, and the most bytes that one packet completes.
fn fullest() -> NamedCapture {
    let mut case = Case::new("udp-fullest").open(Kind::Psp, PSP).open(Kind::Dmpt, MPT);
    let lengths: Vec<(u16, usize)> = (0..127).map(|place| (WHOLE, 1 + place % 29)).collect();
    case = case.udp(psp(PSP, 0, 1, &vec![(WHOLE, 1); 127])).led(SOUND_LEADS[1], psp(PSP, 0, 2, &lengths));
    let mut full = vec![(WHOLE, 30); 127];
    full[126].1 += LONGEST_PACKET - HEADER_BYTES - 127 * 32;
    case = case.udp(psp(PSP, 0, 3, &full)).data(psp(PSP, 0, 4, &full));
    full[126].1 += 1;
    case = case.udp(psp(PSP, 0, 5, &full)).data(psp(PSP, 0, 5, &full));
    case =
        case.data(psp(PSP, 0, 6, &[(BEGIN, 2_047)])).udp(psp(PSP, 0, 7, &[(END, 1), (WHOLE, 2_048), (BEGIN, 2_037)]));
    case = case.udp(psp(PSP, 0, 8, &[(END, 11), (WHOLE, 2_048), (WHOLE, 2_027)]));
    let pids = [(0x40, 1); 21];
    case.led(SOUND_LEADS[7], dmpt(MPT, S, 1, &pids)).udp(dmpt(MPT, S, 2, &[(1, 1); 22])).close(PSP).done()
}

/// A lead for each number: sound, T set, another version.
fn lead_of(number: u32) -> Lead {
    let place = number as usize / 3;
    match number % 3 {
        0 => SOUND_LEADS[place % SOUND_LEADS.len()],
        1 => [0x80 | place as u8, 0x03, 0, 0],
        _ => [0, place as u8 & 0xF0 | [0, 1, 2, 4, 11][place % 5], 0, 0],
    }
}

/// Every set of defects that a small PSP packet can have, S set and clear, over UDP with each sort of lead: which refusal
/// comes first.
/// Over IP the same bytes begin with a session ID that is not open.
fn orders_psp(transport: Transport) -> NamedCapture {
    let mut case = Case::new(&format!("udp-orders-psp-{}", transport.number())).open(Kind::Psp, PSP);
    case = case.udp(psp(PSP, 1, 99, &[(BEGIN, 2)]));
    for number in 0..3 * 256 {
        let defects: u32 = number / 3;
        let has = |bit: u32| defects & (1 << bit) != 0;
        let session = if has(0) { [0, STRANGER][defects.count_ones() as usize % 2] } else { PSP };
        let byte4 = if has(1) { 0xA0 } else { 0 } | if has(2) { 5 } else { 1 } | if has(3) { 0 } else { S };
        let count = if has(4) { 0 } else { 2 };
        let second = if has(5) { END } else { WHOLE };
        let mut packet = psp_with(session, byte4, count, if has(6) { 99 } else { 100 }, &[(END, 2), (second, 1)]);
        if has(7) {
            packet.push(0);
        }
        case = case.packet(Packet { transport, ..over_udp(lead_of(number), &packet) });
    }
    case.done()
}

/// The same for D-MPT, over UDP.
fn orders_dmpt() -> NamedCapture {
    let mut case = Case::new("udp-orders-dmpt").open(Kind::Dmpt, MPT).data(dmpt(MPT, S, 99, &[(1, 1)]));
    for number in 0..3 * 64 {
        let defects: u32 = number / 3;
        let has = |bit: u32| defects & (1 << bit) != 0;
        let session = if has(0) { [0, STRANGER][defects.count_ones() as usize % 2] } else { MPT };
        let byte4 = S | if has(1) { 0x20 } else { 0 } | if has(2) { 1 } else { 0 };
        let mut packet = dmpt(session, byte4, if has(5) { 99 } else { 100 }, &[(1, 1)]);
        if has(4) {
            packet[HEADER_BYTES] = 0x48;
        }
        if has(3) {
            packet.truncate(HEADER_BYTES + [0, 1, MPEG_BYTES - 1][defects as usize % 3]);
        }
        case = case.led(lead_of(number), packet);
    }
    case.done()
}

/// Every value of the header's first two bytes over UDP, where each has four bytes before the place that it has over IP.
fn every_header() -> NamedCapture {
    let mut case = Case::new("udp-every-header").open(Kind::Psp, PSP);
    for byte in 0..=255u8 {
        let lead = SOUND_LEADS[usize::from(byte) % SOUND_LEADS.len()];
        case = case.led(lead, psp_with(PSP, byte, 1, u16::from(byte), &[(BEGIN, 3)]));
        case = case.led(lead, psp_with(PSP, S | 2, byte, u16::from(byte), &[(WHOLE, 3)]));
    }
    case.done()
}

#[cfg(test)]
mod tests {
    use super::*;
    use crate::listing::{run, Detail};
    use std::collections::BTreeSet;

    /// The refusal numbers of a capture's data entries.
    fn codes(capture: &NamedCapture) -> Vec<u8> {
        let listing = run(&capture.file, Detail::List, Faults::NONE);
        assert_eq!(listing.file_code, 0, "{}", capture.name);
        listing.entries.iter().filter(|(is_data, _)| *is_data).map(|(_, code)| *code).collect()
    }

    #[test]
    fn every_capture_is_a_sound_file() {
        for capture in crate::directed::captures().iter().filter(|capture| !capture.name.contains("-file-")) {
            codes(capture);
        }
    }

    #[test]
    fn t_and_the_version_decide_on_15() {
        let expected = |refused: &dyn Fn(usize) -> bool| -> Vec<u8> {
            (0..256).map(|byte| if refused(byte) { 15 } else { 0 }).collect()
        };
        assert_eq!(codes(&first_bytes()), expected(&|byte| byte >= 0x80));
        assert_eq!(codes(&second_bytes()), expected(&|byte| byte % 16 != 3));
        assert!(codes(&other_bytes()).iter().all(|code| *code == 0));
        let by_leads = codes(&versions());
        let leads = &by_leads[by_leads.len() - SOUND_LEADS.len() - WRONG_LEADS.len()..];
        assert_eq!(leads, [vec![0; SOUND_LEADS.len()], vec![15; WRONG_LEADS.len()]].concat());
    }

    #[test]
    fn a_frame_is_joined_whatever_transports_its_packets_came_by() {
        let text = run(&joined_across().file, Detail::List, Faults::NONE).text;
        let ends = |ending: &str| text.lines().filter(|line| line.ends_with(ending)).count();
        assert_eq!((ends(" 1 12 0 0"), ends(" 1 3 0 0"), ends(" 1 2048 0 0"), ends(" 0 0 2049 0")), (8, 8, 8, 8));
    }

    #[test]
    fn one_packet_is_sound_by_both_transports() {
        assert_eq!(codes(&sound_both_ways()), [0, 0, 12, 12, 5, 12, 5, 12, 0, 5, 12, 5]);
    }

    #[test]
    fn a_capture_moved_to_udp_has_the_same_answers() {
        let traffic = [joined_across(), numbers_across(), sessions_across(), fullest()];
        let over_ip: Vec<NamedCapture> = traffic.iter().map(only_after_leads).collect();
        for (capture, moved) in over_ip.iter().cycle().zip(once_more(over_ip.clone())) {
            assert_eq!(codes(capture), codes(&moved), "{}", moved.name);
        }
    }

    /// A capture with all of its packets over IP.
    fn only_after_leads(capture: &NamedCapture) -> NamedCapture {
        let mut read = Capture::read(&capture.file, Faults::NONE).unwrap();
        for entry in &mut read.entries {
            if let Entry::Data(packet) = entry {
                *packet = over_ip(packet.after_lead().to_vec());
            }
        }
        NamedCapture { name: capture.name.clone(), file: read.write() }
    }

    #[test]
    fn the_orders_show_every_refusal_that_they_are_about() {
        let seen = |capture: NamedCapture| codes(&capture).into_iter().collect::<BTreeSet<u8>>();
        assert_eq!(seen(orders_psp(Transport::Udp)), [0, 4, 5, 6, 7, 9, 10, 11, 12, 15].into());
        assert_eq!(seen(orders_dmpt()), [0, 4, 5, 6, 7, 9, 10, 11, 12, 15].into());
        assert_eq!(seen(control_messages()), [0, 2, 4, 5, 7, 9, 15].into());
        assert_eq!(seen(short_sizes()), [0, 2, 4, 5, 9, 10, 15].into());
    }
}
