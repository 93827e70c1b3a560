//! The table as the card's host program keeps it, hands it over and is given it back; refusal 13.
//!
//! Document 01, 'The card in numbers' and 'Refusal numbers': six rows, each with an ID, a kind and four flows. `card` keeps
//! sessions in a map, where most of what makes a table broken cannot be written down. Here all of it can, as the kind and
//! the mark are numbers like the rest: kinds that there are not, marks that are neither 0 nor 1, closed rows with something
//! in them. A sound table and its holding slice become a card, and a card becomes a table.

use crate::card::{Card, Flow, Session, FLOWS, LONGEST_FRAME, ROWS};
use crate::faults::{Fault, Faults};
use crate::packet::Kind;

/// The kinds of a row.
pub const CLOSED: u32 = 0;
pub const PSP: u32 = 1;
pub const DMPT: u32 = 2;

/// A flow: whether it is not fresh any more (0 or 1), the number that it expects, and how many bytes it holds.
#[derive(Clone, Copy, Debug, Default, PartialEq, Eq)]
pub struct RawFlow {
    pub heard: u16,
    pub expected: u16,
    pub held: u16,
}

#[derive(Clone, Copy, Debug, Default, PartialEq, Eq)]
pub struct RawRow {
    pub id: u32,
    pub kind: u32,
    pub flows: [RawFlow; FLOWS],
}

#[derive(Clone, Copy, Debug, Default, PartialEq, Eq)]
pub struct RawTable {
    pub rows: [RawRow; ROWS],
}

/// Where the held bytes of a flow start in the holding slice.
pub fn place(row: usize, flow: usize, faults: Faults) -> usize {
    let row = if faults.has(Fault::PlaceByFlowAlone) { 0 } else { row };
    (FLOWS * row + flow) * LONGEST_FRAME
}

impl RawFlow {
    fn is_fresh(&self) -> bool {
        self.heard == 0
    }

    /// What no flow may be, whatever its row: marked by another number than 0 and 1, too full, or fresh with something
    /// expected or held.
    fn is_broken(&self, faults: Faults) -> bool {
        let foreign = self.heard > 1 && !faults.has(Fault::ForeignMarkTrusted);
        let fullest = if faults.has(Fault::FullPlaceBroken) { LONGEST_FRAME - 1 } else { LONGEST_FRAME };
        let expects = self.expected != 0 && !faults.has(Fault::FreshNumberTrusted);
        foreign || usize::from(self.held) > fullest || (self.is_fresh() && (expects || self.held != 0))
    }
}

impl RawRow {
    pub fn is_open(&self) -> bool {
        self.kind != CLOSED
    }

    fn is_broken(&self, faults: Faults) -> bool {
        let kind = if faults.has(Fault::KindOfSixteenBits) { self.kind & 0xFFFF } else { self.kind };
        match kind {
            CLOSED => *self != RawRow::default() && !faults.has(Fault::ClosedRowUnjudged),
            PSP => self.open_is_broken(faults),
            DMPT => self.open_is_broken(faults) || self.dmpt_is_broken(faults),
            _ => !faults.has(Fault::ForeignKindTrusted),
        }
    }

    fn open_is_broken(&self, faults: Faults) -> bool {
        self.id == 0 || self.flows.iter().any(|flow| flow.is_broken(faults))
    }

    /// A D-MPT row has no bytes held, and its flows 1 to 3 are fresh.
    fn dmpt_is_broken(&self, faults: Faults) -> bool {
        let holds = self.flows.iter().any(|flow| flow.held != 0);
        let heard = self.flows[1..].iter().any(|flow| !flow.is_fresh()) && !faults.has(Fault::DmptFlowsTrusted);
        holds || heard
    }
}

impl RawTable {
    /// Refusal 13.
    pub fn is_broken(&self, faults: Faults) -> bool {
        self.rows.iter().any(|row| row.is_broken(faults)) || (self.has_twins() && !faults.has(Fault::TwinsTrusted))
    }

    /// Whether an open ID stands in two rows.
    fn has_twins(&self) -> bool {
        let open = self.open_ids();
        open.iter().enumerate().any(|(place, id)| open[..place].contains(id))
    }

    /// The IDs of the open rows, in the order of the rows.
    pub fn open_ids(&self) -> Vec<u32> {
        self.rows.iter().filter(|row| row.is_open()).map(|row| row.id).collect()
    }

    /// The card that a sound table and the holding slice describe.
    pub fn card(&self, holding: &[u8], faults: Faults) -> Card {
        let open = self.rows.iter().enumerate().filter(|(_, row)| row.is_open());
        let sessions = open.map(|(place, row)| (row.id, session(place, row, holding, faults)));
        Card::with_sessions(sessions.collect(), faults)
    }

    /// The table of a card.
    pub fn of(card: &Card) -> RawTable {
        let mut table = RawTable::default();
        for (id, session) in card.rows() {
            let flow = |flow: &Flow| RawFlow {
                heard: u16::from(flow.expected.is_some()),
                expected: flow.expected.unwrap_or(0),
                held: flow.held.len() as u16,
            };
            let flows = session.flows.each_ref().map(flow);
            table.rows[session.row] = RawRow { id, kind: u32::from(session.kind.number()), flows };
        }
        table
    }
}

fn session(place_in_table: usize, row: &RawRow, holding: &[u8], faults: Faults) -> Session {
    let flow = |number: usize| {
        let RawFlow { expected, held, .. } = row.flows[number];
        let start = place(place_in_table, number, faults);
        Flow {
            expected: (!row.flows[number].is_fresh()).then_some(expected),
            held: holding[start..start + usize::from(held)].to_vec(),
        }
    };
    // Another kind than these two is only met where a fault lets it through.
    let kind = if row.kind == DMPT { Kind::Dmpt } else { Kind::Psp };
    Session { row: place_in_table, kind, flows: std::array::from_fn(flow) }
}

#[cfg(test)]
mod tests {
    use super::*;

    const FRESH: RawFlow = RawFlow { heard: 0, expected: 0, held: 0 };
    const BUSY: RawFlow = RawFlow { heard: 1, expected: 7, held: 5 };

    /// Row 1 is PSP, row 3 D-MPT, the others are closed.
    fn sound() -> RawTable {
        let mut table = RawTable::default();
        table.rows[1] = RawRow { id: 9, kind: PSP, flows: [BUSY, FRESH, BUSY, FRESH] };
        table.rows[3] = RawRow { id: 8, kind: DMPT, flows: [RawFlow { held: 0, ..BUSY }, FRESH, FRESH, FRESH] };
        table
    }

    fn broken_by(edit: impl Fn(&mut RawTable)) -> bool {
        let mut table = sound();
        edit(&mut table);
        table.is_broken(Faults::NONE)
    }

    #[test]
    fn sound_tables_are_not_broken() {
        assert!(!RawTable::default().is_broken(Faults::NONE));
        assert!(!sound().is_broken(Faults::NONE));
        assert!(!broken_by(|table| table.rows[1].flows[0].held = 2_048));
        assert!(!broken_by(|table| table.rows[1].flows[0] = RawFlow { heard: 1, expected: 0, held: 0 }));
        assert!(!broken_by(|table| table.rows[3].flows[0] = FRESH));
    }

    #[test]
    fn an_open_row_with_id_0_is_broken() {
        assert!(broken_by(|table| table.rows[1].id = 0));
        assert!(broken_by(|table| table.rows[3].id = 0));
    }

    #[test]
    fn one_open_id_in_two_rows_is_broken() {
        assert!(broken_by(|table| table.rows[3].id = 9));
        assert!(broken_by(|table| table.rows[5] = RawRow { id: 9, kind: PSP, ..RawRow::default() }));
    }

    #[test]
    fn a_closed_row_that_is_not_all_zero_is_broken() {
        assert!(broken_by(|table| table.rows[0].id = 1));
        assert!(broken_by(|table| table.rows[0].kind = PSP));
        assert!(broken_by(|table| table.rows[0].kind = DMPT));
        for flow in 0..FLOWS {
            assert!(broken_by(|table| table.rows[5].flows[flow].heard = 1));
            assert!(broken_by(|table| table.rows[5].flows[flow].expected = 1));
            assert!(broken_by(|table| table.rows[5].flows[flow].held = 1));
        }
    }

    #[test]
    fn flows_are_broken_by_too_many_bytes_and_by_being_fresh_with_something() {
        assert!(broken_by(|table| table.rows[1].flows[2].held = 2_049));
        assert!(broken_by(|table| table.rows[1].flows[1].held = 1));
        assert!(broken_by(|table| table.rows[1].flows[3].expected = 65_535));
        assert!(broken_by(|table| table.rows[3].flows[2].expected = 1));
    }

    #[test]
    fn a_dmpt_row_with_bytes_held_or_a_further_flow_heard_is_broken() {
        assert!(broken_by(|table| table.rows[3].flows[0].held = 1));
        for flow in 1..FLOWS {
            assert!(broken_by(|table| table.rows[3].flows[flow].heard = 1));
        }
    }

    #[test]
    fn foreign_kinds_and_marks_are_broken() {
        for kind in [3, 255, 256, 257, 65_536, 65_537, 65_538, 1 << 31, u32::MAX] {
            assert!(broken_by(|table| table.rows[0].kind = kind));
            assert!(broken_by(|table| table.rows[1].kind = kind));
            assert!(broken_by(|table| table.rows[3].kind = kind));
        }
        for heard in [2, 255, 256, 0x0101, 65_535] {
            assert!(broken_by(|table| table.rows[1].flows[0].heard = heard));
            assert!(broken_by(|table| table.rows[3].flows[0].heard = heard));
            assert!(broken_by(|table| table.rows[0].flows[0].heard = heard));
        }
    }

    #[test]
    fn a_sound_table_is_the_table_of_its_card() {
        let holding: Vec<u8> = (0..ROWS * FLOWS * LONGEST_FRAME).map(|place| (place % 251) as u8).collect();
        let card = sound().card(&holding, Faults::NONE);
        assert_eq!(RawTable::of(&card), sound());
        let start = place(1, 2, Faults::NONE);
        assert_eq!(start, 6 * 2_048);
        assert_eq!(card.rows()[0].1.flows[2].held, holding[start..start + 5]);
    }
}
