//! Holds the proved library against the second implementation over one case:
//! every question, every answer, every byte that may or may not be written.

use reference::{Answer, MOST_ROWS};

use super::case::{Case, Partner};
use crate::difference::{Held, demand, demand_guarded, outputs, plain};
use crate::entry::Entry;
use crate::lent::{Around, Lent};
use crate::proved;
use crate::random::Random;
use crate::tally::Tally;
use crate::twin::Change;

/// One case being held, and what stands around its buffers.
struct Hold<'a> {
    case: &'a Case,
    around: Around,
    tally: &'a mut Tally,
}

/// Asks both every question about the case. Returns the first difference.
pub fn hold(case: &Case, random: &mut Random, exact: bool, tally: &mut Tally) -> Held<()> {
    let around = Around::new(random, exact);
    let mut hold = Hold {
        case,
        around,
        tally,
    };
    let held = hold.every_question(random);
    held.map_err(|difference| difference.about("descriptor", &case.bytes))
}

impl Hold<'_> {
    fn every_question(&mut self, random: &mut Random) -> Held<()> {
        let checked = self.check()?;
        self.normal_forms(&checked, random)?;
        let case = self.case;
        let relatives = relatives(case, &checked, random);
        for partner in relatives.iter().chain(&case.partners) {
            let held = self.compare(partner);
            held.map_err(|difference| difference.about("compared with", &partner.bytes))?;
        }
        Ok(())
    }

    /// The check, twice with other bytes around, and against the statement.
    fn check(&mut self) -> Held<reference::Checked> {
        let checked = reference::check_descriptor(&self.case.bytes);
        let here = Lent::new(&self.case.bytes, &self.case.beyond, self.around);
        let there = Lent::new(&self.case.bytes, &[], self.around.other());
        for lent in [here, there] {
            let proved = proved::check_descriptor(lent.bytes())?;
            let same = same_table(&proved, &checked);
            let texts = || [proved_text(&proved), checked_text(&checked)];
            demand(same, "check_descriptor", texts)?;
            demand_guarded(lent.untouched(), "check_descriptor")?;
        }
        self.check_statement(&checked)?;
        self.tally
            .descriptor(self.case.kind, &self.case.bytes, &checked);
        Ok(checked)
    }

    /// Both agree; here they are held against what the generator says.
    fn check_statement(&self, checked: &reference::Checked) -> Held<()> {
        let question = "check_descriptor against the generator";
        if let Some(stated) = self.case.stated.answer {
            let texts = || [format!("{:?}", checked.answer), format!("{stated:?}")];
            demand(checked.answer == stated, question, texts)?;
        }
        let Some(stated) = &self.case.stated.rows else {
            return Ok(());
        };
        for (index, row) in checked.rows.iter().enumerate() {
            let row = words(row);
            let stated = stated.get(index).copied().unwrap_or_default();
            let texts = || [format!("{index}: {row:?}"), format!("{index}: {stated:?}")];
            demand(row == stated, question, texts)?;
        }
        Ok(())
    }

    /// The normal form into rooms of every interesting length.
    fn normal_forms(&mut self, checked: &reference::Checked, random: &mut Random) -> Held<()> {
        let needed = self.case.bytes.len();
        let large = needed + random.between(2, 5000);
        let rooms = [needed, needed.saturating_sub(1), needed + 1, 0, large];
        let lent = Lent::new(&self.case.bytes, &self.case.beyond, self.around);
        for room in rooms {
            let fill = random.byte();
            self.normal_form(&lent, room, fill, checked)?;
        }
        demand_guarded(lent.untouched(), "normal_form's input")
    }

    fn normal_form(
        &mut self,
        lent: &Lent,
        room: usize,
        fill: u8,
        checked: &reference::Checked,
    ) -> Held<()> {
        let question = format!("normal_form, room {room}");
        let mut proved = Lent::room(room, fill, self.around);
        let mut other = Lent::room(room, fill, self.around);
        let proved_answer = plain(proved::normal_form(lent.bytes(), proved.bytes_mut())?);
        let answer = reference::normal_form(&self.case.bytes, other.bytes_mut());
        let texts = || [format!("{proved_answer:?}"), format!("{answer:?}")];
        demand(proved_answer == answer, &question, texts)?;
        let texts = || outputs(proved.bytes(), other.bytes());
        demand(proved.bytes() == other.bytes(), &question, texts)?;
        let written = if answer.number == 0 {
            self.case.bytes.len()
        } else {
            0
        };
        demand_guarded(proved.untouched_beyond(written), &question)?;
        if answer.number == 0 {
            let expected = without_reserved(&self.case.bytes, checked);
            let stated = self.case.stated.normal_form.as_ref().unwrap_or(&expected);
            let texts = || outputs(&proved.bytes()[..written], stated);
            demand(proved.bytes()[..written] == **stated, &question, texts)?;
        }
        self.tally.wrote(Entry::NormalForm, answer, room);
        Ok(())
    }

    /// The case and its partner compared in both orders.
    fn compare(&mut self, partner: &Partner) -> Held<()> {
        let case = Lent::new(&self.case.bytes, &self.case.beyond, self.around);
        let other = Lent::new(&partner.bytes, &self.case.beyond, self.around.other());
        for (first, second) in [(&case, &other), (&other, &case)] {
            let proved = proved::compare(first.bytes(), second.bytes())?;
            let proved = reference::Compared {
                answer: plain(proved.answer),
                equal: proved.equal,
            };
            let compared = reference::compare(first.bytes(), second.bytes());
            let texts = || [format!("{proved:?}"), format!("{compared:?}")];
            demand(proved == compared, "compare", texts)?;
            let stated = partner.equal.unwrap_or(compared.equal);
            let texts = || [format!("{proved:?}"), format!("equal: {stated}")];
            let question = "compare against the generator";
            demand(compared.equal == stated, question, texts)?;
            self.tally.compared(&compared, partner.change);
        }
        demand_guarded(case.untouched() && other.untouched(), "compare")
    }
}

/// The case itself, its normal form and a copy with other reserved bytes; all
/// three are equal to it exactly when it is accepted.
fn relatives(case: &Case, checked: &reference::Checked, random: &mut Random) -> [Partner; 3] {
    let accepted = checked.answer.number == 0;
    let mut other = case.bytes.clone();
    let rows = if accepted {
        checked.answer.place as usize
    } else {
        1
    };
    for row in &checked.rows[..rows] {
        if let Some(reserved) = other.get_mut(usize::from(row.start) + 2) {
            *reserved = random.byte();
        }
    }
    let normal = without_reserved(&case.bytes, checked);
    let copies = [
        (case.bytes.clone(), Change::Nothing),
        (normal, Change::Reserved),
        (other, Change::Reserved),
    ];
    copies.map(|(bytes, change)| Partner {
        bytes,
        equal: Some(accepted),
        change: Some(change),
    })
}

/// A copy with the reserved bytes of the table's rows set to zero.
fn without_reserved(bytes: &[u8], checked: &reference::Checked) -> Vec<u8> {
    let mut normal = bytes.to_vec();
    for row in checked.rows.iter().filter(|row| row.size > 0) {
        normal[usize::from(row.start) + 2] = 0;
    }
    normal
}

/// A row's numbers in document 01's order.
pub fn words(row: &reference::Row) -> [u16; 7] {
    let [place, length] = [row.name_place, row.name_length];
    [
        row.code, row.start, row.size, row.depth, row.count, place, length,
    ]
}

fn same_table(proved: &kerbcanopy::Checked, checked: &reference::Checked) -> bool {
    let mut rows = proved.rows.iter().zip(&checked.rows);
    plain(proved.answer) == checked.answer
        && rows.all(|(one, other)| proved::words(one) == words(other))
}

fn proved_text(proved: &kerbcanopy::Checked) -> String {
    table_text(plain(proved.answer), proved.rows.iter().map(proved::words))
}

fn checked_text(checked: &reference::Checked) -> String {
    table_text(checked.answer, checked.rows.iter().map(words))
}

/// The answer and every row that is not zero.
fn table_text(answer: Answer, rows: impl Iterator<Item = [u16; 7]>) -> String {
    let mut text = format!("{answer:?}");
    for (index, row) in rows.enumerate().take(MOST_ROWS) {
        if row != [0; 7] {
            text += &format!("\n    row {index}: {row:?}");
        }
    }
    text
}
