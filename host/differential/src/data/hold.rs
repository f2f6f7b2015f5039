//! Holds the proved library against the second implementation over one case of
//! data: every question, every answer, every byte that may or may not be
//! written.

use std::fmt::Debug;

use reference::Answer;

use super::ask::{Ask, Found};
use super::case::Case;
use super::form;
use crate::answers::{accepted, demand_same, request};
use crate::difference::{Held, demand, demand_guarded, plain};
use crate::lent::{Around, Lent};
use crate::proved;
use crate::random::Random;
use crate::tally::Tally;

/// One case being held. The descriptor and the data stand twice, with other
/// bytes around.
struct Hold<'a> {
    case: &'a Case,
    around: Around,
    tally: &'a mut Tally,
    descriptors: [Lent; 2],
    data: [Lent; 2],
}

/// Asks both every question about the case. Returns the first difference.
pub fn hold(case: &Case, random: &mut Random, exact: bool, tally: &mut Tally) -> Held<()> {
    let around = Around::new(random, exact);
    let other = around.other();
    let mut hold = Hold {
        case,
        around,
        tally,
        descriptors: [around, other].map(|around| Lent::new(&case.descriptor, &[], around)),
        data: [
            Lent::new(&case.data.big, &case.beyond, around),
            Lent::new(&case.data.big, &[], other),
        ],
    };
    let held = hold.every_question(random);
    held.map_err(|difference| {
        let difference = difference.about("little-endian data", &case.data.little);
        let difference = difference.about("data", &case.data.big);
        difference.about("descriptor", &case.descriptor)
    })
}

impl Hold<'_> {
    fn every_question(&mut self, random: &mut Random) -> Held<()> {
        let case = self.case;
        let checked = self.check()?;
        for ask in &case.asks {
            self.view(ask, checked)?;
            self.read_value(ask, checked)?;
        }
        let mut lent = self.descriptors.iter().chain(&self.data);
        let untouched = lent.all(Lent::untouched);
        demand_guarded(untouched, "check_data, view or read_value")?;
        form::hold(case, checked, self.around, random, self.tally)
    }

    /// The check, twice with other bytes around, and against the statement.
    fn check(&mut self) -> Held<Answer> {
        let case = self.case;
        let answer = reference::check_data(&case.descriptor, &case.data.big);
        for (descriptor, data) in self.descriptors.iter().zip(&self.data) {
            let proved = plain(proved::check_data(descriptor.bytes(), data.bytes())?);
            demand_same(proved, answer, "check_data")?;
        }
        if let Some(stated) = case.answer {
            demand_same(answer, stated, "check_data, against the generator")?;
        }
        let descriptor = reference::check_descriptor(&case.descriptor).answer;
        if descriptor.number != 0 {
            demand_same(answer, descriptor, "check_data, against check_descriptor")?;
        }
        self.tally.data(case, answer);
        Ok(answer)
    }

    fn view(&mut self, ask: &Ask, checked: Answer) -> Held<()> {
        let path = Lent::new(&ask.path, &[], self.around);
        let [descriptor, data] = [self.descriptors[0].bytes(), self.data[0].bytes()];
        let proved = proved::view(descriptor, data, path.items())?;
        let proved = (plain(proved.answer), proved.start, proved.length);
        let part = reference::view(&self.case.descriptor, &self.case.data.big, &ask.path);
        let part = (part.answer, part.start, part.length);
        let stated = match ask.stated {
            _ if checked.number != 0 => (checked, 0, 0),
            Some(Found::Part { start, length, .. }) => (accepted(0), start, length),
            Some(Found::Nowhere(step)) => (request(30, step), 0, 0),
            None => part,
        };
        self.tally.viewed(ask, part.0);
        demand_path("view", &path, proved, part, stated)
    }

    fn read_value(&mut self, ask: &Ask, checked: Answer) -> Held<()> {
        let path = Lent::new(&ask.path, &[], self.around.other());
        let [descriptor, data] = [self.descriptors[1].bytes(), self.data[1].bytes()];
        let proved = proved::read_value(descriptor, data, path.items())?;
        let proved = (plain(proved.answer), proved.kind, proved.bits);
        let value = reference::read_value(&self.case.descriptor, &self.case.data.big, &ask.path);
        let value = (value.answer, value.kind, value.bits);
        let stated = match ask.stated {
            _ if checked.number != 0 => (checked, 0, 0),
            Some(Found::Part { value, .. }) => match value {
                Some((kind, bits)) => (accepted(0), kind, bits),
                None => (request(31, 0), 0, 0),
            },
            Some(Found::Nowhere(step)) => (request(30, step), 0, 0),
            None => value,
        };
        self.tally.valued(self.case, ask, value.0);
        demand_path("read_value", &path, proved, value, stated)
    }
}

/// A difference unless the library's result at a path is the other's and the one
/// that is known.
fn demand_path<T: Debug + PartialEq>(
    question: &str,
    path: &Lent<u32>,
    proved: T,
    other: T,
    stated: T,
) -> Held<()> {
    let asked = |more| format!("{question}, path {:?}{more}", path.items());
    if proved == other && proved == stated {
        return demand_guarded(path.untouched(), question);
    }
    let texts = |other: &T| [format!("{proved:?}"), format!("{other:?}")];
    demand(proved == other, &asked(""), || texts(&other))?;
    let known = asked(", against what is known");
    demand(proved == stated, &known, || texts(&stated))
}
