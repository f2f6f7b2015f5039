//! Holds the proved library against the second implementation over one case of a
//! book: every answer, and after each question every byte of the book and of the
//! identifiers.

use reference::Answer;

use super::case::{Ask, Case, Step, Told};
use super::record::Record;
use crate::answers::{accepted, demand_same, request};
use crate::difference::{Difference, Held, demand, demand_guarded, outputs, plain};
use crate::entry::Entry;
use crate::lent::{Around, Lent};
use crate::output::rooms;
use crate::proved;
use crate::random::Random;
use crate::tally::Tally;

/// One case being held.
struct Hold<'a> {
    tally: &'a mut Tally,
    around: Around,
    /// The book that the library is lent, and the other's.
    lent: Lent,
    other: Vec<u8>,
    /// What the generator knows of it, and the check's answer.
    told: Told,
    checked: Answer,
}

/// Asks both every question of the case. Returns the first difference.
pub fn hold(case: &Case, random: &mut Random, exact: bool, tally: &mut Tally) -> Held<()> {
    let around = Around::new(random, exact);
    let mut hold = Hold {
        tally,
        around,
        lent: Lent::new(&case.book, &case.beyond, around),
        other: case.book.clone(),
        told: case.told.clone(),
        checked: accepted(0),
    };
    let held = hold.check();
    held.map_err(|difference| difference.about("book", &case.book))?;
    hold.tally.book(case, hold.checked);
    for step in &case.steps {
        let before = hold.other.clone();
        let held = hold.step(step, random);
        held.map_err(|difference| about(difference, &step.ask).about("book", &before))?;
    }
    Ok(())
}

/// Names the record of a question, if it has one.
fn about(difference: Difference, ask: &Ask) -> Difference {
    match ask {
        Ask::Add(record) => difference
            .about("data", &record.data)
            .about("descriptor", &record.descriptor),
        _ => difference,
    }
}

impl Hold<'_> {
    /// The check, which says what every other question refuses.
    fn check(&mut self) -> Held<()> {
        let question = "store_check";
        self.checked = plain(proved::store_check(self.lent.bytes())?);
        demand_same(self.checked, reference::store_check(&self.other), question)?;
        self.demand_kept(question)?;
        let question = "store_check, against the generator";
        self.tally.answered(Entry::StoreCheck, self.checked);
        match self.told {
            Told::Well(_) => demand_same(self.checked, accepted(0), question),
            Told::Bad(refusal) => demand_same(self.checked, refusal, question),
            Told::Nothing => Ok(()),
        }
    }

    fn step(&mut self, step: &Step, random: &mut Random) -> Held<()> {
        let answer = match &step.ask {
            Ask::Add(record) => self.add(record)?,
            Ask::Find(identifier) => self.find(*identifier)?,
            Ask::List => self.list(random)?,
        };
        if let Some(stated) = step.stated {
            demand_same(answer, stated, "a book's question, against the limit")?;
        }
        if self.checked.number != 0 {
            let question = "a book's question, against store_check";
            demand_same(answer, self.checked, question)?;
        }
        Ok(())
    }

    /// A difference unless both have the same book, and nothing around it changed.
    fn demand_kept(&self, question: &str) -> Held<()> {
        let texts = || outputs(self.lent.bytes(), &self.other);
        demand(self.lent.bytes() == self.other, question, texts)?;
        let length = self.other.len();
        demand_guarded(self.lent.untouched_beyond(length), question)
    }

    fn add(&mut self, record: &Record) -> Held<Answer> {
        let question = "store_add";
        let descriptor = Lent::new(&record.descriptor, &[], self.around);
        let data = Lent::new(&record.data, &[], self.around.other());
        let before = self.other.clone();
        let book = self.lent.bytes_mut();
        let answer = plain(proved::store_add(book, descriptor.bytes(), data.bytes())?);
        let other = reference::store_add(&mut self.other, &record.descriptor, &record.data);
        demand_same(answer, other, question)?;
        self.demand_kept(question)?;
        let untouched = descriptor.untouched() && data.untouched();
        demand_guarded(untouched, "store_add's record")?;
        self.tally.added(&before, record, answer);
        self.demand_added(record, answer, &before)?;
        if answer.number == 0 {
            self.check()?;
            let question = "store_check, after an addition";
            demand_same(self.checked, accepted(0), question)?;
        }
        Ok(answer)
    }

    /// A difference unless the answer and the book are those that the generator states.
    fn demand_added(&mut self, record: &Record, answer: Answer, before: &[u8]) -> Held<()> {
        let question = "store_add, against the generator";
        let wanted = match &mut self.told {
            Told::Well(known) => {
                demand_same(answer, known.judge(record), question)?;
                if answer.number == 0 {
                    known.put(record);
                }
                &known.bytes
            }
            _ if answer.number == 0 => return Ok(()),
            _ => before,
        };
        let texts = || outputs(self.lent.bytes(), wanted);
        demand(self.lent.bytes() == wanted, question, texts)
    }

    fn find(&mut self, identifier: u32) -> Held<Answer> {
        let question = format!("store_find of {identifier}");
        let part = proved::store_find(self.lent.bytes(), identifier)?;
        let given = (plain(part.answer), part.start, part.length);
        let part = reference::store_find(&self.other, identifier);
        let other = (part.answer, part.start, part.length);
        let stated = match &self.told {
            Told::Well(known) => known.find(identifier),
            Told::Bad(refusal) => (*refusal, 0, 0),
            Told::Nothing => other,
        };
        let texts = |other| [format!("{given:?}"), format!("{other:?}")];
        demand(given == other, &question, || texts(other))?;
        let known = format!("{question}, against the generator");
        demand(given == stated, &known, || texts(stated))?;
        self.demand_kept(&question)?;
        self.tally.answered(Entry::StoreFind, given.0);
        Ok(given.0)
    }

    /// Lists into rooms of every interesting length. Returns the first answer.
    fn list(&mut self, random: &mut Random) -> Held<Answer> {
        let identifiers = match &self.told {
            Told::Well(known) => Some(known.identifiers()),
            _ => None,
        };
        let none = reference::store_list(&self.other, &mut []);
        let needed = if none.number == 50 { none.place } else { 0 };
        let lengths = rooms(random, needed as usize);
        let fill = random.next() as u32;
        let mut first = none;
        for (index, &length) in lengths.iter().enumerate() {
            let answer = self.list_into(length, fill, identifiers.as_deref())?;
            self.tally.wrote(Entry::StoreList, answer, length);
            if index == 0 {
                first = answer;
            }
        }
        self.demand_kept("store_list")?;
        Ok(first)
    }

    fn list_into(&self, length: usize, fill: u32, stated: Option<&[u32]>) -> Held<Answer> {
        let question = format!("store_list, {length} places");
        let mut room = vec![fill; length];
        let mut lent = Lent::new(&room, &[], self.around);
        let answer = plain(proved::store_list(self.lent.bytes(), lent.items_mut())?);
        demand_same(
            answer,
            reference::store_list(&self.other, &mut room),
            &question,
        )?;
        let texts = |room: &[u32]| [format!("{:?}", lent.items()), format!("{room:?}")];
        demand(lent.items() == room, &question, || texts(&room))?;
        demand_guarded(lent.untouched_beyond(length), &question)?;
        let Some(identifiers) = stated else {
            return Ok(answer);
        };
        let question = format!("{question}, against the generator");
        let count = identifiers.len();
        let mut room = vec![fill; length];
        let wanted = match room.get_mut(..count) {
            Some(front) => {
                front.copy_from_slice(identifiers);
                accepted(count)
            }
            None => request(50, count as u32),
        };
        demand_same(answer, wanted, &question)?;
        demand(lent.items() == room, &question, || texts(&room))?;
        Ok(answer)
    }
}
