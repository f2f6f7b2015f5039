//! Which of the cases stand in the file, by counting what each is the first to meet.

use std::collections::{BTreeMap, BTreeSet};
use std::mem::take;

use reference::Answer;

use super::asked::Given;
use super::case::Case;
use super::contest::{Contest, contests, named};
use crate::entry::{ENTRIES, Entry};
use crate::tally::met::ANSWERS;

/// How many cases of each entry are made to choose from.
const MADE: u64 = 40_000;
/// At how many places a refusal is met by the first entry that gives it.
const PLACES: usize = 3;
/// How many bytes an accepted case has at least.
const LEAST_ACCEPTED: usize = 14;
/// Refusals that only long inputs earn; other facts have these.
const LONG: [u32; 3] = [1, 7, 20];

/// The entries, up to how many cases of each those are chosen in which one refusal
/// comes before another, and how many are accepted.
const WANTED: [(Entry, usize, usize); 9] = [
    (Entry::CheckDescriptor, 100, 8),
    (Entry::Compare, 34, 8),
    (Entry::NormalForm, 18, 4),
    (Entry::CheckData, 48, 8),
    (Entry::View, 26, 6),
    (Entry::ReadValue, 32, 10),
    (Entry::ToLittleEndian, 24, 6),
    (Entry::FromLittleEndian, 32, 6),
    (Entry::ReadRecord, 60, 8),
];

/// The cases of one entry, by their answers.
pub struct Table {
    pub entry: Entry,
    pub cases: Vec<Case>,
}

/// A table for each entry, or an answer that none of its cases meets.
pub fn tables() -> Result<Vec<Table>, String> {
    let mut met = BTreeSet::new();
    let mut tables = Vec::new();
    for (entry, most, accepted) in WANTED {
        let mut choice = Choice::new(entry);
        choice.refusals(&met);
        choice.accepted(accepted);
        choice.contests(&met, most);
        choice.demand_met()?;
        met.extend(choice.places.keys().map(|(number, _)| *number));
        tables.push(choice.table());
    }
    Ok(tables)
}

struct Choice {
    entry: Entry,
    /// The cases to choose from.
    made: Vec<Case>,
    chosen: Vec<Case>,
    /// The spots that each answer was met at.
    places: BTreeMap<(u32, u32), BTreeSet<u32>>,
    /// What refusals of descriptors point at.
    points: BTreeSet<&'static str>,
    contests: BTreeSet<Contest>,
    /// How many cases of each kind are accepted.
    kinds: BTreeMap<u64, usize>,
}

impl Choice {
    fn new(entry: Entry) -> Choice {
        Choice {
            entry,
            made: (0..MADE)
                .filter_map(|number| Case::make(entry, number))
                .collect(),
            chosen: Vec::new(),
            places: BTreeMap::new(),
            points: BTreeSet::new(),
            contests: BTreeSet::new(),
            kinds: BTreeMap::new(),
        }
    }

    /// Chooses the cases that are wanted when their turn comes.
    fn choose(&mut self, wanted: impl Fn(&Choice, &Case) -> bool) {
        for case in take(&mut self.made) {
            match wanted(self, &case) {
                true => self.take(case),
                false => self.made.push(case),
            }
        }
    }

    fn take(&mut self, case: Case) {
        let answer = case.told.answer;
        let places = self.places.entry(named(answer)).or_default();
        places.insert(case.spot());
        if answer.number == 0 {
            *self.kinds.entry(kind(&case)).or_default() += 1;
        }
        self.points.extend(case.point());
        self.contests.extend(contests(&case));
        self.chosen.push(case);
    }

    /// Every refusal at some places, and everything that one of a descriptor can point
    /// at; if possible where another was to be given too.
    fn refusals(&mut self, met: &BTreeSet<u32>) {
        for least in [1, 0] {
            self.choose(|choice, case| case.beaten.len() >= least && choice.wants(case, met));
        }
        for least in [1, 0] {
            self.choose(|choice, case| {
                let point = case.point();
                case.beaten.len() >= least
                    && point.is_some_and(|point| !choice.points.contains(point))
            });
        }
    }

    /// Whether the refusal was met too seldom, and not at this place.
    fn wants(&self, case: &Case, met: &BTreeSet<u32>) -> bool {
        let answer = case.told.answer;
        let of_descriptor = (1..=12).contains(&answer.number);
        if answer.number == 0 || of_descriptor && answer.place == 0 {
            return false;
        }
        let most = match met.contains(&answer.number) {
            true if of_descriptor => 1,
            true => 2,
            false => PLACES,
        };
        let places = self.places.get(&named(answer));
        let known = places.is_some_and(|places| places.contains(&case.spot()));
        self.count(answer) < most && !known
    }

    /// So many that are accepted all the same, of every kind alike.
    fn accepted(&mut self, most: usize) {
        for each in 1..=most {
            self.choose(|choice, case| {
                let count = |kind| choice.kinds.get(&kind).copied().unwrap_or(0);
                let all: usize = choice.kinds.values().sum();
                let long = case.asked.length() >= LEAST_ACCEPTED;
                case.told.answer.number == 0 && long && all < most && count(kind(case)) < each
            });
        }
    }

    /// Up to so many cases, in each of which a refusal comes before one that it was not
    /// seen before yet: near each other, then in one input, then in several inputs, of
    /// every refusal alike.
    fn contests(&mut self, met: &BTreeSet<u32>, most: usize) {
        self.contested(met, [most, most], |contest| {
            contest.is_of_one() && contest.near
        });
        self.contested(met, [most, most], Contest::is_of_one);
        for each in 1..=most {
            self.contested(met, [most, each], |contest| !contest.is_of_one());
        }
    }

    /// The same of some contests, with each refusal so often at most.
    fn contested(
        &mut self,
        met: &BTreeSet<u32>,
        [most, each]: [usize; 2],
        of_these: impl Fn(&Contest) -> bool,
    ) {
        self.choose(|choice, case| {
            let new = |contest: &Contest| {
                of_these(contest)
                    && !choice.is_known(contest, met)
                    && !choice.contests.contains(contest)
            };
            choice.chosen.len() < most
                && choice.count(case.told.answer) < each
                && contests(case).iter().any(new)
        });
    }

    /// Whether the order was met by an entry before, which judges an input alike.
    fn is_known(&self, contest: &Contest, met: &BTreeSet<u32>) -> bool {
        let [answer, beaten] = [contest.answer.0, contest.beaten.0];
        let otherwise = self.entry == Entry::FromLittleEndian && answer >= 20;
        let both = met.contains(&answer) && met.contains(&beaten);
        contest.is_of_one() && both && !otherwise
    }

    /// How many of the chosen cases have this answer, place apart.
    fn count(&self, answer: Answer) -> usize {
        let same = |case: &&Case| named(case.told.answer) == named(answer);
        self.chosen.iter().filter(same).count()
    }

    fn demand_met(&self) -> Result<(), String> {
        for (number, input) in ANSWERS {
            let can = self.entry.can_answer(number, input) && !LONG.contains(&number);
            if can && !self.places.contains_key(&(number, input)) {
                let (_, word) = ENTRIES[self.entry as usize];
                return Err(format!("{word}: no case of {number} of {input}"));
            }
        }
        Ok(())
    }

    fn table(mut self) -> Table {
        self.chosen.sort_by_key(|case| {
            let answer = case.told.answer;
            (answer.number, answer.input, answer.place)
        });
        Table {
            entry: self.entry,
            cases: self.chosen,
        }
    }
}

/// What kind an accepted case is of, by what is given.
fn kind(case: &Case) -> u64 {
    match case.told.given {
        Given::Equal(equal) => equal.into(),
        Given::Part { start, .. } => start as u64,
        Given::Value { kind, .. } => kind.into(),
        _ => case.told.answer.place.into(),
    }
}
