//! Holds the proved library against the second implementation over one case of
//! stamps.

use reference::Answer;

use super::case::Case;
use super::time::Pair;
use crate::answers::accepted;
use crate::difference::{Held, demand, plain};
use crate::proved;
use crate::tally::Tally;

/// Asks both for every difference of the case. Returns the first that differs.
pub fn hold(case: &Case, tally: &mut Tally) -> Held<()> {
    for pair in &case.pairs {
        let answer = hold_pair(pair).map_err(|difference| {
            let difference = difference.about("second stamp", &pair.second.bytes());
            difference.about("first stamp", &pair.first.bytes())
        })?;
        tally.subtracted(case.kind, pair, answer);
    }
    Ok(())
}

fn hold_pair(pair: &Pair) -> Held<Answer> {
    let [first, second] = [pair.first, pair.second].map(|time| time.stamp());
    let given = proved::stamp_difference(first, second)?;
    let given = (plain(given.answer), given.seconds, given.fraction);
    let other = reference::stamp_difference(first, second);
    let other = (other.answer, other.seconds, other.fraction);
    let stated = match pair.stated {
        Ok(time) => (accepted(0), time.seconds, time.fraction),
        Err(refusal) => (refusal, 0, 0),
    };
    let question = "stamp_difference";
    let texts = |one, other| [format!("{one:?}"), format!("{other:?}")];
    demand(given == other, question, || texts(given, other))?;
    let question = "stamp_difference, against what is known";
    demand(given == stated, question, || texts(given, stated))?;
    Ok(given.0)
}
