//! Every question on bytes that may be damaged anywhere: each has an answer, and
//! the exit status is that of its number.

use std::ffi::OsString;

use super::grow::{self, Random};
use super::parsed::Json;
use super::{ROUNDS, asked, damage, input};
use crate::arguments::Options;
use crate::ask;
use crate::command::Request;
use crate::descriptor::Descriptor;
use crate::outcome::{Outcome, Status};

pub type Question = fn(&Request) -> Result<Outcome, String>;

/// Questions that judge the descriptor and the data first, in the same way.
const ABOUT_DATA: [Question; 4] = [ask::dump, ask::value, ask::view, ask::little];

/// Asks, and holds the status against the number.
fn answers(question: Question, files: &[&[u8]], steps: &[OsString]) -> Json {
    let (status, json) = asked(question, files, steps);
    let expected = match json.at("number").number() {
        0 if json.fields().contains(&"difference") => Status::Different,
        0 => Status::Accepted,
        _ => Status::Refused,
    };
    assert_eq!(status, expected, "{json:?}");
    json
}

/// Two records, each judged in turn; a path may lead to something else than a stamp.
fn differs(files: &[&[u8]], paths: &[OsString]) {
    let options = Options::default();
    let outcome = ask::difference(&Request {
        operands: &[],
        files: files.iter().map(|bytes| input(bytes)).collect(),
        words: paths,
        options: &options,
    });
    match outcome {
        Err(trouble) => assert!(trouble.contains("leads to no time stamp"), "{trouble}"),
        Ok(outcome) => assert_eq!(
            outcome.status == Status::Refused,
            outcome.answer.is_empty() && outcome.complaint.contains(": refused with ")
        ),
    }
}

/// The fields of an explanation are all the bytes of its files, as far as it goes.
fn explains(files: &[&[u8]]) {
    let (status, json) = asked(ask::explain, files, &[]);
    let sections = json.at("sections").list();
    for (section, bytes) in sections.iter().zip(files) {
        let mut end = 0;
        for field in section.at("fields").list() {
            assert_eq!(field.at("start").number(), end);
            end += field.at("length").number();
        }
        assert_eq!(end, bytes.len());
    }
    let refused = |section: &Json| section.at("answer").at("number").number() != 0;
    assert_eq!(status == Status::Refused, sections.iter().any(refused));
    assert!(sections.len() == files.len() || refused(&sections[0]));
}

#[test]
fn every_question_answers_whatever_it_is_lent() {
    for seed in 0..ROUNDS / 3 {
        let mut random = Random::new(seed);
        let types = grow::types(&mut random);
        let accepted = Descriptor::of(&types).expect("it is accepted");
        let data = grow::data(&mut random, &accepted);
        let bent = damage::anywhere(&mut random, &types);
        let cut = damage::anywhere(&mut random, &data);
        let step = |random: &mut Random| random.below(4).to_string().into();
        let steps: Vec<OsString> = (0..seed % 4).map(|_| step(&mut random)).collect();
        for files in [[&types, &data], [&types, &cut], [&bent, &data]] {
            let [one, other] = files.map(Vec::as_slice);
            let checked = answers(ask::data, &[one, other], &[]);
            for question in ABOUT_DATA {
                let json = answers(question, &[one, other], &steps);
                if checked.at("number").number() != 0 {
                    assert_eq!(json, checked);
                }
            }
            answers(ask::big, &[one, other], &[]);
            explains(&[one, other]);
            answers(ask::read, &[one, &types, other], &[]);
            answers(ask::read, &[&types, one, &data], &[]);
        }
        let paths = [0, 1].map(|_| [step(&mut random), step(&mut random)]);
        let paths = paths.map(|steps: [OsString; 2]| steps.join(" ".as_ref()));
        for files in [[&types, &data, &types, &cut], [&types, &data, &bent, &data]] {
            differs(&files.map(Vec::as_slice), &paths);
        }
        answers(ask::check, &[&bent], &[]);
        answers(ask::normal, &[&bent], &[]);
        answers(ask::compare, &[&types, &bent], &[]);
    }
}
