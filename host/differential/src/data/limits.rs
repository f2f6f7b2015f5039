//! Every limit of data with its neighbour on each side, every code at its edges,
//! and what comes first where two refusals would do. Each case states its answer.

mod arrays;
mod cuts;
mod even;
mod huge;
mod lengths;
mod nested;
mod order;
mod paths;
mod scalars;
mod strings;

use reference::Answer;

use super::ask::{Ask, Found};
use super::both::Both;
use super::fill::{self, Flattened};
use super::scalar::Value;
use crate::answers::{accepted, refused};
use crate::random::Random;
use crate::tree::{Body, Tree};

/// A case with the answer that document 01 gives.
pub struct Limit {
    pub what: String,
    pub descriptor: Vec<u8>,
    pub data: Both,
    pub answer: Answer,
    pub asks: Vec<Ask>,
}

/// All limits, always in the same order, the longest data last.
pub fn all() -> Vec<Limit> {
    let mut limits = Limits(Vec::new());
    scalars::add(&mut limits);
    strings::add(&mut limits);
    arrays::add(&mut limits);
    huge::add(&mut limits);
    nested::add(&mut limits);
    cuts::add(&mut limits);
    paths::add(&mut limits);
    order::add(&mut limits);
    even::add(&mut limits);
    lengths::add(&mut limits);
    limits.0
}

/// Collects cases with their answers.
struct Limits(Vec<Limit>);

impl Limits {
    fn add(&mut self, what: String, descriptor: Vec<u8>, data: Both, answer: Answer) {
        self.0.push(Limit {
            what,
            descriptor,
            data,
            answer,
            asks: Vec::new(),
        });
    }

    fn accepted(&mut self, what: impl Into<String>, tree: &Tree, data: Both, pieces: usize) {
        let descriptor = tree.normal_form().bytes;
        self.add(what.into(), descriptor, data, accepted(pieces));
    }

    fn refused(
        &mut self,
        what: impl Into<String>,
        tree: &Tree,
        data: Both,
        number: u32,
        place: usize,
    ) {
        let descriptor = tree.normal_form().bytes;
        self.add(what.into(), descriptor, data, refused(number, place));
    }

    /// Data that the generator filled, and paths into it.
    fn filled(&mut self, what: impl Into<String>, tree: &Tree, filled: Flattened, asks: Vec<Ask>) {
        self.accepted(what, tree, filled.data, filled.pieces.len());
        asks.into_iter().for_each(|ask| self.ask(ask));
    }

    /// Adds a path to the last case.
    fn ask(&mut self, ask: Ask) {
        if let Some(last) = self.0.last_mut() {
            last.asks.push(ask);
        }
    }

    /// A path of the last case that leads to a part.
    fn part(&mut self, path: &[u32], start: usize, length: usize, value: Value) {
        self.ask(Ask {
            path: path.to_vec(),
            code: None,
            stated: Some(Found::Part {
                start,
                length,
                value,
            }),
        });
    }

    /// A path of the last case whose step of this number leads nowhere.
    fn nowhere(&mut self, path: &[u32], step: u32) {
        self.ask(Ask {
            path: path.to_vec(),
            code: None,
            stated: Some(Found::Nowhere(step)),
        });
    }
}

fn plain(code: u8) -> Tree {
    Tree::unnamed(Body::Plain(code))
}

fn text() -> Tree {
    Tree::unnamed(Body::Text)
}

fn stamp() -> Tree {
    Tree::unnamed(Body::stamp())
}

fn cluster(members: Vec<Tree>) -> Tree {
    Tree::unnamed(Body::Cluster(members))
}

fn array(dimensions: u16, element: Tree) -> Tree {
    Tree::unnamed(Body::Array(dimensions, Box::new(element)))
}

/// An enumeration of this many empty items.
fn enumeration(code: u8, items: usize) -> Tree {
    Tree::unnamed(Body::Enumeration(code, vec![Vec::new(); items]))
}

fn quantity(code: u8) -> Tree {
    Tree::unnamed(Body::Quantity(code, vec![[6, 1]]))
}

/// The tree of every scalar code.
fn every_scalar() -> Vec<(u8, Tree)> {
    let plain_codes = (0x01..=0x0E).chain([0x21]);
    let plain = plain_codes.map(|code| (code, plain(code)));
    let enumerations = (0x15..=0x17).map(|code| (code, enumeration(code, 3)));
    let quantities = (0x19..=0x1E).map(|code| (code, quantity(code)));
    plain.chain(enumerations).chain(quantities).collect()
}

/// Data by chance, but always the same, with as many bytes as asked for.
fn always(tree: &Tree, least: usize, most: usize) -> Flattened {
    let mut filled = (0..).map(|number| {
        let mut random = Random::for_case(0, number);
        fill::fill(&mut random, tree, most)
    });
    let found = filled.find(|filled| (least..=most).contains(&filled.data.len()));
    found.expect("the tree has data of that length")
}
