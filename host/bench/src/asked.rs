//! A question put to both implementations: shown once to have the same answer
//! and the same output, then ready to be put as often as is wanted.

use std::cell::RefCell;
use std::hint::black_box;
use std::rc::Rc;

use crate::told::Told;

/// Puts a question so many times.
pub type Repeated = Box<dyn FnMut(u32)>;

/// What is lent to a question.
pub struct Lent {
    pub bytes: Vec<Vec<u8>>,
    /// The question is put once for each path; only some look at it.
    pub paths: Vec<Vec<u32>>,
    /// The output's length.
    pub room: usize,
    /// What the output holds before the first call, where that matters.
    pub before: Option<Vec<u8>>,
}

impl Lent {
    /// These bytes, no path, and no output.
    pub fn new(bytes: &[&[u8]]) -> Lent {
        Lent {
            bytes: bytes.iter().map(|bytes| bytes.to_vec()).collect(),
            paths: vec![vec![]],
            room: 0,
            before: None,
        }
    }

    pub fn with_room(self, room: usize) -> Lent {
        Lent { room, ..self }
    }

    pub fn with_paths(self, paths: &[Vec<u32>]) -> Lent {
        let paths = paths.to_vec();
        Lent { paths, ..self }
    }

    /// An output that holds these bytes.
    pub fn with_output(self, bytes: &[u8]) -> Lent {
        let before = Some(bytes.to_vec());
        Lent { before, ..self }
    }

    /// The output as it is before the first call.
    fn output<T: Clone + From<u8>>(&self, fill: u8) -> Vec<T> {
        match &self.before {
            Some(bytes) => bytes.iter().map(|byte| T::from(*byte)).collect(),
            None => vec![T::from(fill); self.room],
        }
    }
}

/// A question, and the number that both answer.
pub struct Asked {
    pub number: u32,
    pub kerbcanopy: Repeated,
    pub reference: Repeated,
}

/// Asks both once and holds the answers and outputs against each other.
///
/// # Panics
///
/// If they differ, or if the number isn't the same for every path.
pub fn asked<A: Told, B: Told>(
    lent: Lent,
    kerbcanopy: impl Fn(&Lent, &[u32], &mut [u8]) -> A + 'static,
    reference: impl Fn(&Lent, &[u32], &mut [u8]) -> B + 'static,
) -> Asked {
    asked_into(lent, kerbcanopy, reference)
}

/// The same for an output of bytes or numbers.
pub fn asked_into<A: Told, B: Told, T: Clone + PartialEq + From<u8> + 'static>(
    lent: Lent,
    kerbcanopy: impl Fn(&Lent, &[u32], &mut [T]) -> A + 'static,
    reference: impl Fn(&Lent, &[u32], &mut [T]) -> B + 'static,
) -> Asked {
    let number = agreed(&lent, &kerbcanopy, &reference);
    let out = Rc::new(RefCell::new(lent.output(0)));
    let lent = Rc::new(lent);
    Asked {
        number,
        kerbcanopy: repeated(lent.clone(), out.clone(), kerbcanopy),
        reference: repeated(lent, out, reference),
    }
}

/// The number that both answer.
fn agreed<A: Told, B: Told, T: Clone + PartialEq + From<u8>>(
    lent: &Lent,
    kerbcanopy: impl Fn(&Lent, &[u32], &mut [T]) -> A,
    reference: impl Fn(&Lent, &[u32], &mut [T]) -> B,
) -> u32 {
    let numbers = lent.paths.iter().map(|path| {
        let (mut first, mut second) = (lent.output(0xA5), lent.output(0xA5));
        let told = kerbcanopy(lent, path, &mut first).told();
        assert_eq!(told, reference(lent, path, &mut second).told());
        assert!(first == second, "the outputs differ");
        told[0] as u32
    });
    let numbers: Vec<u32> = numbers.collect();
    assert!(numbers.iter().all(|&number| number == numbers[0]));
    numbers[0]
}

/// The call in a loop of its own, so that only the loop is called through a
/// pointer. Both sides are lent the same bytes and the same output.
fn repeated<A, T: 'static>(
    lent: Rc<Lent>,
    out: Rc<RefCell<Vec<T>>>,
    call: impl Fn(&Lent, &[u32], &mut [T]) -> A + 'static,
) -> Repeated {
    Box::new(move |times| {
        let out = &mut *out.borrow_mut();
        for _ in 0..times {
            for path in &lent.paths {
                black_box(&call(black_box(&*lent), black_box(path), black_box(out)));
            }
        }
    })
}

/// A plain copy of so many bytes.
pub fn copied(length: usize) -> Repeated {
    let (from, mut to) = (vec![1_u8; length], vec![0; length]);
    Box::new(move |times| {
        for _ in 0..times {
            black_box(&mut to).copy_from_slice(black_box(&from));
        }
    })
}
