//! The rows about blank books.

use crate::asked::Asked;
use crate::case::Case;
use crate::inputs::books::{Book, LONGEST, empty, kept, shortest};
use crate::questions::{store_add, store_check, store_find, store_list};

/// Places for every list.
pub const PLACES: usize = 4095;

pub fn rows() -> Vec<Case> {
    let mut books: Vec<Book> = kept().into();
    books.push(shortest(LONGEST));
    let mut cases = checks(&books);
    cases.extend(additions(&books));
    cases.extend(searches(&books));
    cases.extend(lists(&books));
    cases
}

const EMPTY: &str = "4,095 entries, none in use";

/// A row about a whole book.
fn row(entry: &'static str, what: impl Into<String>, asked: Asked) -> Case {
    Case::new(entry, what, LONGEST, asked)
}

fn checks(books: &[Book]) -> Vec<Case> {
    let entry = "store_check";
    let mut cases = Vec::new();
    for book in books {
        let late = format!("{}, refused late", book.what);
        cases.push(row(entry, &book.what, store_check(&book.bytes)));
        cases.push(row(entry, late, store_check(&book.ill_formed())));
    }
    cases.push(row(entry, EMPTY, store_check(&empty())));
    cases
}

/// The last record of a book, added to all the others.
pub fn add_last(book: &Book) -> Asked {
    let (others, (descriptor, data)) = book.but_last();
    store_add(&others, descriptor, data)
}

fn additions(books: &[Book]) -> Vec<Case> {
    let entry = "store_add";
    let mut cases = Vec::new();
    for book in books {
        let what = format!("the last of {}", book.what);
        cases.push(row(entry, what, add_last(book)));
        let (_, (descriptor, data)) = book.but_last();
        let again = store_add(&book.bytes, descriptor, data);
        let what = format!("the last of {}, refused: again", book.what);
        cases.push(row(entry, what, again));
    }
    let (_, (descriptor, data)) = books[0].but_last();
    let asked = store_add(&empty(), descriptor, data);
    let what = format!("{EMPTY}, refused: no room");
    cases.push(row(entry, what, asked));
    cases
}

fn searches(books: &[Book]) -> Vec<Case> {
    let entry = "store_find";
    let mut cases = Vec::new();
    for book in books {
        let what = &book.what;
        let find = |identifier| store_find(&book.bytes, &[identifier]);
        cases.push(row(
            entry,
            format!("the first of {what}"),
            find(book.first()),
        ));
        cases.push(row(entry, format!("the last of {what}"), find(book.last())));
        let missing = format!("none of {what}, refused");
        cases.push(row(entry, missing, find(book.missing())));
    }
    let what = format!("{EMPTY}, refused");
    cases.push(row(entry, what, store_find(&empty(), &[0])));
    cases
}

fn lists(books: &[Book]) -> Vec<Case> {
    let entry = "store_list";
    let mut cases = Vec::new();
    for book in books {
        let asked = store_list(&book.bytes, PLACES);
        cases.push(row(entry, &book.what, asked));
    }
    cases.push(row(entry, EMPTY, store_list(&empty(), PLACES)));
    let book = &books[0];
    let asked = store_list(&book.bytes, book.count() - 1);
    let what = format!("{}, refused: no room", book.what);
    cases.push(row(entry, what, asked));
    cases
}
