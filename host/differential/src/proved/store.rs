//! The questions about a blank book, each in both its forms.

use kerbcanopy::{Answer, Part, lent};

use super::{demand_lent, demand_numbers, painted, painted_number, written, written_items};
use crate::difference::Held;

pub fn store_check(store: &[u8]) -> Held<Answer> {
    let checked = kerbcanopy::store_check(store);
    let mut answer = painted();
    lent::store_check(store, &mut answer.lent);
    demand_numbers("store_check_into", &answer, checked)?;
    Ok(checked)
}

pub fn store_add(store: &mut [u8], descriptor: &[u8], data: &[u8]) -> Held<Answer> {
    written(
        "store_add_into",
        store,
        |store| kerbcanopy::store_add(store, descriptor, data),
        |store, answer| lent::store_add(store, descriptor, data, answer),
    )
}

pub fn store_find(store: &[u8], identifier: u32) -> Held<Part> {
    let question = "store_find_into";
    let part = kerbcanopy::store_find(store, identifier);
    let mut answer = painted();
    let [mut start, mut length] = [painted_number(), painted_number()];
    lent::store_find(
        store,
        identifier,
        &mut answer.lent,
        &mut start.lent,
        &mut length.lent,
    );
    demand_numbers(question, &answer, part.answer)?;
    demand_lent(question, &start, &(part.start as u64))?;
    demand_lent(question, &length, &(part.length as u64))?;
    Ok(part)
}

pub fn store_list(store: &[u8], identifiers: &mut [u32]) -> Held<Answer> {
    written_items(
        "store_list_into",
        identifiers,
        |places| kerbcanopy::store_list(store, places),
        |places, answer| lent::store_list(store, places, answer),
        |lent, other| [lent, other].map(|places| format!("{places:?}")),
    )
}
