//! The questions again, with answers in lent numbers: the entries whose names end
//! in `_into`, for callers that can't take a struct by value. Each sets every
//! number that it is lent, after a refusal too.

use crate::{Stamp, raw};

/// An answer's number, input and place.
pub type Numbers = [u32; 3];

/// The 256 rows one after another, seven numbers each.
pub type Table = [u16; 1792];

/// The answer and the table of [`crate::check_descriptor`].
pub fn check_descriptor(descriptor: &[u8], answer: &mut Numbers, table: &mut Table) {
    // SAFETY: each pointer and length are those of one live borrow, and the
    // borrows of what is written keep it apart from the rest.
    unsafe {
        raw::kc_check_descriptor_into(descriptor.as_ptr(), descriptor.len(), answer, table);
    }
}

/// The answer of [`crate::compare`], and 1 for equal or 0 for not.
pub fn compare(first: &[u8], second: &[u8], answer: &mut Numbers, equal: &mut u8) {
    // SAFETY: each pointer and length are those of one live borrow, and the
    // borrows of what is written keep it apart from the rest.
    unsafe {
        raw::kc_compare_into(
            first.as_ptr(),
            first.len(),
            second.as_ptr(),
            second.len(),
            answer,
            equal,
        );
    }
}

/// The answer and the output of [`crate::normal_form`].
pub fn normal_form(descriptor: &[u8], out: &mut [u8], answer: &mut Numbers) {
    // SAFETY: each pointer and length are those of one live borrow, and the
    // borrows of what is written keep it apart from the rest.
    unsafe {
        raw::kc_normal_form_into(
            descriptor.as_ptr(),
            descriptor.len(),
            out.as_mut_ptr(),
            out.len(),
            answer,
        );
    }
}

/// The answer of [`crate::check_data`].
pub fn check_data(descriptor: &[u8], data: &[u8], answer: &mut Numbers) {
    // SAFETY: each pointer and length are those of one live borrow, and the
    // borrows of what is written keep it apart from the rest.
    unsafe {
        raw::kc_check_data_into(
            descriptor.as_ptr(),
            descriptor.len(),
            data.as_ptr(),
            data.len(),
            answer,
        );
    }
}

/// The answer and the part of [`crate::view`].
pub fn view(
    descriptor: &[u8],
    data: &[u8],
    path: &[u32],
    answer: &mut Numbers,
    start: &mut u64,
    length: &mut u64,
) {
    // SAFETY: each pointer and length are those of one live borrow, and the
    // borrows of what is written keep it apart from the rest.
    unsafe {
        raw::kc_view_into(
            descriptor.as_ptr(),
            descriptor.len(),
            data.as_ptr(),
            data.len(),
            path.as_ptr(),
            path.len(),
            answer,
            start,
            length,
        );
    }
}

/// The answer and the value of [`crate::read_value`].
pub fn read_value(
    descriptor: &[u8],
    data: &[u8],
    path: &[u32],
    answer: &mut Numbers,
    kind: &mut u32,
    bits: &mut u64,
) {
    // SAFETY: each pointer and length are those of one live borrow, and the
    // borrows of what is written keep it apart from the rest.
    unsafe {
        raw::kc_read_value_into(
            descriptor.as_ptr(),
            descriptor.len(),
            data.as_ptr(),
            data.len(),
            path.as_ptr(),
            path.len(),
            answer,
            kind,
            bits,
        );
    }
}

/// The answer and the output of [`crate::to_little_endian`].
pub fn to_little_endian(descriptor: &[u8], data: &[u8], out: &mut [u8], answer: &mut Numbers) {
    // SAFETY: each pointer and length are those of one live borrow, and the
    // borrows of what is written keep it apart from the rest.
    unsafe {
        raw::kc_to_little_endian_into(
            descriptor.as_ptr(),
            descriptor.len(),
            data.as_ptr(),
            data.len(),
            out.as_mut_ptr(),
            out.len(),
            answer,
        );
    }
}

/// The answer and the output of [`crate::from_little_endian`].
pub fn from_little_endian(descriptor: &[u8], data: &[u8], out: &mut [u8], answer: &mut Numbers) {
    // SAFETY: each pointer and length are those of one live borrow, and the
    // borrows of what is written keep it apart from the rest.
    unsafe {
        raw::kc_from_little_endian_into(
            descriptor.as_ptr(),
            descriptor.len(),
            data.as_ptr(),
            data.len(),
            out.as_mut_ptr(),
            out.len(),
            answer,
        );
    }
}

/// The answer and the output of [`crate::read_record`].
pub fn read_record(
    writer: &[u8],
    reader: &[u8],
    data: &[u8],
    out: &mut [u8],
    answer: &mut Numbers,
) {
    // SAFETY: each pointer and length are those of one live borrow, and the
    // borrows of what is written keep it apart from the rest.
    unsafe {
        raw::kc_read_record_into(
            writer.as_ptr(),
            writer.len(),
            reader.as_ptr(),
            reader.len(),
            data.as_ptr(),
            data.len(),
            out.as_mut_ptr(),
            out.len(),
            answer,
        );
    }
}

/// The answer and the difference of [`crate::stamp_difference`].
pub fn stamp_difference(
    first: Stamp,
    second: Stamp,
    answer: &mut Numbers,
    seconds: &mut i64,
    fraction: &mut u64,
) {
    // SAFETY: any numbers will do, and the borrows of what is written keep each
    // apart from the rest.
    unsafe {
        raw::kc_stamp_difference_into(
            first.seconds_high,
            first.seconds_low,
            first.fraction_high,
            first.fraction_low,
            second.seconds_high,
            second.seconds_low,
            second.fraction_high,
            second.fraction_low,
            answer,
            seconds,
            fraction,
        );
    }
}

/// The answer of [`crate::store_check`].
pub fn store_check(store: &[u8], answer: &mut Numbers) {
    // SAFETY: each pointer and length are those of one live borrow, and the
    // borrows of what is written keep it apart from the rest.
    unsafe {
        raw::kc_store_check_into(store.as_ptr(), store.len(), answer);
    }
}

/// The answer of [`crate::store_add`], and the book as that leaves it.
pub fn store_add(store: &mut [u8], descriptor: &[u8], data: &[u8], answer: &mut Numbers) {
    // SAFETY: each pointer and length are those of one live borrow, and the
    // borrows of what is written keep it apart from the rest.
    unsafe {
        raw::kc_store_add_into(
            store.as_mut_ptr(),
            store.len(),
            descriptor.as_ptr(),
            descriptor.len(),
            data.as_ptr(),
            data.len(),
            answer,
        );
    }
}

/// The answer and the part of [`crate::store_find`].
pub fn store_find(
    store: &[u8],
    identifier: u32,
    answer: &mut Numbers,
    start: &mut u64,
    length: &mut u64,
) {
    // SAFETY: each pointer and length are those of one live borrow, and the
    // borrows of what is written keep it apart from the rest.
    unsafe {
        raw::kc_store_find_into(
            store.as_ptr(),
            store.len(),
            identifier,
            answer,
            start,
            length,
        );
    }
}

/// The answer and the identifiers of [`crate::store_list`].
pub fn store_list(store: &[u8], identifiers: &mut [u32], answer: &mut Numbers) {
    // SAFETY: each pointer and length are those of one live borrow, and the
    // borrows of what is written keep it apart from the rest.
    unsafe {
        raw::kc_store_list_into(
            store.as_ptr(),
            store.len(),
            identifiers.as_mut_ptr(),
            identifiers.len(),
            answer,
        );
    }
}
