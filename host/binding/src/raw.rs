//! The C interface as the library's header declares it.

/// Document 01's answer: the number (0 if accepted), the input at fault and a
/// place whose meaning depends on the number and the question.
#[repr(C)]
#[derive(Clone, Copy, Debug, PartialEq, Eq)]
pub struct Answer {
    pub number: u32,
    pub input: u32,
    pub place: u32,
}

/// One descriptor of the table. Places count from the first lent byte; a name
/// place of 0 means that there is no name.
#[repr(C)]
#[derive(Clone, Copy, Debug, PartialEq, Eq)]
pub struct Row {
    pub code: u16,
    pub start: u16,
    pub size: u16,
    pub depth: u16,
    pub count: u16,
    pub name_place: u16,
    pub name_length: u16,
}

/// What the descriptor check returns: the answer, and the table, which is all
/// zero after a refusal.
#[repr(C)]
#[derive(Clone, Copy, Debug, PartialEq, Eq)]
pub struct Checked {
    pub answer: Answer,
    pub rows: [Row; 256],
}

/// `kc_compared`. The truth value stays a number here, since any other byte
/// than 0 or 1 in a Rust `bool` would be undefined.
#[repr(C)]
#[derive(Clone, Copy)]
pub(crate) struct RawCompared {
    pub(crate) answer: Answer,
    pub(crate) equal: u8,
}

/// What a view and a search in a blank book return: the answer, and the part of the
/// lent data or book, empty and at the front after a refusal.
#[repr(C)]
#[derive(Clone, Copy, Debug, PartialEq, Eq)]
pub struct Part {
    pub answer: Answer,
    pub start: usize,
    pub length: usize,
}

/// What a value read returns. The kind is 0 for no value, 1 for an unsigned
/// number, 2 for a signed one (the bits are its 64-bit two's complement), 3 for
/// a single (the low 32 bits), 4 for a double and 5 for a flag (1 for any byte but
/// 00, else 0).
#[repr(C)]
#[derive(Clone, Copy, Debug, PartialEq, Eq)]
pub struct Value {
    pub answer: Answer,
    pub kind: u32,
    pub bits: u64,
}

/// What the difference of two time stamps returns: seconds, rounded down, and the
/// rest in units of 2^-64 second; both are 0 after a refusal.
#[repr(C)]
#[derive(Clone, Copy, Debug, PartialEq, Eq)]
pub struct Difference {
    pub answer: Answer,
    pub seconds: i64,
    pub fraction: u64,
}

unsafe extern "C" {
    pub(crate) fn kc_check_descriptor(descriptor: *const u8, descriptor_len: usize) -> Checked;
    pub(crate) fn kc_compare(
        first: *const u8,
        first_len: usize,
        second: *const u8,
        second_len: usize,
    ) -> RawCompared;
    pub(crate) fn kc_normal_form(
        descriptor: *const u8,
        descriptor_len: usize,
        out: *mut u8,
        out_len: usize,
    ) -> Answer;
    pub(crate) fn kc_check_data(
        descriptor: *const u8,
        descriptor_len: usize,
        data: *const u8,
        data_len: usize,
    ) -> Answer;
    pub(crate) fn kc_view(
        descriptor: *const u8,
        descriptor_len: usize,
        data: *const u8,
        data_len: usize,
        path: *const u32,
        path_len: usize,
    ) -> Part;
    pub(crate) fn kc_read_value(
        descriptor: *const u8,
        descriptor_len: usize,
        data: *const u8,
        data_len: usize,
        path: *const u32,
        path_len: usize,
    ) -> Value;
    pub(crate) fn kc_to_little_endian(
        descriptor: *const u8,
        descriptor_len: usize,
        data: *const u8,
        data_len: usize,
        out: *mut u8,
        out_len: usize,
    ) -> Answer;
    pub(crate) fn kc_from_little_endian(
        descriptor: *const u8,
        descriptor_len: usize,
        data: *const u8,
        data_len: usize,
        out: *mut u8,
        out_len: usize,
    ) -> Answer;
    pub(crate) fn kc_read_record(
        writer: *const u8,
        writer_len: usize,
        reader: *const u8,
        reader_len: usize,
        data: *const u8,
        data_len: usize,
        out: *mut u8,
        out_len: usize,
    ) -> Answer;
    pub(crate) fn kc_stamp_difference(
        first_seconds_high: i32,
        first_seconds_low: i32,
        first_fraction_high: u32,
        first_fraction_low: u32,
        second_seconds_high: i32,
        second_seconds_low: i32,
        second_fraction_high: u32,
        second_fraction_low: u32,
    ) -> Difference;
    pub(crate) fn kc_store_check(store: *const u8, store_len: usize) -> Answer;
    pub(crate) fn kc_store_add(
        store: *mut u8,
        store_len: usize,
        descriptor: *const u8,
        descriptor_len: usize,
        data: *const u8,
        data_len: usize,
    ) -> Answer;
    pub(crate) fn kc_store_find(store: *const u8, store_len: usize, identifier: u32) -> Part;
    pub(crate) fn kc_store_list(
        store: *const u8,
        store_len: usize,
        identifiers: *mut u32,
        identifiers_len: usize,
    ) -> Answer;
    pub(crate) safe fn kc_version() -> u32;
    pub(crate) fn kc_check_descriptor_into(
        descriptor: *const u8,
        descriptor_len: usize,
        answer: *mut [u32; 3],
        table: *mut [u16; 1792],
    );
    pub(crate) fn kc_compare_into(
        first: *const u8,
        first_len: usize,
        second: *const u8,
        second_len: usize,
        answer: *mut [u32; 3],
        equal: *mut u8,
    );
    pub(crate) fn kc_normal_form_into(
        descriptor: *const u8,
        descriptor_len: usize,
        out: *mut u8,
        out_len: usize,
        answer: *mut [u32; 3],
    );
    pub(crate) fn kc_check_data_into(
        descriptor: *const u8,
        descriptor_len: usize,
        data: *const u8,
        data_len: usize,
        answer: *mut [u32; 3],
    );
    pub(crate) fn kc_view_into(
        descriptor: *const u8,
        descriptor_len: usize,
        data: *const u8,
        data_len: usize,
        path: *const u32,
        path_len: usize,
        answer: *mut [u32; 3],
        start: *mut u64,
        length: *mut u64,
    );
    pub(crate) fn kc_read_value_into(
        descriptor: *const u8,
        descriptor_len: usize,
        data: *const u8,
        data_len: usize,
        path: *const u32,
        path_len: usize,
        answer: *mut [u32; 3],
        kind: *mut u32,
        bits: *mut u64,
    );
    pub(crate) fn kc_to_little_endian_into(
        descriptor: *const u8,
        descriptor_len: usize,
        data: *const u8,
        data_len: usize,
        out: *mut u8,
        out_len: usize,
        answer: *mut [u32; 3],
    );
    pub(crate) fn kc_from_little_endian_into(
        descriptor: *const u8,
        descriptor_len: usize,
        data: *const u8,
        data_len: usize,
        out: *mut u8,
        out_len: usize,
        answer: *mut [u32; 3],
    );
    pub(crate) fn kc_read_record_into(
        writer: *const u8,
        writer_len: usize,
        reader: *const u8,
        reader_len: usize,
        data: *const u8,
        data_len: usize,
        out: *mut u8,
        out_len: usize,
        answer: *mut [u32; 3],
    );
    pub(crate) fn kc_stamp_difference_into(
        first_seconds_high: i32,
        first_seconds_low: i32,
        first_fraction_high: u32,
        first_fraction_low: u32,
        second_seconds_high: i32,
        second_seconds_low: i32,
        second_fraction_high: u32,
        second_fraction_low: u32,
        answer: *mut [u32; 3],
        seconds: *mut i64,
        fraction: *mut u64,
    );
    pub(crate) fn kc_store_check_into(store: *const u8, store_len: usize, answer: *mut [u32; 3]);
    pub(crate) fn kc_store_add_into(
        store: *mut u8,
        store_len: usize,
        descriptor: *const u8,
        descriptor_len: usize,
        data: *const u8,
        data_len: usize,
        answer: *mut [u32; 3],
    );
    pub(crate) fn kc_store_find_into(
        store: *const u8,
        store_len: usize,
        identifier: u32,
        answer: *mut [u32; 3],
        start: *mut u64,
        length: *mut u64,
    );
    pub(crate) fn kc_store_list_into(
        store: *const u8,
        store_len: usize,
        identifiers: *mut u32,
        identifiers_len: usize,
        answer: *mut [u32; 3],
    );
}
