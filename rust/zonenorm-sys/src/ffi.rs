//! The declarations of zonenorm.h. `tools/gate/library_declarations` compares them with it.
#![allow(non_camel_case_types, missing_docs)]

/// Octets that are borrowed, or a text that the caller frees unless `len` is 0.
#[repr(C)]
#[derive(Clone, Copy)]
pub struct zonenorm_octets {
    pub at: *const u8,
    pub len: usize,
}

#[repr(C)]
pub struct zonenorm_input {
    pub kind: u32,
    pub reserved: u32,
    pub limit: u64,
    pub origin: zonenorm_octets,
    pub octets: zonenorm_octets,
    pub directory: zonenorm_octets,
    pub names: *const zonenorm_octets,
    pub names_count: usize,
    pub files: *const zonenorm_octets,
    pub files_count: usize,
}

#[repr(C)]
#[derive(Default)]
pub struct zonenorm_answer {
    pub status: u32,
    pub input: u32,
    pub fault: u32,
    pub place: u32,
    pub line: u64,
    pub offset: u64,
    pub count: u64,
    pub file: u32,
    pub reserved: u32,
    pub value: u64,
}

pub const ABI: u32 = 1;

pub const FILE: u32 = 0;
pub const TRANSFER: u32 = 1;
pub const ALL_TYPES: u32 = 2;
pub const FILES: u32 = 3;

pub const OK: u32 = 0;
pub const DIFFERENT: u32 = 1;
pub const BAD_ORIGIN: u32 = 2;
pub const REFUSED: u32 = 3;
pub const NO_MEMORY: u32 = 4;
pub const UNSUPPORTED: u32 = 5;
pub const WANTS_FILE: u32 = 6;

pub const WHOLE: u32 = 0;
pub const LINE: u32 = 1;
pub const MESSAGE: u32 = 2;

pub const WIRE: u32 = 1;
pub const FOLD_NAMES: u32 = 2;

extern "C" {
    pub fn zonenorm_abi() -> u32;
    pub fn zonenorm_normalise(given: *const zonenorm_input, text: *mut zonenorm_octets, answer: *mut zonenorm_answer);
    pub fn zonenorm_normalise_into(given: *const zonenorm_input, room: *mut u8, room_len: usize, answer: *mut zonenorm_answer) -> usize;
    pub fn zonenorm_records(given: *const zonenorm_input, text: *mut zonenorm_octets, answer: *mut zonenorm_answer);
    pub fn zonenorm_records_into(given: *const zonenorm_input, room: *mut u8, room_len: usize, answer: *mut zonenorm_answer) -> usize;
    pub fn zonenorm_compare(first: *const zonenorm_input, second: *const zonenorm_input, text: *mut zonenorm_octets, answer: *mut zonenorm_answer);
    pub fn zonenorm_diff(first: *const zonenorm_input, second: *const zonenorm_input, flags: u32, removed: *mut zonenorm_octets, added: *mut zonenorm_octets, answer: *mut zonenorm_answer);
    pub fn zonenorm_expand(given: *const zonenorm_input, text: *mut zonenorm_octets, answer: *mut zonenorm_answer);
    pub fn zonenorm_verify(given: *const zonenorm_input, text: *mut zonenorm_octets, answer: *mut zonenorm_answer);
    pub fn zonenorm_digest(given: *const zonenorm_input, algorithm: u32, text: *mut zonenorm_octets, answer: *mut zonenorm_answer);
    pub fn zonenorm_generic(given: *const zonenorm_input, text: *mut zonenorm_octets, reason: *mut zonenorm_octets, answer: *mut zonenorm_answer);
    pub fn zonenorm_words(octets: *const u8, octets_len: usize, text: *mut zonenorm_octets, answer: *mut zonenorm_answer);
}
