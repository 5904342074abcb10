//! The functions of `pb.h` that the crate calls, and their structs.

use crate::Verdict;
use std::ffi::c_void;
use std::ptr;

#[repr(C)]
pub struct Options {
    pub longest: u64,
    pub key0: u64,
    pub key1: u64,
    pub bits: u32,
}

#[repr(C)]
pub struct Checker {
    inner: *mut c_void,
}

impl Checker {
    pub const CLOSED: Checker = Checker {
        inner: ptr::null_mut(),
    };
}

#[repr(C)]
pub struct Instance {
    inner: *mut c_void,
}

impl Instance {
    pub const CLOSED: Instance = Instance {
        inner: ptr::null_mut(),
    };
}

#[repr(C)]
pub struct Reader {
    inner: *mut c_void,
}

impl Reader {
    pub const CLOSED: Reader = Reader {
        inner: ptr::null_mut(),
    };
}

#[repr(C)]
#[derive(Default)]
pub struct Sizes {
    pub rows: usize,
    pub terms: usize,
    pub names: usize,
    pub name_bytes: usize,
}

#[repr(C)]
#[derive(Default)]
pub struct State {
    pub accepted: u64,
    pub newest: u64,
    pub visits: u64,
}

#[repr(C)]
#[derive(Default)]
pub struct Number {
    pub low: u64,
    pub high: i64,
}

#[repr(C)]
#[derive(Default)]
pub struct Event {
    pub line: u64,
    pub column: u64,
    pub offset: u64,
    pub past: u64,
    pub tokens: usize,
    pub bytes: usize,
    pub kind: u32,
}

#[repr(C)]
#[derive(Default)]
pub struct Place {
    pub line: u64,
    pub column: u64,
    pub offset: u64,
}

#[repr(C)]
#[derive(Default)]
pub struct Report {
    pub line: u64,
    pub column: u64,
    pub offset: u64,
    pub number: u64,
    pub id: i64,
    pub reason: u32,
    pub input: u32,
}

#[repr(C)]
#[derive(Default)]
pub struct Claim {
    lower_low: u64,
    lower_high: i64,
    upper_low: u64,
    upper_high: i64,
    kind: u32,
    lower_finite: bool,
    upper_finite: bool,
}

impl Claim {
    pub fn verdict(&self) -> Verdict {
        let bound = |finite: bool, low, high| finite.then_some(wide(low, high));
        match self.kind {
            0 => Verdict::NoClaim,
            1 => Verdict::Unsat,
            2 => Verdict::Sat,
            _ => Verdict::Bounds(
                bound(self.lower_finite, self.lower_low, self.lower_high),
                bound(self.upper_finite, self.upper_low, self.upper_high),
            ),
        }
    }
}

/// The number of two words.
pub fn wide(low: u64, high: i64) -> i128 {
    (i128::from(high) << 64) + i128::from(low)
}

extern "C" {
    pub fn pb_version() -> u32;
    pub fn pb_tidy(
        text: *const u8,
        text_len: usize,
        normal: bool,
        options: *const Options,
        out: *mut u8,
        out_room: usize,
        out_len: *mut usize,
    ) -> u8;
    pub fn pb_show(
        text: *const u8,
        text_len: usize,
        options: *const Options,
        out: *mut u8,
        out_room: usize,
        out_len: *mut usize,
    ) -> u8;
    pub fn pb_checker_open(
        instance: *const u8,
        instance_len: usize,
        options: *const Options,
        checker: *mut Checker,
        report: *mut Report,
    ) -> u8;
    pub fn pb_checker_feed(
        checker: *mut Checker,
        piece: *const u8,
        piece_len: usize,
        used: *mut usize,
        report: *mut Report,
    ) -> u8;
    pub fn pb_checker_finish(checker: *mut Checker, claim: *mut Claim, report: *mut Report) -> u8;
    pub fn pb_checker_place(checker: *mut Checker, place: *mut Place) -> u8;
    pub fn pb_checker_held(checker: *mut Checker, held: *mut usize) -> u8;
    pub fn pb_checker_name(
        checker: *mut Checker,
        number: usize,
        out: *mut u8,
        out_room: usize,
        out_len: *mut usize,
    ) -> u8;
    pub fn pb_checker_step(
        checker: *mut Checker,
        piece: *const u8,
        piece_len: usize,
        used: *mut usize,
        ended: *mut bool,
        report: *mut Report,
    ) -> u8;
    pub fn pb_checker_state(checker: *mut Checker, state: *mut State) -> u8;
    pub fn pb_checker_terms(checker: *mut Checker, id: u64, terms: *mut usize) -> u8;
    pub fn pb_checker_constraint(
        checker: *mut Checker,
        id: u64,
        numbers: *mut u64,
        numbers_len: usize,
        negated: *mut u8,
        negated_len: usize,
        lows: *mut u64,
        lows_len: usize,
        highs: *mut i64,
        highs_len: usize,
        degree: *mut Number,
    ) -> u8;
    pub fn pb_checker_close(checker: *mut Checker);
    pub fn pb_instance_read(
        text: *const u8,
        text_len: usize,
        options: *const Options,
        instance: *mut Instance,
        report: *mut Report,
    ) -> u8;
    pub fn pb_instance_sizes(instance: *mut Instance, sizes: *mut Sizes) -> u8;
    pub fn pb_instance_terms(
        instance: *mut Instance,
        numbers: *mut u64,
        numbers_len: usize,
        negated: *mut u8,
        negated_len: usize,
        lows: *mut u64,
        lows_len: usize,
        highs: *mut i64,
        highs_len: usize,
    ) -> u8;
    pub fn pb_instance_rows(
        instance: *mut Instance,
        kinds: *mut u8,
        kinds_len: usize,
        ends: *mut u64,
        ends_len: usize,
        lows: *mut u64,
        lows_len: usize,
        highs: *mut i64,
        highs_len: usize,
    ) -> u8;
    pub fn pb_instance_places(
        instance: *mut Instance,
        lines: *mut u64,
        lines_len: usize,
        columns: *mut u64,
        columns_len: usize,
        firsts: *mut u64,
        firsts_len: usize,
        pasts: *mut u64,
        pasts_len: usize,
    ) -> u8;
    pub fn pb_instance_names(
        instance: *mut Instance,
        bytes: *mut u8,
        bytes_len: usize,
        starts: *mut u64,
        starts_len: usize,
    ) -> u8;
    pub fn pb_instance_close(instance: *mut Instance);
    pub fn pb_reader_open(
        format: u32,
        options: *const Options,
        reader: *mut Reader,
        report: *mut Report,
    ) -> u8;
    pub fn pb_reader_feed(
        reader: *mut Reader,
        piece: *const u8,
        piece_len: usize,
        used: *mut usize,
        event: *mut Event,
        report: *mut Report,
    ) -> u8;
    pub fn pb_reader_finish(reader: *mut Reader, report: *mut Report) -> u8;
    pub fn pb_reader_tokens(
        reader: *mut Reader,
        codes: *mut u8,
        codes_len: usize,
        names: *mut u64,
        names_len: usize,
        lows: *mut u64,
        lows_len: usize,
        highs: *mut i64,
        highs_len: usize,
    ) -> u8;
    pub fn pb_reader_bytes(
        reader: *mut Reader,
        out: *mut u8,
        out_room: usize,
        out_len: *mut usize,
    ) -> u8;
    pub fn pb_reader_name(
        reader: *mut Reader,
        number: usize,
        out: *mut u8,
        out_room: usize,
        out_len: *mut usize,
    ) -> u8;
    pub fn pb_reader_close(reader: *mut Reader);
    pub fn pb_write_statement(
        kind: u32,
        codes: *const u8,
        codes_len: usize,
        names: *const u64,
        names_len: usize,
        lows: *const u64,
        lows_len: usize,
        highs: *const i64,
        highs_len: usize,
        text: *const u8,
        text_len: usize,
        bytes: *const u8,
        bytes_len: usize,
        starts: *const u64,
        starts_len: usize,
        options: *const Options,
        wrong: *mut usize,
        out: *mut u8,
        out_room: usize,
        out_len: *mut usize,
    ) -> u8;
}
