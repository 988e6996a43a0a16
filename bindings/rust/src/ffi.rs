//! The C interface: what `include/lrlex.h` declares.

use std::ffi::{c_int, c_void};
use std::ptr::null_mut;

pub(crate) const OK: c_int = 0;
pub(crate) const REFUSED: c_int = 1;
pub(crate) const NOMEM: c_int = 2;
pub(crate) const NONE: c_int = 5;
pub(crate) const DOES_NOT_FIT: c_int = 6;
pub(crate) const SHARED: c_int = 7;

pub(crate) const SCAN_MORE: u32 = 0;
pub(crate) const SCAN_DONE: u32 = 1;
pub(crate) const SCAN_NO_MATCH: u32 = 2;

/// A handle of a definition, a document or a scanner. It owns what it points to, so it has no copy.
#[repr(C)]
pub(crate) struct Handle {
    hidden: *mut c_void,
}

impl Handle {
    /// The handle that holds nothing.
    pub(crate) const EMPTY: Handle = Handle { hidden: null_mut() };
}

#[repr(C)]
#[derive(Clone, Copy, Debug, Default)]
pub(crate) struct Options {
    pub(crate) size_limit: usize,
    pub(crate) table_rows: usize,
    pub(crate) table_work: usize,
    pub(crate) set: u32,
    pub(crate) on: u32,
    pub(crate) nest_limit: u32,
    pub(crate) limit_tables: bool,
}

#[repr(C)]
#[derive(Clone, Copy, Debug, Default)]
pub(crate) struct Token {
    pub(crate) start: usize,
    pub(crate) len: usize,
    pub(crate) id: u32,
}

#[repr(C)]
#[derive(Clone, Copy, Debug, Default)]
pub(crate) struct Piece {
    pub(crate) start: usize,
    pub(crate) len: usize,
    pub(crate) rule: usize,
}

#[repr(C)]
#[derive(Clone, Copy, Debug, Default)]
pub(crate) struct Tile {
    pub(crate) start: usize,
    pub(crate) len: usize,
    pub(crate) rule: usize,
    pub(crate) id: u32,
    pub(crate) has_id: bool,
}

#[repr(C)]
#[derive(Clone, Copy, Debug, Default)]
pub(crate) struct Scanned {
    pub(crate) count: usize,
    pub(crate) place: usize,
    pub(crate) state: usize,
    pub(crate) rule: usize,
    pub(crate) end: u32,
}

#[repr(C)]
#[derive(Clone, Copy, Debug, Default)]
pub(crate) struct Place {
    pub(crate) line: usize,
    pub(crate) column: usize,
}

#[repr(C)]
#[derive(Clone, Copy, Debug, Default)]
pub(crate) struct Lexed {
    pub(crate) count: usize,
    pub(crate) end: usize,
    pub(crate) state: usize,
    pub(crate) stopped: bool,
    pub(crate) unmatched: bool,
}

#[repr(C)]
#[derive(Clone, Copy, Debug, Default)]
pub(crate) struct Entered {
    pub(crate) start: usize,
    pub(crate) end: usize,
    pub(crate) state: usize,
}

#[repr(C)]
#[derive(Clone, Copy, Debug, Default)]
pub(crate) struct Fault {
    pub(crate) start: usize,
    pub(crate) end: usize,
    pub(crate) line: usize,
    pub(crate) column: usize,
    pub(crate) spans: usize,
    pub(crate) kind: u32,
}

#[repr(C)]
#[derive(Clone, Copy, Debug, Default)]
pub(crate) struct FaultSpan {
    pub(crate) start: usize,
    pub(crate) end: usize,
    pub(crate) line: usize,
    pub(crate) column: usize,
}

#[repr(C)]
#[derive(Clone, Copy, Debug, Default)]
pub(crate) struct Warning {
    pub(crate) start: usize,
    pub(crate) end: usize,
    pub(crate) line: usize,
    pub(crate) column: usize,
    pub(crate) kind: u32,
}

#[repr(C)]
#[derive(Clone, Copy, Debug, Default)]
pub(crate) struct Rule {
    pub(crate) name_start: usize,
    pub(crate) name_end: usize,
    pub(crate) name_len: usize,
    pub(crate) id: u32,
    pub(crate) has_id: bool,
    pub(crate) has_name: bool,
}

#[repr(C)]
#[derive(Clone, Copy, Debug)]
pub(crate) struct NamedId {
    pub(crate) name: *const u8,
    pub(crate) name_len: usize,
    pub(crate) id: u32,
}

unsafe extern "C" {
    pub(crate) fn lrlex_free(handle: *mut Handle);
    pub(crate) fn lrlex_definition_new(
        out: *mut Handle,
        rules: *const u8,
        rules_len: usize,
        options: *const Options,
    ) -> c_int;
    pub(crate) fn lrlex_definition_share(d: *mut Handle, out: *mut Handle) -> c_int;
    pub(crate) fn lrlex_fault_count(d: *mut Handle) -> usize;
    pub(crate) fn lrlex_fault_at(d: *mut Handle, index: usize, out: *mut Fault) -> c_int;
    pub(crate) fn lrlex_fault_span_at(d: *mut Handle, index: usize, span: usize, out: *mut FaultSpan) -> c_int;
    pub(crate) fn lrlex_fault_name(kind: u32, out: *mut u8, cap: usize, len: *mut usize) -> c_int;
    pub(crate) fn lrlex_fault_text(d: *mut Handle, index: usize, out: *mut u8, cap: usize, len: *mut usize) -> c_int;
    pub(crate) fn lrlex_fault_message(d: *mut Handle, index: usize, out: *mut u8, cap: usize, len: *mut usize) -> c_int;
    pub(crate) fn lrlex_fault_report(
        d: *mut Handle,
        file: *const u8,
        file_len: usize,
        out: *mut u8,
        cap: usize,
        len: *mut usize,
    ) -> c_int;
    pub(crate) fn lrlex_check(out: *mut Handle, rules: *const u8, rules_len: usize, options: *const Options) -> c_int;
    pub(crate) fn lrlex_warnings(
        d: *mut Handle,
        rules: *const u8,
        rules_len: usize,
        out: *mut Warning,
        cap: usize,
        count: *mut usize,
    ) -> c_int;
    pub(crate) fn lrlex_warning_name(kind: u32, out: *mut u8, cap: usize, len: *mut usize) -> c_int;
    pub(crate) fn lrlex_warning_text(kind: u32, out: *mut u8, cap: usize, len: *mut usize) -> c_int;
    pub(crate) fn lrlex_warning_report(
        d: *mut Handle,
        file: *const u8,
        file_len: usize,
        rules: *const u8,
        rules_len: usize,
        out: *mut u8,
        cap: usize,
        len: *mut usize,
    ) -> c_int;
    pub(crate) fn lrlex_rule_count(d: *mut Handle) -> usize;
    pub(crate) fn lrlex_rule_at(d: *mut Handle, index: usize, out: *mut Rule) -> c_int;
    pub(crate) fn lrlex_definition_set_rule_ids(
        d: *mut Handle,
        ids: *const NamedId,
        count: usize,
        missing: *mut bool,
        cap: usize,
    ) -> c_int;
    pub(crate) fn lrlex_rule_name(d: *mut Handle, index: usize, out: *mut u8, cap: usize, len: *mut usize) -> c_int;
    pub(crate) fn lrlex_name(d: *mut Handle, id: u32, out: *mut u8, cap: usize, len: *mut usize) -> c_int;
    pub(crate) fn lrlex_state_count(d: *mut Handle) -> usize;
    pub(crate) fn lrlex_state_name(d: *mut Handle, index: usize, out: *mut u8, cap: usize, len: *mut usize) -> c_int;
    pub(crate) fn lrlex_lex(
        d: *mut Handle,
        text: *const u8,
        text_len: usize,
        tokens: *mut Token,
        cap: usize,
        out: *mut Lexed,
    ) -> c_int;
    pub(crate) fn lrlex_pieces(
        d: *mut Handle,
        text: *const u8,
        text_len: usize,
        pieces: *mut Piece,
        cap: usize,
        out: *mut Lexed,
    ) -> c_int;
    pub(crate) fn lrlex_stop_report(
        d: *mut Handle,
        file: *const u8,
        file_len: usize,
        text: *const u8,
        text_len: usize,
        out: *mut u8,
        cap: usize,
        len: *mut usize,
    ) -> c_int;
    pub(crate) fn lrlex_entered_by(d: *mut Handle, text: *const u8, text_len: usize, out: *mut Entered) -> c_int;
    pub(crate) fn lrlex_places(
        text: *const u8,
        text_len: usize,
        bytes: *const usize,
        n: usize,
        out: *mut Place,
        cap: usize,
    ) -> c_int;
    pub(crate) fn lrlex_document_new(d: *mut Handle, out: *mut Handle, text: *const u8, text_len: usize) -> c_int;
    pub(crate) fn lrlex_document_edit(d: *mut Handle, from: usize, to: usize, put: *const u8, put_len: usize) -> c_int;
    pub(crate) fn lrlex_document_tokens(
        d: *mut Handle,
        first: usize,
        tokens: *mut Token,
        cap: usize,
        out: *mut Lexed,
    ) -> c_int;
    pub(crate) fn lrlex_document_pieces_in(
        d: *mut Handle,
        from: usize,
        to: usize,
        pieces: *mut Piece,
        cap: usize,
        out: *mut Lexed,
    ) -> c_int;
    pub(crate) fn lrlex_document_entered_by(d: *mut Handle, out: *mut Entered) -> c_int;
    pub(crate) fn lrlex_document_place(d: *mut Handle, byte: usize, out: *mut Place) -> c_int;
    pub(crate) fn lrlex_document_position_in(d: *mut Handle, byte: usize, encoding: u32, out: *mut Place) -> c_int;
    pub(crate) fn lrlex_document_offset_at(
        d: *mut Handle,
        line: usize,
        column: usize,
        encoding: u32,
        byte: *mut usize,
    ) -> c_int;
    pub(crate) fn lrlex_scanner_new(d: *mut Handle, out: *mut Handle, text: *const u8, text_len: usize) -> c_int;
    pub(crate) fn lrlex_scanner_next(scanner: *mut Handle, tiles: *mut Tile, cap: usize, out: *mut Scanned) -> c_int;
}
