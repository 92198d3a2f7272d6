//! The C names, as include/bumbleturf.h declares them.

use crate::DIMENSIONS;

extern "C" {
    pub fn bt_empty(table: *mut u16, words: usize) -> u32;
    pub fn bt_audit(table: *const u16, words: usize) -> u32;
    pub fn bt_cone(table: *mut u16, words: usize, marks: *const u64, mark_words: usize, apex: *mut u16) -> u32;
    pub fn bt_merge(table: *mut u16, words: usize, a: u16, b: u16, kept: *mut u16) -> u32;
    pub fn bt_weld(table: *mut u16, words: usize, a: u16, b: u16, kept: *mut u16) -> u32;
    pub fn bt_compact(table: *mut u16, words: usize, list: *mut u16, list_len: usize) -> u32;
    pub fn bt_incidence(table: *const u16, words: usize, cell: u16, face: u16, sum: *mut i64) -> u32;
    pub fn bt_boundary(
        table: *const u16,
        words: usize,
        chain: *const i64,
        chain_len: usize,
        dimension: u16,
        boundary: *mut i64,
        boundary_len: usize,
    ) -> u32;
    pub fn bt_corner(table: *const u16, words: usize, cell: u16, k: u16, corner: *mut u16) -> u32;
    pub fn bt_sheet(table: *const u16, words: usize, yes: *mut u8) -> u32;
    pub fn bt_reduce(table: *const u16, words: usize, evidence: *mut u64, evidence_words: usize, additions: *mut [u64; DIMENSIONS]) -> u32;
    pub fn bt_check(
        table: *const u16,
        words: usize,
        evidence: *const u64,
        evidence_words: usize,
        cells: *mut [u16; DIMENSIONS],
        holes: *mut [u16; DIMENSIONS],
    ) -> u32;
    pub fn bt_write(table: *const u16, words: usize, target: *mut u8, target_len: usize, written: *mut usize) -> u32;
    pub fn bt_read(table: *mut u16, words: usize, file: *const u8, file_len: usize) -> u32;
    pub fn bt_import(table: *mut u16, words: usize, text: *const u8, text_len: usize) -> u32;
}
