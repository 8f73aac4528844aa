//! Weldrika's calls as safe Rust: link libweldrika.a, which `rt lib` in crates/weldrika writes. include/weldrika.h says what each call
//! promises and has the codes of answers; README.md has the form of a pool and of a step file.
//!
//! The calls on a pool stand in [`byte_tags`] and in [`word_tags`], with the same answers. No call asks anything of its arguments. Each
//! `unsafe` hands over the pointers and lengths of slices: they are aligned and not null, also of empty ones, and the borrows keep what is
//! written apart from all else. 8 MB of stack are enough for the deepest terms tried, and 1.5 MB are not.
#![allow(dead_code)]

/// Cells of a pool, at most.
pub const CELLS: usize = 8192;
/// Literals of a clause list, at most: the least length of `literals`.
pub const LITERALS: usize = 8192;
/// Clauses of a clause list, at most: the least length of `ends`.
pub const CLAUSES: usize = 2048;
/// Bytes of the text that answers a step file, at most.
pub const TEXT: usize = 11264;
/// A table of sort rules that loads; calls are lent any slice.
pub type Table = [u32; 135];

/// A code, 0 for acceptance, and the two numbers that it carries.
#[repr(C)]
#[derive(Clone, Copy, Debug, Default, PartialEq, Eq)]
pub struct Answer {
    pub code: u32,
    pub first: u32,
    pub second: u32,
}

impl Answer {
    pub fn is_accepted(self) -> bool {
        self.code == 0
    }
}

#[link(name = "weldrika", kind = "static")]
extern "C" {
    fn weldrika_answer_file(input: *const u8, inputs: usize, out: *mut u8, outs: usize) -> usize;
    fn weldrika_answer_file_by(
        input: *const u8, inputs: usize, table: *const u32, entries: usize, out: *mut u8, outs: usize,
    ) -> usize;
    fn weldrika_built_in_table(table: *mut Table);
    fn weldrika_load_table(entries: *const u32, count: usize, table: *mut Table, answer: *mut Answer);
}

/// The text that answers a step file, under the built-in table.
pub fn answer_file(input: &[u8]) -> String {
    text(|out| unsafe { weldrika_answer_file(input.as_ptr(), input.len(), out.as_mut_ptr(), out.len()) })
}

/// The text that answers a step file, under a table.
pub fn answer_file_by(input: &[u8], table: &[u32]) -> String {
    text(|out| unsafe {
        weldrika_answer_file_by(input.as_ptr(), input.len(), table.as_ptr(), table.len(), out.as_mut_ptr(), out.len())
    })
}

fn text(write: impl FnOnce(&mut [u8]) -> usize) -> String {
    let mut out = vec![0; TEXT];
    let length = write(&mut out);
    out.truncate(length);
    String::from_utf8(out).expect("digits, spaces and line ends")
}

/// The built-in table.
pub fn built_in_table() -> Table {
    let mut table = [0; 135];
    unsafe { weldrika_built_in_table(&mut table) };
    table
}

/// Replaces the table by the entries if they load.
pub fn load_table(entries: &[u32], table: &mut Table) -> Answer {
    answered(|answer| unsafe { weldrika_load_table(entries.as_ptr(), entries.len(), table, answer) })
}

fn answered(call: impl FnOnce(*mut Answer)) -> Answer {
    let mut answer = Answer::default();
    call(&mut answer);
    answer
}

/// The calls on a pool with tags of one type, and the library's functions behind them.
macro_rules! calls {
    ($module:ident, $tag:ty, $check_pool:ident, $sort_of_term:ident, $free_vars:ident, $normal_form:ident, $clause_list:ident,
     $check:ident) => {
        pub mod $module {
            use super::{answered, Answer};

            extern "C" {
                fn $check_pool(
                    tags: *const $tag, tag_count: usize, values: *const u32, value_count: usize, table: *const u32, entries: usize,
                    n: usize, answer: *mut Answer,
                );
                fn $sort_of_term(
                    tags: *const $tag, tag_count: usize, values: *const u32, value_count: usize, table: *const u32, entries: usize,
                    n: usize, t: u32, answer: *mut Answer,
                );
                fn $free_vars(
                    tags: *const $tag, tag_count: usize, values: *const u32, value_count: usize, table: *const u32, entries: usize,
                    n: usize, t: u32, marks: *mut u8, mark_count: usize, answer: *mut Answer,
                );
                fn $normal_form(
                    tags: *mut $tag, tag_count: usize, values: *mut u32, value_count: usize, table: *const u32, entries: usize,
                    n: usize, t: u32, polarity: bool, answer: *mut Answer,
                );
                fn $clause_list(
                    tags: *mut $tag, tag_count: usize, values: *mut u32, value_count: usize, table: *const u32, entries: usize,
                    n: usize, t: u32, literals: *mut u32, literal_count: usize, ends: *mut u32, end_count: usize,
                    answer: *mut Answer,
                ) -> u32;
                fn $check(
                    tags: *mut $tag, tag_count: usize, values: *mut u32, value_count: usize, table: *const u32, entries: usize,
                    n: usize, rule: u32, conclusion: *const u32, places: usize, answer: *mut Answer,
                );
            }

            /// The pool check.
            pub fn check_pool(tags: &[$tag], values: &[u32], table: &[u32], n: usize) -> Answer {
                answered(|answer| unsafe {
                    $check_pool(
                        tags.as_ptr(), tags.len(), values.as_ptr(), values.len(), table.as_ptr(), table.len(), n, answer,
                    )
                })
            }

            /// The sort of the term at t: accepted, the first number is its place.
            pub fn sort_of_term(tags: &[$tag], values: &[u32], table: &[u32], n: usize, t: u32) -> Answer {
                answered(|answer| unsafe {
                    $sort_of_term(
                        tags.as_ptr(), tags.len(), values.as_ptr(), values.len(), table.as_ptr(), table.len(), n, t, answer,
                    )
                })
            }

            /// The free variables of the term at t: accepted, marks is 1 at their places, and 0 elsewhere.
            pub fn free_vars(tags: &[$tag], values: &[u32], table: &[u32], n: usize, t: u32, marks: &mut [u8]) -> Answer {
                answered(|answer| unsafe {
                    $free_vars(
                        tags.as_ptr(), tags.len(), values.as_ptr(), values.len(), table.as_ptr(), table.len(), n, t,
                        marks.as_mut_ptr(), marks.len(), answer,
                    )
                })
            }

            /// The normal form of the term at t: accepted, the numbers are its place and the new count.
            pub fn normal_form(tags: &mut [$tag], values: &mut [u32], table: &[u32], n: usize, t: u32, polarity: bool) -> Answer {
                answered(|answer| unsafe {
                    $normal_form(
                        tags.as_mut_ptr(), tags.len(), values.as_mut_ptr(), values.len(), table.as_ptr(), table.len(), n, t,
                        polarity, answer,
                    )
                })
            }

            /// The clause list of the term at t, and the new count: accepted, the numbers are its clauses and its literals.
            pub fn clause_list(
                tags: &mut [$tag], values: &mut [u32], table: &[u32], n: usize, t: u32, literals: &mut [u32], ends: &mut [u32],
            ) -> (Answer, u32) {
                let mut count = 0;
                let answer = answered(|answer| unsafe {
                    count = $clause_list(
                        tags.as_mut_ptr(), tags.len(), values.as_mut_ptr(), values.len(), table.as_ptr(), table.len(), n, t,
                        literals.as_mut_ptr(), literals.len(), ends.as_mut_ptr(), ends.len(), answer,
                    )
                });
                (answer, count)
            }

            /// The check of a step: its rule, and its conclusion as a list of one place.
            pub fn check(
                tags: &mut [$tag], values: &mut [u32], table: &[u32], n: usize, rule: u32, conclusion: &[u32],
            ) -> Answer {
                answered(|answer| unsafe {
                    $check(
                        tags.as_mut_ptr(), tags.len(), values.as_mut_ptr(), values.len(), table.as_ptr(), table.len(), n, rule,
                        conclusion.as_ptr(), conclusion.len(), answer,
                    )
                })
            }
        }
    };
}

calls!(
    byte_tags, u8, weldrika_check_pool_u8, weldrika_sort_of_term_u8, weldrika_free_vars_u8, weldrika_normal_form_u8,
    weldrika_clause_list_u8, weldrika_check_u8
);
calls!(
    word_tags, u32, weldrika_check_pool_u32, weldrika_sort_of_term_u32, weldrika_free_vars_u32, weldrika_normal_form_u32,
    weldrika_clause_list_u32, weldrika_check_u32
);
