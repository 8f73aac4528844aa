//! Checks the step of the README's example against three rules, lists the clauses of its conclusion, and answers the step files that are
//! named.
mod weldrika;

use weldrika::{byte_tags, word_tags, CELLS, CLAUSES, LITERALS};

const USED: usize = 18;
const CONCLUSION: u32 = 14;
const TAGS: [u8; USED] = [1, 21, 0, 0, 23, 0, 0, 0, 0, 23, 0, 0, 0, 0, 39, 0, 0, 0];
const VALUES: [u32; USED] = [0, 2, 0, 1, 4, 0, 1, 1, 0, 4, 0, 4, 1, 0, 3, 0, 9, 4];

fn main() -> std::io::Result<()> {
    steps();
    clauses();
    for path in std::env::args().skip(1) {
        print!("{path}:\n{}", weldrika::answer_file(&std::fs::read(&path)?));
    }
    Ok(())
}

/// The conclusion against three rules, with tags in bytes.
fn steps() {
    let (mut tags, mut values) = ([0; CELLS], [0; CELLS]);
    tags[..USED].copy_from_slice(&TAGS);
    values[..USED].copy_from_slice(&VALUES);
    let table = weldrika::built_in_table();
    for rule in 1..=3 {
        let answer = byte_tags::check(&mut tags, &mut values, &table, USED, rule, &[CONCLUSION]);
        let word = if answer.is_accepted() { "accepted" } else { "refused" };
        println!("rule {rule}: {word}, {} {} {}", answer.code, answer.first, answer.second);
    }
}

/// The clauses of the conclusion, with tags in 32 bits.
fn clauses() {
    let (mut tags, mut values) = ([0; CELLS], [0; CELLS]);
    for (tag, byte) in tags.iter_mut().zip(TAGS) {
        *tag = u32::from(byte);
    }
    values[..USED].copy_from_slice(&VALUES);
    let table = weldrika::built_in_table();
    let (mut literals, mut ends) = ([0; LITERALS], [0; CLAUSES]);
    let (answer, count) =
        word_tags::clause_list(&mut tags, &mut values, &table, USED, CONCLUSION, &mut literals, &mut ends);
    println!("clauses {}, literals {}, cells {count}", answer.first, answer.second);
    let mut start = 0;
    for &end in &ends[..answer.first as usize] {
        println!("clause {:?}", &literals[start..end as usize]);
        start = end as usize;
    }
}
