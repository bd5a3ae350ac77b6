//! The proved listing program, as it was built, against the second program's listing: what it writes for what it reads.

use second::book::HEADER;
use second::chance::Chance;
use second::listing::listing;
use second::made::{self, fresh, sheet_book, SHEET_LISTING};
use std::collections::BTreeMap;
use std::fs::File;
use std::io::{ErrorKind, Write};
use std::path::Path;
use std::process::{Child, Command, Stdio};

/// The built program, on that standard input; run by EMULATOR where that is set, since it is for x86-64.
fn started(input: Stdio) -> Child {
    let program = Path::new(env!("CARGO_MANIFEST_DIR")).join("../../crates/list/out/list");
    assert!(program.is_file(), "crates/list/out/list is missing: run `rt run` in crates/list first");
    let mut command = match std::env::var_os("EMULATOR") {
        Some(emulator) => {
            let mut command = Command::new(emulator);
            command.arg(program);
            command
        }
        None => Command::new(program),
    };
    command.stdin(input).stdout(Stdio::piped()).stderr(Stdio::piped());
    command.spawn().expect("the program starts")
}

/// What it writes to standard output. It reads all that it will read before it writes.
fn printed(input: &[u8]) -> Vec<u8> {
    let mut child = started(Stdio::piped());
    match child.stdin.take().expect("a pipe").write_all(input) {
        // Of an input that is too large it leaves some unread.
        Err(error) if error.kind() == ErrorKind::BrokenPipe && input.len() > 65_537 => (),
        written => written.expect("the program reads"),
    }
    let output = child.wait_with_output().expect("the program ends");
    assert!(output.status.success() && output.stderr.is_empty(), "{output:?}");
    output.stdout
}

/// Both programs write this text.
fn compared(input: &[u8]) -> String {
    let expected = listing(input);
    assert_eq!(String::from_utf8(printed(input)).expect("ASCII"), expected);
    expected
}

/// A record that a book of that overlay and depth may hold.
fn record(chance: &mut Chance, overlay: &[u8; 32], depth: u8, batches: &[[u8; 32]]) -> [u8; 145] {
    let near = match chance.below(4) {
        0 => 256,
        1 => usize::from(depth),
        _ => usize::from(depth) + chance.below(257 - usize::from(depth)),
    };
    let address = chance.sharing(overlay, near);
    let index = [0, (1 << 24) - 1, chance.below(1 << 24), chance.below(12)][chance.below(4)] as u32;
    let time = [0, u64::MAX, chance.word(), chance.word() >> chance.below(64)][chance.below(4)];
    let batch = &batches[chance.below(batches.len())];
    made::record(&made::stamp(batch, made::bucket(&address), index, time, &chance.array()), &address)
}

/// A well-formed book of that capacity that holds so many records.
fn filled(chance: &mut Chance, capacity: usize, count: usize) -> Vec<u8> {
    let overlay: [u8; 32] = chance.array();
    let depth = if chance.once_in(2) { 0 } else { chance.below(17) as u8 };
    let batches: Vec<[u8; 32]> = (0..1 + chance.below(3)).map(|_| chance.array()).collect();
    let mut slots = BTreeMap::new();
    while slots.len() < count {
        let record = record(chance, &overlay, depth, &batches);
        slots.insert(record[..40].to_vec(), record);
    }
    let mut book = fresh(capacity, chance.below(usize::from(depth) + 1) as u64, &overlay);
    book[7] = depth;
    made::holding(book, &slots.into_values().collect::<Vec<_>>())
}

#[test]
fn the_settled_example() {
    assert_eq!(compared(&sheet_book()), SHEET_LISTING);
}

#[test]
fn books_without_records() {
    assert_eq!(compared(&fresh(16, 0, &[0; 32])), "RSV 1 good 0 0 0 16\n");
    assert_eq!(compared(&fresh(451, 16, &[0; 32])), "RSV 1 good 16 16 0 451\n");
    let mut overfull = fresh(100, 3, &[0; 32]);
    overfull[5] = 1;
    overfull[7] = 16;
    assert_eq!(compared(&overfull), "RSV 1 overfull 3 16 0 100\n");
}

#[test]
fn the_longest_text() {
    let mut chance = Chance::new(451);
    let book = filled(&mut chance, 451, 451);
    assert_eq!(book.len(), 65_443);
    assert_eq!(compared(&book).lines().count(), 452);
}

#[test]
fn what_is_too_large() {
    let mut chance = Chance::new(452);
    let book = filled(&mut chance, 452, 452);
    assert_eq!(book.len(), 65_588);
    assert_eq!(compared(&book), "too large\n");
    assert_eq!(compared(&[0; 65_537]), "too large\n");
    assert_eq!(compared(&[0; 65_536]), "bad book\n");
}

#[test]
fn what_is_no_book() {
    assert_eq!(compared(&[]), "bad book\n");
    assert_eq!(compared(&[&sheet_book()[..], b"\0"].concat()), "bad book\n");
    assert_eq!(compared(&[&sheet_book()[..], b"\n"].concat()), "bad book\n");
    assert_eq!(compared(&sheet_book()[..sheet_book().len() - 1]), "bad book\n");
}

#[test]
fn random_books() {
    let mut chance = Chance::new(200);
    for _ in 0..200 {
        let capacity = 16 + chance.below(436);
        let count = [chance.below(capacity + 1), chance.below(17), capacity][chance.below(3)];
        let mut book = filled(&mut chance, capacity, count);
        compared(&book);
        // A damaged byte: most often no book, now and then another one.
        let at = [chance.below(book.len()), chance.below(HEADER)][chance.below(2)];
        book[at] ^= 1 << chance.below(8);
        compared(&book);
    }
}

/// A folder opens, and no byte of it can be read.
#[test]
fn a_read_that_fails() {
    let folder = File::open(env!("CARGO_MANIFEST_DIR")).expect("this folder");
    let output = started(folder.into()).wait_with_output().expect("the program ends");
    assert!(output.stdout.is_empty());
    assert!(output.stderr.starts_with(b"standard input: "), "{output:?}");
}
