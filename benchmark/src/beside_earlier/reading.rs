//! The table of texts: reading alone, reading and writing, and reading, dividing and printing.

use std::cell::RefCell;

use super::compare;
use crate::boundary::Written;
use crate::division::Table;
use crate::families::{tables, FAMILIES, ROWS};
use crate::placed::{EARLIER, PLACES, TODAY};
use crate::texts;

/// As long as the longest text that is read.
const BUFFER: usize = 4_096;

/// An entry over a text, given its place.
type Entry = fn(usize, &str, &mut [u8]) -> Written;

/// What is timed: the entries, the text of a table, and the refusal and the text due for it.
struct Work {
    name: &'static str,
    texts: usize,
    earlier: Entry,
    today: Entry,
    text: fn(&Table) -> String,
    due: fn(&Table) -> (u8, String),
}

const WORKS: [Work; 3] = [
    Work {
        name: "reading",
        texts: ROWS,
        earlier: |place, text, buffer| EARLIER.share_out(place, text, buffer),
        today: |place, text, buffer| TODAY.share_out(place, text, buffer),
        text: texts::sheet_without_end,
        due: |_| (7, String::new()),
    },
    Work {
        name: "reading, writing",
        texts: ROWS,
        earlier: |place, text, buffer| EARLIER.write_strict(place, text, buffer),
        today: |place, text, buffer| TODAY.write_strict(place, text, buffer),
        text: texts::sheet,
        due: |table| (0, texts::sheet(table)),
    },
    Work {
        name: "reading, dividing, printing",
        texts: 6,
        earlier: |place, text, buffer| EARLIER.share_out(place, text, buffer),
        today: |place, text, buffer| TODAY.share_out(place, text, buffer),
        text: texts::sheet,
        due: |table| (0, texts::division(table)),
    },
];

pub fn print_table() {
    println!("\nReading texts of six yards and twelve pieces: microseconds per text\n");
    println!("| marks | work | texts | earlier | today | today / earlier |");
    println!("|---|---|---|---|---|---|");
    for (name, rule) in FAMILIES {
        for work in &WORKS {
            let columns = columns(work, &tables(rule)[..work.texts]);
            println!("| {name} | {} | {} | {columns} |", work.name, work.texts);
        }
    }
}

fn columns(work: &Work, tables: &[Table]) -> String {
    let texts: Vec<String> = tables.iter().map(work.text).collect();
    let due: Vec<(u8, String)> = tables.iter().map(work.due).collect();
    let buffer = &RefCell::new([0; BUFFER]);
    let [earlier, today] = [work.earlier, work.today]
        .map(|entry| move |place, text: &String| entry(place, text, &mut *buffer.borrow_mut()));
    check(work.today, &texts, &due);
    check(work.earlier, &texts, &due);
    compare(&texts, &earlier, &today)
}

/// The run fails if an entry answers or writes something else than is due.
fn check(entry: Entry, texts: &[String], due: &[(u8, String)]) {
    for (text, due) in texts.iter().zip(due) {
        for place in 0..PLACES {
            let mut buffer = [0; BUFFER];
            let written = entry(place, text, &mut buffer);
            let bytes = String::from_utf8_lossy(&buffer[..written.length]).into_owned();
            assert_eq!((written.refusal, bytes), *due, "{text}");
        }
    }
}
