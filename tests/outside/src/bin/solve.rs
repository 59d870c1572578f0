//! Reads a sheet on standard input and prints what the box should print: the division, with the argument
//! `strict` the strict text, with `judge` the judgement of the division behind the sheet, or `(refused N)`.

use std::io::{Read, Write};

use outside::judging::judge::judge;
use outside::printer::{output, shareout};
use outside::strict::strict;

fn main() -> std::io::Result<()> {
    let solve = match std::env::args().nth(1).as_deref() {
        None => shareout,
        Some("strict") => strict,
        Some("judge") => judge,
        Some(other) => panic!("no such argument: {other}"),
    };
    let mut text = Vec::new();
    std::io::stdin().read_to_end(&mut text)?;
    std::io::stdout().write_all(&output(solve(&text)))
}
