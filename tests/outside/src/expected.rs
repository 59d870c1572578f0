//! Checks the expected output of the program `samples`, every byte of it: for each sample text its name,
//! what each program prints for it, and that a buffer one byte shorter than that is refused. Which exact
//! division is shown is left free, so that line is judged.

mod listed;

use std::path::Path;

use crate::exact::texts::judge_output;
use crate::judging::judge::judge;
use crate::printer::{output, shareout};
use crate::reader::read;
use crate::strict::strict;
use listed::{content, listed};

/// The text that a program prints, or the refusal's number.
type Answer = Result<Vec<u8>, u8>;

/// What is due for a text, where the expected output goes on like this; an error says what is wrong there.
type Solve = fn(&[u8], &[u8]) -> Result<Answer, String>;

/// In the order in which their answers stand.
const PROGRAMS: [(&str, Solve); 4] = [
    ("shareout", |text, _| Ok(shareout(text))),
    ("strict", |text, _| Ok(strict(text))),
    ("exact", exact),
    ("judge", |text, _| Ok(judge(text))),
];

/// Checks the file `stdout` in a crate's folder, by the files that stand in `data` and are listed in `args`;
/// gives the number of these.
pub fn check(folder: &Path) -> Result<usize, String> {
    let expected = content(&folder.join("stdout"))?;
    let samples = listed(folder)?;
    let mut rest = &expected[..];
    for (name, text) in &samples {
        rest = after_sample(name, text, rest).map_err(|wrong| format!("{name}: {wrong}"))?;
    }
    match (samples.len(), rest) {
        (0, _) => Err("no sample".to_owned()),
        (number, b"") => Ok(number),
        _ => Err(format!("behind the last sample: {}", rest.escape_ascii())),
    }
}

/// What stands behind the lines of a sample, if these are as due.
fn after_sample<'a>(name: &str, text: &[u8], expected: &'a [u8]) -> Result<&'a [u8], String> {
    let mut rest = after(format!("{name}\n").as_bytes(), expected)?;
    for (program, solve) in PROGRAMS {
        rest = after(format!("{program}: ").as_bytes(), rest)?;
        rest = after(&lines(solve(text, rest)?), rest)?;
    }
    Ok(rest)
}

/// What stands behind the bytes that are due.
fn after<'a>(due: &[u8], came: &'a [u8]) -> Result<&'a [u8], String> {
    came.strip_prefix(due).ok_or_else(|| {
        let came = &came[..due.len().min(came.len())];
        format!("due {}\ncame {}", due.escape_ascii(), came.escape_ascii())
    })
}

/// What is printed, and behind a text that a buffer one byte shorter is refused.
fn lines(answer: Answer) -> Vec<u8> {
    let shorter = match &answer {
        Ok(text) => {
            [format!("in {} bytes: ", text.len() - 1).into_bytes(), output(Err(10))].concat()
        }
        Err(_) => Vec::new(),
    };
    [output(answer), shorter].concat()
}

/// The line that comes, if it is right for the text.
fn exact(text: &[u8], came: &[u8]) -> Result<Answer, String> {
    let line = came.split_inclusive(|byte| *byte == b'\n').next().unwrap_or_default();
    judge_output(text, line)?;
    Ok(read(text).map(|_| line.to_vec()))
}

#[cfg(test)]
mod tests;
