//! Holds the library's exact division of a text against the solver. Which of several divisions is shown
//! is left free: the solver judges the line that comes in a large buffer, and that line is then due, to
//! the byte, for that text in every buffer.

use super::line::shown;
use super::met::Met;
use crate::harness::{Due, Entry, Solver, LARGE_BUFFER};
use crate::printer;
use crate::reader::{read, Sheet};

/// Judges what the entry shows.
pub struct Judge<'a> {
    entry: Entry<'a>,
    pub met: Met,
}

impl<'a> Judge<'a> {
    pub fn new(entry: Entry<'a>) -> Judge<'a> {
        Judge { entry, met: Met::default() }
    }

    /// The line that comes for the text of a sheet, if it is right.
    fn right_line(&mut self, sheet: &Sheet, text: &[u8]) -> Result<Vec<u8>, String> {
        let (mut buffer, mut length) = (vec![0; LARGE_BUFFER], 0);
        let number = (self.entry)(text, &mut buffer, &mut length);
        let line = match (number, buffer.get(..length)) {
            (0, Some(line)) => line,
            (0, None) => return Err(format!("a length of {length}")),
            _ => return Err(format!("an accepted text gives {number}")),
        };
        judge_line(&mut self.met, sheet, line)?;
        Ok(line.to_vec())
    }
}

/// An error says what is wrong with the line for a sheet.
fn judge_line(met: &mut Met, sheet: &Sheet, line: &[u8]) -> Result<(), String> {
    let due = met.solve(sheet)?;
    let judged = match shown(line) {
        Some(shown) => met.judge(sheet, &due, &shown),
        None => Err("not a line".to_owned()),
    };
    judged.map_err(|wrong| format!("{wrong}: {}", line.escape_ascii()))
}

/// An error says what is wrong with a program's output for a text.
pub fn judge_output(text: &[u8], output: &[u8]) -> Result<(), String> {
    match read(text) {
        Ok(sheet) => judge_line(&mut Met::default(), &sheet, output),
        Err(refusal) if output == printer::output(Err(refusal)) => Ok(()),
        Err(refusal) => Err(format!("refusal {refusal} is due: {}", output.escape_ascii())),
    }
}

impl Solver for Judge<'_> {
    const GIVES_ITSELF: bool = false;

    fn solve(&mut self, text: &[u8]) -> Result<Due, String> {
        match read(text) {
            Ok(sheet) => match self.right_line(&sheet, text) {
                Ok(line) => Ok(Due::Text(line)),
                Err(wrong) => Err(format!("{wrong}\n{}", text.escape_ascii())),
            },
            Err(refusal) => Ok(Due::Refused(refusal)),
        }
    }
}

#[cfg(test)]
mod tests {
    use super::judge_output;
    use crate::samples::SHEET_A;

    /// What is wrong with this output for sheet a with this change.
    fn fault(old: &str, new: &str, output: &str) -> String {
        let text = SHEET_A.replace(old, new);
        judge_output(text.as_bytes(), output.as_bytes()).err().unwrap_or_default()
    }

    #[test]
    fn outputs_are_judged() {
        assert_eq!(fault("", "", "(exact (1) (2 3))\n"), "");
        assert_eq!(fault("", "", "(exact (2 3) (1))\n"), "");
        assert_eq!(
            fault("", "", "(exact (3) (1 2))\n"),
            "yard 1 has 4 of its 5: (exact (3) (1 2))\\n"
        );
        assert_eq!(fault("", "", "(exact (1) (2 3))"), "not a line: (exact (1) (2 3))");
        assert_eq!(
            fault("", "", "(exact none)\n"),
            "none came, though there is [[1, 2], [0]]: (exact none)\\n"
        );
        assert_eq!(fault("", "", "(refused 4)\n"), "not a line: (refused 4)\\n");
        assert_eq!(fault("yards 2", "yards 7", "(refused 4)\n"), "");
        assert_eq!(
            fault("yards 2", "yards 7", "(refused 5)\n"),
            "refusal 4 is due: (refused 5)\\n"
        );
        assert_eq!(fault("(end)", "", "(exact none)\n"), "refusal 7 is due: (exact none)\\n");
    }
}
