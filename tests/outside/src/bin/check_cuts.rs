//! Checks the expected output of the program `cut_samples`, which stands in a file; ends with 1 and shows the
//! first line that is not as due.
//! `check_cuts FILE`

use std::process::ExitCode;

use outside::cuts::samples::check;
use outside::verdict::verdict;

fn main() -> std::io::Result<ExitCode> {
    let file = std::env::args().nth(1).expect("an argument names the file");
    let expected = std::fs::read_to_string(file)?;
    Ok(verdict(check(&expected).map(|number| println!("{number} cuts"))))
}
