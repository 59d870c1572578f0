//! Checks the expected output of the program `samples` in its crate's folder; ends with 1 and says what is
//! wrong at the first byte that is not as due, or if a sample file is not listed or missing.
//! `check_samples FOLDER`

use std::path::Path;
use std::process::ExitCode;

use outside::expected::check;
use outside::verdict::verdict;

fn main() -> ExitCode {
    let folder = std::env::args().nth(1).expect("an argument names the folder");
    verdict(check(Path::new(&folder)).map(|number| println!("{number} sample texts")))
}
