//! Reads a sheet on standard input and judges what the program `exact` printed for it, which stands in a
//! file; ends with 1 and says what is wrong unless that is an exact division, none or the refusal, as due.
//! `judge_exact FILE <SHEET`

use std::io::Read;
use std::process::ExitCode;

use outside::exact::texts::judge_output;

fn main() -> std::io::Result<ExitCode> {
    let file = std::env::args().nth(1).expect("an argument names the file");
    let mut text = Vec::new();
    std::io::stdin().read_to_end(&mut text)?;
    match judge_output(&text, &std::fs::read(file)?) {
        Ok(()) => Ok(ExitCode::SUCCESS),
        Err(wrong) => {
            println!("{wrong}");
            Ok(ExitCode::FAILURE)
        }
    }
}
