//! How a comparison ends.

use std::process::ExitCode;

/// 0 without a difference, else the first one and 1.
pub fn verdict(result: Result<(), String>) -> ExitCode {
    match result {
        Ok(()) => {
            println!("not one difference");
            ExitCode::SUCCESS
        }
        Err(difference) => {
            println!("{difference}");
            ExitCode::FAILURE
        }
    }
}
