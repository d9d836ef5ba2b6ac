//! How a tool ends.

use std::process::ExitCode;

/// Prints a summary, or what was found; the status is 1 if something was.
pub fn verdict(result: Result<String, String>) -> ExitCode {
    match result {
        Ok(summary) => {
            println!("{summary}");
            ExitCode::SUCCESS
        }
        Err(finding) => {
            println!("{finding}");
            ExitCode::FAILURE
        }
    }
}
