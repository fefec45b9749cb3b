//! The program: its exit status is 0, 1 or 2, unless it is killed or memory runs out.

use std::panic;
use std::process::ExitCode;
use tirfolma::output::Status;

fn main() -> ExitCode {
    // A defect of ours, which says where it is, must not look like an answer.
    let status = panic::catch_unwind(|| tirfolma::run(std::env::args_os().skip(1).collect())).unwrap_or(Status::Failed);
    ExitCode::from(status as u8)
}
