//! Reads one blob from standard input and writes its cells, or a refusal.
//! Exit status: 0 decoded, 1 refused, 2 not run, 3 the output was lost.

use std::io::{self, Read, Write};
use std::process::ExitCode;

use second::{program_text, MOST_BYTES};

fn main() -> ExitCode {
    if std::env::args().len() > 1 {
        eprintln!("second: no word is known; the blob comes from standard input");
        return ExitCode::from(2);
    }
    let mut blob = Vec::new();
    // One byte more than is taken shows that the input is too long. An input
    // that fails ends where it fails.
    let most = MOST_BYTES as u64 + 1;
    let _ = io::stdin().lock().take(most).read_to_end(&mut blob);
    let text = program_text(&blob);
    // An output that is closed from the start counts as written: Rust opens
    // one to nowhere in its place.
    let mut out = io::stdout().lock();
    let written = out.write_all(text.as_bytes()).and_then(|()| out.flush());
    match written {
        Err(error) => {
            eprintln!("second: the output was lost: {error}");
            ExitCode::from(3)
        }
        Ok(()) if text.starts_with("refused") => ExitCode::FAILURE,
        Ok(()) => ExitCode::SUCCESS,
    }
}
