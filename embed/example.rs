// Reads a text from standard input, checks its batch, and prints the answer and the pairs that were looked at.
mod checker;

use checker::{Park, Refusal, Verdict, MOST_TEXT};
use std::io::{stdin, stdout, Read, Write};
use std::process::ExitCode;

// What is printed, and the status that the program ends with.
fn answer(text: &[u8]) -> Result<(String, u8), Refusal> {
    let (mut park, events) = Park::read(text)?;
    let (mut lines, status) = match park.check(&events)? {
        Verdict::Accepted => ("answer accepted\n".to_string(), 0),
        Verdict::Broken { rule, object } => (format!("answer broken {rule} {object}\n"), 1),
    };
    lines.extend(park.pairs().map(|pair| format!("pair {} {}\n", pair.rule, pair.object)));
    Ok((lines, status))
}

fn stopped(status: u8, why: &str) -> ExitCode {
    eprintln!("{why}");
    ExitCode::from(status)
}

fn main() -> ExitCode {
    let mut text = vec![];
    // with a byte more, a text that is too long is refused and not cut
    match stdin().take(MOST_TEXT as u64 + 1).read_to_end(&mut text) {
        Err(_) => return stopped(66, "standard input cannot be read"),
        Ok(0) => return stopped(65, "standard input is empty: nothing to check"),
        Ok(_) => (),
    }
    let (lines, status) = answer(&text).unwrap_or_else(|refusal| {
        eprintln!("{refusal}");
        (format!("answer refused {} {}\n", refusal.number.code(), refusal.place), 2)
    });
    match stdout().write_all(lines.as_bytes()).and_then(|()| stdout().flush()) {
        Err(_) => stopped(74, "the answer cannot be written"),
        Ok(()) => ExitCode::from(status),
    }
}
