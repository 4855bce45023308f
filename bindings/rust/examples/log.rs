//! Writes a log from standard input so that it is safe to print, as the program `escfilter` does,
//! and says how much of it passed.
use escape_stream::{Policy, SanitizerOptions, SanitizerWriter};
use std::io;

fn main() -> io::Result<()> {
    let options = SanitizerOptions::new(Policy::Color);
    let mut log = SanitizerWriter::new(io::stdout().lock(), options)?;
    io::copy(&mut io::stdin().lock(), &mut log)?;
    log.finish()?;
    let account = log.account()?;
    eprintln!("{} of {} bytes passed", account.passed, account.length);
    Ok(())
}
