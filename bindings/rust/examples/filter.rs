//! Writes what the policy `Color` admits of standard input, and nothing else, as it comes.
use escape_stream::{Filter, Policy};
use std::io;

fn main() -> io::Result<()> {
    let mut output = Filter::new(io::stdout().lock(), Policy::Color)?;
    io::copy(&mut io::stdin().lock(), &mut output)?;
    output.finish()
}
