// SPDX-License-Identifier: MIT
//! A log pipeline over tokio: a task for each log filters it line by line, and sends the lines to
//! the one that writes them. So no line is cut by one of another log, and no string that a log
//! leaves unfinished takes a line away.
use escape_stream::{Account, Policy, Sanitizer, SanitizerOptions};
use tokio::fs::File;
use tokio::io::{self, AsyncBufReadExt, AsyncRead, AsyncWriteExt, BufReader};
use tokio::sync::mpsc::{self, Sender};

async fn clean(log: impl AsyncRead + Unpin, lines: Sender<Vec<u8>>) -> io::Result<Account> {
    let mut log = BufReader::new(log);
    let mut sanitizer = Sanitizer::new(SanitizerOptions::new(Policy::Color))?;
    let mut line = Vec::new();
    loop {
        line.clear();
        let is_end = log.read_until(b'\n', &mut line).await? == 0;
        if is_end {
            sanitizer.finish()?;
        } else {
            sanitizer.feed(&line)?;
        }
        let mut text = Vec::new();
        sanitizer.output(|part| text.extend_from_slice(part));
        if !text.is_empty() && lines.send(text).await.is_err() || is_end {
            return Ok(sanitizer.account()?);
        }
    }
}

#[tokio::main]
async fn main() -> io::Result<()> {
    let (sender, mut lines) = mpsc::channel(64);
    let mut tasks = Vec::new();
    for name in std::env::args().skip(1) {
        let log = File::open(&name).await?;
        tasks.push((name, tokio::spawn(clean(log, sender.clone()))));
    }
    drop(sender);
    let mut output = io::stdout();
    while let Some(line) = lines.recv().await {
        output.write_all(&line).await?;
    }
    output.flush().await?;
    for (name, task) in tasks {
        let account = task.await.map_err(io::Error::other)??;
        eprintln!(
            "{name}: {} of {} bytes passed",
            account.passed, account.length
        );
    }
    Ok(())
}
