//! What `vxcol` does, as one would write it in plain Rust over `serde_json`: a job on standard input, its page or its
//! refusal on standard output. It is what `vxcol` is measured against, and proves nothing.

mod column;
mod dtype;
mod elementwise;
mod flat;
mod index;
mod job;
mod layout;
mod lookup;
mod open;
mod plan;
mod refusal;
mod rules;

use std::io::{self, BufWriter, Read, Write};
use std::process::ExitCode;

/// The most bytes that a job may have.
const LIMIT: usize = 67_108_864;

enum Ending {
    Ok,
    Refused,
    Usage,
    NotAJob,
    ReadFault,
    WriteFault,
    TooLong,
}

impl Ending {
    fn code(&self) -> u8 {
        match self {
            Ending::Ok => 0,
            Ending::Refused => 1,
            Ending::Usage => 2,
            Ending::NotAJob => 3,
            Ending::ReadFault => 4,
            Ending::WriteFault => 5,
            Ending::TooLong => 7,
        }
    }
}

fn read_bytes() -> Result<Vec<u8>, Ending> {
    let mut bytes = Vec::new();
    let mut source = io::stdin().lock().take(LIMIT as u64 + 1);
    source.read_to_end(&mut bytes).map_err(|_| Ending::ReadFault)?;
    if bytes.len() > LIMIT {
        return Err(Ending::TooLong);
    }
    Ok(bytes)
}

fn write_line(value: &impl serde::Serialize) -> io::Result<()> {
    let mut sink = BufWriter::new(io::stdout().lock());
    serde_json::to_writer(&mut sink, value)?;
    sink.write_all(b"\n")?;
    sink.flush()
}

fn run() -> Result<Ending, Ending> {
    let words: Vec<_> = std::env::args_os().skip(1).collect();
    if !(words.is_empty() || words == ["run"]) {
        return Err(Ending::Usage);
    }
    let job = job::read(&read_bytes()?).ok_or(Ending::NotAJob)?;
    let (written, ending) = match plan::run(job) {
        Ok(page) => (write_line(&page), Ending::Ok),
        Err(refusal) => (write_line(&refusal.to_json()), Ending::Refused),
    };
    written.map_err(|_| Ending::WriteFault)?;
    Ok(ending)
}

fn main() -> ExitCode {
    let (Ok(ending) | Err(ending)) = run();
    ExitCode::from(ending.code())
}
