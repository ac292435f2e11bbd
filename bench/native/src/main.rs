//! An ordinary Rust program that answers messages as `desk lines` and `desk hear` do, for comparison. Nothing is proved of it.
//!
//!     native-desk [--file FILE] [--addresses N] < LINES

mod answer;
mod file;
mod message;
mod radio;
mod registry;
mod stored_text;

use file::File;
use registry::Registry;
use std::error::Error;
use std::io::{self, BufRead, BufWriter, Write};
use std::process::ExitCode;

struct Options {
    file: Option<String>,
    addresses: usize,
}

/// The options, if the arguments are in order.
fn options(mut arguments: impl Iterator<Item = String>) -> Option<Options> {
    let mut options = Options { file: None, addresses: 65_536 };
    while let Some(option) = arguments.next() {
        match option.as_str() {
            "--file" => options.file = Some(arguments.next()?),
            "--addresses" => options.addresses = arguments.next()?.parse().ok()?,
            _ => return None,
        }
    }
    Some(options)
}

/// Hands each line of standard input that isn't empty to `answer`.
fn each_line(mut answer: impl FnMut(&[u8]) -> Result<(), Box<dyn Error>>) -> Result<(), Box<dyn Error>> {
    let mut input = io::stdin().lock();
    let mut line = Vec::new();
    while input.read_until(b'\n', &mut line)? > 0 {
        let text = line.strip_suffix(b"\n").unwrap_or(&line);
        if !text.is_empty() {
            answer(text)?;
        }
        line.clear();
    }
    Ok(())
}

fn run(options: &Options) -> Result<(), Box<dyn Error>> {
    if let Some(path) = &options.file {
        let mut file = File::open(path, "desk", "office", options.addresses)?;
        // Each answer goes out when its message is on the disk: standard output is flushed at each LF.
        let mut output = io::stdout().lock();
        return each_line(|text| {
            let mut answer = file.deliver(text)?;
            answer.push(b'\n');
            Ok(output.write_all(&answer)?)
        });
    }
    let mut output = BufWriter::new(io::stdout().lock());
    let mut registry = Registry::new("desk", "office", options.addresses);
    each_line(|text| {
        output.write_all(&registry.deliver(text))?;
        Ok(output.write_all(b"\n")?)
    })?;
    Ok(output.flush()?)
}

fn main() -> ExitCode {
    let Some(options) = options(std::env::args().skip(1)) else {
        eprintln!("native-desk [--file FILE] [--addresses N] < LINES");
        return ExitCode::from(2);
    };
    match run(&options) {
        Ok(()) => ExitCode::SUCCESS,
        Err(error) => {
            eprintln!("native-desk: {error}");
            ExitCode::FAILURE
        }
    }
}
