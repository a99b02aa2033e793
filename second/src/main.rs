//! Runs a script: `second [FILE]`, or from standard input without FILE or with `-`.
//! `second --make-packs FOLDER` writes the sample packs to FOLDER/packs.

use second::sample_packs;
use second::script::Machine;
use std::io::{self, BufWriter, Read, Write};
use std::path::Path;
use std::process::ExitCode;

fn script(name: &str) -> io::Result<Vec<u8>> {
    let mut bytes = Vec::new();
    if name == "-" {
        io::stdin().read_to_end(&mut bytes)?;
    } else {
        bytes = std::fs::read(name)?;
    }
    Ok(bytes)
}

fn run(name: &str) -> io::Result<()> {
    let bytes = script(name)?;
    let mut machine = Machine::new(Path::new("."));
    let mut output = BufWriter::new(io::stdout().lock());
    for text in String::from_utf8_lossy(&bytes).split('\n') {
        for answer in machine.line(text) {
            writeln!(output, "{answer}")?;
        }
    }
    output.flush()
}

fn main() -> ExitCode {
    let arguments: Vec<String> = std::env::args().skip(1).collect();
    let words: Vec<&str> = arguments.iter().map(String::as_str).collect();
    let (name, outcome) = match words.as_slice() {
        ["--make-packs", folder] => (*folder, sample_packs::write_all(Path::new(folder))),
        [] => ("-", run("-")),
        [name] => (*name, run(name)),
        _ => {
            eprintln!("usage: second [FILE] | second --make-packs FOLDER");
            return ExitCode::from(2);
        }
    };
    match outcome {
        Ok(()) => ExitCode::SUCCESS,
        Err(error) => {
            eprintln!("second: {name}: {error}");
            ExitCode::FAILURE
        }
    }
}
