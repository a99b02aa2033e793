//! Writes random scripts: `generate FOLDER SEED [COUNT]` makes FOLDER/packs and
//! one FOLDER/SEED.script for each seed. Run them with FOLDER as current folder.

use second::generator::generate;
use second::sample_packs;
use second::tally::Tally;
use std::io;
use std::path::Path;
use std::process::ExitCode;

fn write_scripts(folder: &Path, first: u64, count: u64) -> io::Result<()> {
    sample_packs::write_all(folder)?;
    let mut tally = Tally::default();
    for seed in first..first + count {
        let generated = generate(seed, folder, &mut tally);
        let text = generated.script.join("\n") + "\n";
        std::fs::write(folder.join(format!("{seed}.script")), text)?;
        for saved in ["saved.pack", "last.pack"] {
            // Left by the script's own run; most scripts save nothing.
            let _ = std::fs::remove_file(folder.join(saved));
        }
    }
    Ok(())
}

fn main() -> ExitCode {
    let arguments: Vec<String> = std::env::args().skip(1).collect();
    let number = |index: usize| arguments.get(index).map_or(Some(1), |word| word.parse().ok());
    let (Some(folder), Some(seed), Some(count), 2..=3) =
        (arguments.first(), number(1), number(2), arguments.len())
    else {
        eprintln!("usage: generate FOLDER SEED [COUNT]");
        return ExitCode::from(2);
    };
    match write_scripts(Path::new(folder), seed, count) {
        Ok(()) => ExitCode::SUCCESS,
        Err(error) => {
            eprintln!("generate: {folder}: {error}");
            ExitCode::FAILURE
        }
    }
}
