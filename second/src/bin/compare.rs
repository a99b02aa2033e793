//! Holds a program to the examples and to the second program.
//!
//!     compare [--folder DIR] examples [PROGRAM ARGUMENTS...]
//!     compare [--folder DIR] [--batch N] random FIRST COUNT PROGRAM ARGUMENTS...
//!     compare [--folder DIR] count COUNT
//!     compare [--folder DIR] table COUNT
//!
//! Run it from the repository's root, where `examples` is. Without PROGRAM the
//! examples are run by the second program itself. `count` tells what came too
//! seldom in so many random scripts, `table` all the counts, too.

use second::comparison::{compared, first_difference, our_run, remove_saved, saved_files, shorten, Program};
use second::generator::{generate, Generated};
use second::sample_packs;
use second::tally::Tally;
use std::error::Error;
use std::path::{Path, PathBuf};
use std::process::ExitCode;

const USAGE: &str = "usage: compare [--folder DIR] [--batch N] \
    examples [PROGRAM...] | random FIRST COUNT PROGRAM... | count COUNT | table COUNT";

type Outcome = Result<bool, Box<dyn Error>>;

/// Lines that bring the machine back to its start between joined scripts.
const BACK_TO_START: [&str; 3] = ["storage plain 65536", "pack fresh 2", "device 00"];

struct Options {
    folder: PathBuf,
    own_folder: bool,
    batch: u64,
    rest: Vec<String>,
}

fn options() -> Result<Options, Box<dyn Error>> {
    let mut rest: Vec<String> = std::env::args().skip(1).collect();
    let folder = std::env::temp_dir().join(format!("second-{}", std::process::id()));
    let mut options = Options { folder, own_folder: true, batch: 1, rest: Vec::new() };
    while rest.len() > 1 && rest[0].starts_with("--") {
        match rest[0].as_str() {
            "--folder" => (options.folder, options.own_folder) = (PathBuf::from(&rest[1]), false),
            "--batch" => options.batch = rest[1].parse()?,
            other => return Err(format!("no option {other}").into()),
        }
        rest.drain(..2);
    }
    options.rest = rest;
    Ok(options)
}

/// Two folders alike, one for us and one for the program under test.
fn folders(options: &Options) -> Result<(PathBuf, PathBuf), Box<dyn Error>> {
    let (ours, theirs) = (options.folder.join("ours"), options.folder.join("theirs"));
    for folder in [&ours, &theirs] {
        sample_packs::write_all(folder)?;
        remove_saved(folder)?;
    }
    Ok((ours, theirs))
}

fn program(words: &[String], folder: &Path) -> Result<Program, Box<dyn Error>> {
    let mut words = words.to_vec();
    if words[0].contains('/') {
        let path = std::fs::canonicalize(&words[0]).map_err(|error| format!("{}: {error}", words[0]))?;
        words[0] = path.display().to_string();
    }
    Ok(Program { words, folder: folder.canonicalize()? })
}

// ---- examples ----

fn example_names() -> Result<Vec<PathBuf>, Box<dyn Error>> {
    let mut scripts: Vec<PathBuf> = std::fs::read_dir("examples")?
        .map(|entry| entry.map(|entry| entry.path()))
        .collect::<Result<_, _>>()?;
    scripts.retain(|path| path.extension().is_some_and(|extension| extension == "script"));
    scripts.sort();
    Ok(scripts)
}

fn examples(options: &Options, words: &[String]) -> Outcome {
    let (ours, theirs) = folders(options)?;
    let program = if words.is_empty() { None } else { Some(program(words, &theirs)?) };
    let scripts = example_names()?;
    for path in &scripts {
        let script = std::fs::read_to_string(path)?;
        let expected: Vec<String> =
            std::fs::read_to_string(path.with_extension("expected"))?.lines().map(str::to_string).collect();
        let mut answers = match &program {
            Some(program) => program.run(&script)?,
            None => our_run(&script, &ours)?,
        };
        answers.retain(|answer| !answer.starts_with("(saved "));
        if let Some(index) = first_difference(&expected, &answers) {
            println!("{}: answer {} differs", path.display(), index + 1);
            tell("expected", &expected, index);
            tell("answered", &answers, index);
            return Ok(false);
        }
    }
    println!("{} examples alike", scripts.len());
    Ok(!scripts.is_empty())
}

fn tell(who: &str, answers: &[String], index: usize) {
    let answer = answers.get(index).map_or("(no line)", |answer| compared(answer));
    println!("  {who}: {answer}");
}

// ---- random scripts ----

/// The scripts of some seeds as one, with a return to the start between them.
fn joined(seeds: std::ops::Range<u64>, folder: &Path) -> Result<Generated, Box<dyn Error>> {
    let mut tally = Tally::default();
    let one = seeds.end - seeds.start == 1;
    let mut script = Vec::new();
    for seed in seeds {
        remove_saved(folder)?;
        let generated = generate(seed, folder, &mut tally);
        if one {
            let mut answers = generated.answers;
            answers.extend(saved_files(folder)?);
            return Ok(Generated { script: generated.script, answers });
        }
        script.extend(generated.script);
        script.extend(BACK_TO_START.map(str::to_string));
    }
    let answers = our_run(&script.join("\n"), folder)?;
    Ok(Generated { script, answers })
}

fn random(options: &Options, first: u64, count: u64, words: &[String]) -> Outcome {
    let (ours, theirs) = folders(options)?;
    let program = program(words, &theirs)?;
    let (mut lines, mut seed) = (0, first);
    while seed < first + count {
        let end = (seed + options.batch.max(1)).min(first + count);
        let Generated { script, answers } = joined(seed..end, &ours)?;
        lines += script.len();
        if first_difference(&answers, &program.run(&script.join("\n"))?).is_some() {
            println!("seeds {seed} to {}: a difference; shortening the script", end - 1);
            report(&script, &ours, &program)?;
            return Ok(false);
        }
        seed = end;
    }
    if saved_files(&ours.join("packs"))? != saved_files(&theirs.join("packs"))? {
        println!("the program changed a pack file that it opened");
        return Ok(false);
    }
    println!("{count} scripts of {lines} lines alike, seeds {first} to {}", first + count - 1);
    Ok(true)
}

fn report(script: &[String], ours: &Path, program: &Program) -> Result<(), Box<dyn Error>> {
    let both = |lines: &[String]| -> Result<(Vec<String>, Vec<String>), std::io::Error> {
        let text = lines.join("\n");
        Ok((our_run(&text, ours)?, program.run(&text)?))
    };
    let short = shorten(script, |lines| {
        both(lines).is_ok_and(|(one, other)| first_difference(&one, &other).is_some())
    });
    let (one, other) = both(&short)?;
    println!("---- script");
    short.iter().for_each(|line| println!("{line}"));
    println!("---- second program");
    one.iter().for_each(|line| println!("{line}"));
    println!("---- program under test");
    other.iter().for_each(|line| println!("{line}"));
    println!("---- first difference");
    match first_difference(&one, &other) {
        Some(index) => {
            tell("second program", &one, index);
            tell("program under test", &other, index);
        }
        None => {
            println!("  none in the shortened script: the program does not answer alike each time")
        }
    }
    Ok(())
}

// ---- counts ----

fn count(options: &Options, scripts: u64, whole_table: bool) -> Outcome {
    let (ours, _) = folders(options)?;
    let mut tally = Tally::default();
    for seed in 0..scripts {
        remove_saved(&ours)?;
        generate(seed, &ours, &mut tally);
    }
    let (table, too_seldom) = tally.report(scripts);
    if whole_table {
        table.iter().for_each(|line| println!("{line}"));
    }
    too_seldom.iter().for_each(|line| println!("too seldom: {line}"));
    println!(
        "{scripts} scripts with {} calls and other answered lines; {} counts too low",
        tally.lines,
        too_seldom.len()
    );
    Ok(too_seldom.is_empty())
}

fn run(options: &Options) -> Outcome {
    let words: Vec<&str> = options.rest.iter().map(String::as_str).collect();
    match words.as_slice() {
        ["examples", ..] => examples(options, &options.rest[1..]),
        ["random", first, number, _, ..] => {
            random(options, first.parse()?, number.parse()?, &options.rest[3..])
        }
        ["count", number] => count(options, number.parse()?, false),
        ["table", number] => count(options, number.parse()?, true),
        _ => Err(USAGE.into()),
    }
}

fn main() -> ExitCode {
    let outcome = options().and_then(|options| {
        let outcome = run(&options);
        if options.own_folder && options.folder.exists() {
            std::fs::remove_dir_all(&options.folder)?;
        }
        outcome
    });
    match outcome {
        Ok(true) => ExitCode::SUCCESS,
        Ok(false) => ExitCode::FAILURE,
        Err(error) => {
            eprintln!("compare: {error}");
            ExitCode::from(2)
        }
    }
}
