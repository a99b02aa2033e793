//! Runs a script by us and by another program, and tells where they part.

use crate::script;
use std::io::{self, Read, Write};
use std::path::{Path, PathBuf};
use std::process::{Child, Command, Stdio};
use std::sync::mpsc;
use std::thread;
use std::time::Duration;

/// A program that takes longer for one script has failed.
const LONGEST_RUN: Duration = Duration::from_secs(60);
/// Shortening stops after so many trials.
const MOST_TRIALS: usize = 3000;

/// A program under test. The script comes by standard input, or as a file
/// where a word of the command line is `{}`.
pub struct Program {
    pub words: Vec<String>,
    pub folder: PathBuf,
}

/// A line as it is compared: the reason of an unreadable line is left out.
pub fn compared(line: &str) -> &str {
    match line.find(':') {
        Some(colon) if line.starts_with("? line ") => &line[..colon + 1],
        _ => line.strip_suffix('\r').unwrap_or(line),
    }
}

/// The index of the first answer in which two runs differ.
pub fn first_difference(ours: &[String], theirs: &[String]) -> Option<usize> {
    let alike = |index: &usize| match (ours.get(*index), theirs.get(*index)) {
        (Some(one), Some(other)) => compared(one) == compared(other),
        _ => false,
    };
    (0..ours.len().max(theirs.len())).find(|index| !alike(index))
}

impl Program {
    /// The answers of the program to a script, with a line for each file it saved.
    pub fn run(&self, script: &str) -> io::Result<Vec<String>> {
        remove_saved(&self.folder)?;
        let mut child = self.start(script)?;
        let Some(output) = output_of(&mut child)? else {
            child.kill()?;
            child.wait()?;
            return Ok(vec![format!("(no end within {} seconds)", LONGEST_RUN.as_secs())]);
        };
        let status = child.wait()?;
        let mut answers: Vec<String> = output.lines().map(str::to_string).collect();
        if !status.success() {
            answers.push(format!("({status})"));
        }
        answers.extend(saved_files(&self.folder)?);
        Ok(answers)
    }

    fn start(&self, script: &str) -> io::Result<Child> {
        let path = self.folder.with_extension("script");
        let by_file = self.words.iter().any(|word| word == "{}");
        if by_file {
            std::fs::write(&path, script)?;
        }
        let word = |word: &String| if word == "{}" { path.display().to_string() } else { word.clone() };
        let mut child = Command::new(&self.words[0])
            .args(self.words[1..].iter().map(word))
            .current_dir(&self.folder)
            .stdin(Stdio::piped())
            .stdout(Stdio::piped())
            .spawn()?;
        let mut input = child.stdin.take().expect("a piped input");
        let text = if by_file { String::new() } else { script.to_string() };
        // A program may stop reading early; its answers will tell.
        thread::spawn(move || drop(input.write_all(text.as_bytes())));
        Ok(child)
    }
}

/// All that a program prints, or nothing if it goes on for too long.
fn output_of(child: &mut Child) -> io::Result<Option<String>> {
    let mut output = child.stdout.take().expect("a piped output");
    let (send, receive) = mpsc::channel();
    thread::spawn(move || {
        let mut bytes = Vec::new();
        let outcome = output.read_to_end(&mut bytes).map(|_| bytes);
        drop(send.send(outcome));
    });
    match receive.recv_timeout(LONGEST_RUN) {
        Ok(outcome) => Ok(Some(String::from_utf8_lossy(&outcome?).into_owned())),
        Err(_) => Ok(None),
    }
}

/// Our own answers to a script, with a line for each file it saved.
pub fn our_run(script: &str, folder: &Path) -> io::Result<Vec<String>> {
    remove_saved(folder)?;
    let mut answers = script::run(script, folder);
    answers.extend(saved_files(folder)?);
    Ok(answers)
}

fn files(folder: &Path) -> io::Result<Vec<PathBuf>> {
    let mut paths = Vec::new();
    for entry in std::fs::read_dir(folder)? {
        let path = entry?.path();
        if path.is_file() {
            paths.push(path);
        }
    }
    paths.sort();
    Ok(paths)
}

/// Removes what earlier scripts saved; the folder `packs` stays.
pub fn remove_saved(folder: &Path) -> io::Result<()> {
    files(folder)?.iter().try_for_each(std::fs::remove_file)
}

/// A line for each saved file: its name, its length and a sum over its bytes.
pub fn saved_files(folder: &Path) -> io::Result<Vec<String>> {
    let mut lines = Vec::new();
    for path in files(folder)? {
        let bytes = std::fs::read(&path)?;
        let sum = bytes.iter().fold(0u64, |sum, byte| sum.wrapping_mul(0x0100_0000_01B3) ^ u64::from(*byte));
        let name = path.file_name().unwrap_or_default().to_string_lossy().into_owned();
        lines.push(format!("(saved {name}: {} bytes, sum {sum:016X})", bytes.len()));
    }
    Ok(lines)
}

/// Leaves out lines as long as the rest still `fails`.
pub fn shorten(lines: &[String], mut fails: impl FnMut(&[String]) -> bool) -> Vec<String> {
    let mut kept = lines.to_vec();
    let mut trials = 0;
    let mut size = kept.len().div_ceil(2);
    while size > 0 && trials < MOST_TRIALS {
        let mut removed = false;
        let mut start = 0;
        while start < kept.len() && trials < MOST_TRIALS {
            let end = (start + size).min(kept.len());
            let trial = [&kept[..start], &kept[end..]].concat();
            trials += 1;
            if fails(&trial) {
                kept = trial;
                removed = true;
            } else {
                start = end;
            }
        }
        if !removed || size > 1 {
            size /= 2;
        }
    }
    kept
}

#[cfg(test)]
mod tests {
    use super::*;

    fn lines(text: &str) -> Vec<String> {
        text.split(' ').map(str::to_string).collect()
    }

    #[test]
    fn reasons_are_not_compared() {
        let ours = vec!["? line 3: this".to_string()];
        assert_eq!(first_difference(&ours, &["? line 3: that".to_string()]), None);
        assert_eq!(first_difference(&ours, &["? line 3:".to_string()]), None);
        assert_eq!(first_difference(&ours, &["? line 4: this".to_string()]), Some(0));
    }

    #[test]
    fn a_missing_line_is_a_difference() {
        assert_eq!(first_difference(&lines("a b"), &lines("a")), Some(1));
        assert_eq!(first_difference(&lines("a"), &lines("a b")), Some(1));
        assert_eq!(first_difference(&lines("a b"), &lines("a b")), None);
    }

    #[test]
    fn shortening_keeps_what_matters() {
        let all = lines("a x b c d e x f g h y i");
        let short =
            shorten(&all, |trial| trial.contains(&"y".to_string()) && trial.contains(&"x".to_string()));
        assert_eq!(short, lines("x y"));
    }
}
