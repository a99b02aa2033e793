//! How often each answer, operation and way to end came, and how often it should.

use crate::card::{Card, Work};
use crate::control_block::{Operation, Transfer};
use std::collections::BTreeMap;

/// What should come at least so often in 1,000 scripts.
const LEAST: &[(&str, u64)] = &[
    // Refusals and exceptions
    ("number 1 not attached", 50),
    ("number 2 interface data check", 50),
    ("number 3 busy", 200),
    ("number 4 command reject", 50),
    ("number 5 idle", 200),
    ("number 6 nothing waits", 100),
    ("number 11 specification check", 200),
    ("number 12 storage data check", 50),
    ("number 13 invalid address", 200),
    ("number 14 protect check", 200),
    ("number 15 no record found", 300),
    ("number 16 file data check", 100),
    ("number 17 end of track", 100),
    ("number 18 seek check", 10),
    ("number 19 not ready", 100),
    ("number 21 length", 50),
    ("number 22 header", 20),
    ("number 24 record", 20),
    ("number 25 chain", 20),
    ("number 26 double", 5),
    ("number 28 no such place", 20),
    ("number 29 marks full", 20),
    ("line that can't be read", 20),
    // Condition codes
    ("command code 0", 50),
    ("command code 1", 200),
    ("command code 3", 50),
    ("command code 5", 50),
    ("command code 7", 5000),
    ("service code 2", 500),
    ("service code 3", 500),
    ("service code 4", 200),
    // Commands
    ("command Prepare", 800),
    ("command Read Device ID", 50),
    ("command Device Reset", 50),
    ("command Start", 2000),
    ("command Start Cycle Steal Status", 300),
    // Fetches and their ends
    ("step fetch: 0", 2000),
    ("step fetch: 11", 100),
    ("step fetch: 12", 10),
    ("step fetch: 13", 50),
    ("step status fetch: 0", 300),
    ("step status fetch: 11", 20),
    ("step status fetch: 12", 1),
    ("step status fetch: 13", 10),
    // Operations and their ends
    ("step seek: 0", 300),
    ("step seek: 18", 10),
    ("step seek: 19", 5),
    ("step recalibrate: 0", 100),
    ("step recalibrate: 19", 2),
    ("step read: 0", 500),
    ("step read: 13", 20),
    ("step read: 14", 20),
    ("step read: 15", 50),
    ("step read: 16", 20),
    ("step read: 17", 10),
    ("step read: 19", 10),
    ("step write: 0", 500),
    ("step write: 12", 5),
    ("step write: 13", 20),
    ("step write: 14", 20),
    ("step write: 15", 50),
    ("step write: 17", 10),
    ("step write: 19", 10),
    ("step verify: 0", 300),
    ("step verify: 15", 20),
    ("step verify: 16", 20),
    ("step verify: 17", 10),
    ("step verify: 19", 10),
    ("step status: 0", 300),
    ("step status: 13", 10),
    ("step status: 14", 10),
    ("step idle: 5", 200),
    ("device end by seek", 100),
    ("device end by recalibrate", 20),
    ("device end by read", 100),
    ("device end by write", 100),
    ("device end by verify", 50),
    ("device end by status", 200),
    ("count of zero in read", 20),
    ("count of zero in write", 20),
    ("sector 59 written well", 5),
    ("no record found, spoiled ID passed", 100),
    ("no record found, no spoiled ID", 20),
    // Chains that change direction
    ("chain seek then read", 20),
    ("chain seek then write", 20),
    ("chain seek then verify", 10),
    ("chain read then read", 20),
    ("chain read then write", 20),
    ("chain read then verify", 20),
    ("chain read then seek", 20),
    ("chain write then read", 20),
    ("chain write then write", 20),
    ("chain write then verify", 20),
    ("chain write then seek", 20),
    ("chain verify then read", 10),
    ("chain verify then write", 10),
    ("chain verify then seek", 5),
    ("chain recalibrate then write", 5),
    // Other calls in the middle of an operation
    ("halt in read", 3),
    ("halt in write", 3),
    ("halt in verify", 3),
    ("halt in fetch", 3),
    ("reset in read", 3),
    ("reset in write", 3),
    ("reset in verify", 3),
    ("reset in fetch", 3),
    ("unready in read", 5),
    ("unready in write", 5),
    ("store in fetch", 20),
    ("store in read", 20),
    ("store in write", 20),
    ("store in verify", 20),
    // Set-up lines that went well
    ("ok device", 200),
    ("ok storage plain", 200),
    ("ok storage keyed", 200),
    ("ok storage file", 10),
    ("ok pack plain", 10),
    ("ok pack chained", 200),
    ("ok pack fresh", 2),
    ("ok parity", 50),
    ("ok unparity", 5),
    ("ok defect", 100),
    ("ok undefect", 10),
    ("ok fresh", 3),
    ("ok save", 20),
];

#[derive(Default)]
pub struct Tally {
    pub lines: u64,
    counts: BTreeMap<String, u64>,
    /// The operation of the running chain that was done last.
    last_in_chain: Option<&'static str>,
}

/// What the card's next step would do.
fn doing(card: &Card) -> &'static str {
    match card.work {
        Work::Nothing => "idle",
        Work::Fetch { .. } => "fetch",
        Work::FetchStatus { .. } => "status fetch",
        Work::SendStatus { .. } => "status",
        Work::Operate { block, .. } => match block.operation {
            Operation::Seek { .. } => "seek",
            Operation::Recalibrate => "recalibrate",
            Operation::Data(job) => match job.transfer {
                Transfer::Read => "read",
                Transfer::Write => "write",
                Transfer::Verify => "verify",
            },
        },
    }
}

fn zero_count(card: &Card) -> bool {
    match card.work {
        Work::Operate { block, .. } => {
            matches!(block.operation, Operation::Data(job) if job.left == 0)
        }
        _ => false,
    }
}

/// The number and word of a refusal or exception.
fn number_in(answer: &str) -> Option<(u64, String)> {
    let (_, rest) = answer.split_once("refused ").or_else(|| answer.split_once("step: "))?;
    let (number, rest) = rest.split_once(' ')?;
    let end = rest.find(" layer").or_else(|| rest.find(" code")).unwrap_or(rest.len());
    Some((number.parse().ok()?, rest[..end].to_string()))
}

fn after_word<'a>(answer: &'a str, word: &str) -> Option<&'a str> {
    let (_, rest) = answer.split_once(word)?;
    rest.split(' ').next()
}

impl Tally {
    fn add(&mut self, what: impl Into<String>) {
        *self.counts.entry(what.into()).or_default() += 1;
    }

    /// Counts one line of a script: its answers, and the card before and after.
    pub fn count(&mut self, line: &str, answers: &[String], before: &Card, after: &Card) {
        let Some(answer) = answers.first() else {
            return;
        };
        self.lines += 1;
        let number = number_in(answer);
        if let Some((number, word)) = &number {
            self.add(format!("number {number} {word}"));
        }
        if answer.starts_with("? line") {
            return self.add("line that can't be read");
        }
        let words: Vec<&str> = line.split(' ').collect();
        if answer == "ok" {
            let kinds = if words[0] == "storage" || words[0] == "pack" { 2 } else { 1 };
            self.add(format!("ok {}", words[..kinds].join(" ")));
        }
        match words[0] {
            "command" => self.count_command(&words, answer, before),
            "service" => self.count_code("service", answer),
            "step" => self.count_step(number.map_or(0, |(number, _)| number), before, after),
            "halt" => self.add(format!("halt in {}", doing(before))),
            "unready" => self.add(format!("unready in {}", doing(before))),
            "store" if answer == "store: ok" => self.add(format!("store in {}", doing(before))),
            _ => {}
        }
    }

    fn count_code(&mut self, call: &str, answer: &str) {
        if let Some(code) = after_word(answer, "code ") {
            self.add(format!("{call} code {code}"));
        }
    }

    fn count_command(&mut self, words: &[&str], answer: &str, before: &Card) {
        self.count_code("command", answer);
        if !answer.starts_with("command: code 7") {
            return;
        }
        match words[1].get(..2) {
            Some("20") => self.add("command Read Device ID"),
            Some("60") => self.add("command Prepare"),
            Some("6F") => {
                self.add("command Device Reset");
                self.add(format!("reset in {}", doing(before)));
            }
            Some("70") => {
                self.last_in_chain = None;
                self.add("command Start");
            }
            _ => self.add("command Start Cycle Steal Status"),
        }
    }

    fn count_step(&mut self, number: u64, before: &Card, after: &Card) {
        let did = doing(before);
        self.add(format!("step {did}: {number}"));
        if number == 0 {
            self.count_good_step(did, before, after);
        }
        if number == 15 {
            let spoiled = after.reasons & 0x0080 != 0;
            self.add(if spoiled {
                "no record found, spoiled ID passed"
            } else {
                "no record found, no spoiled ID"
            });
        }
    }

    fn count_good_step(&mut self, did: &'static str, before: &Card, after: &Card) {
        if after.waiting.is_some() {
            self.add(format!("device end by {did}"));
        }
        if zero_count(before) {
            self.add(format!("count of zero in {did}"));
        }
        if did == "write" && after.last_sector == 60 && before.last_sector != 60 {
            self.add("sector 59 written well");
        }
        if let (Work::Operate { .. }, Work::Fetch { .. }) = (before.work, after.work) {
            self.last_in_chain = Some(did);
        }
        if let (Work::Fetch { .. }, Some(last)) = (before.work, self.last_in_chain) {
            self.add(format!("chain {last} then {}", doing(after)));
        }
    }

    /// The table of counts, and what came too seldom for so many scripts.
    pub fn report(&self, scripts: u64) -> (Vec<String>, Vec<String>) {
        let mut table = Vec::new();
        let mut too_seldom = Vec::new();
        for (what, least) in LEAST {
            let count = self.counts.get(*what).copied().unwrap_or(0);
            let least = least * scripts / 1000;
            table.push(format!("{count:8}  at least {least:5}  {what}"));
            if count < least {
                too_seldom.push(format!("{what}: {count}, at least {least}"));
            }
        }
        let listed = |what: &&String| !LEAST.iter().any(|(name, _)| name == what);
        for what in self.counts.keys().filter(listed) {
            table.push(format!("{:8}                  {what}", self.counts[what]));
        }
        (table, too_seldom)
    }
}

#[cfg(test)]
mod tests {
    use super::*;

    #[test]
    fn numbers_are_found_in_answers() {
        let found = |answer| number_in(answer).map(|(number, word)| format!("{number} {word}"));
        assert_eq!(found("step: 0"), None);
        assert_eq!(found("step: refused 5 idle").as_deref(), Some("5 idle"));
        assert_eq!(found("step: 19 not ready layer drive dcb 0100").as_deref(), Some("19 not ready"));
        assert_eq!(found("command: refused 3 busy code 1").as_deref(), Some("3 busy"));
        assert_eq!(found("refused 26 double").as_deref(), Some("26 double"));
        assert_eq!(found("command: code 7 word 0000"), None);
    }

    #[test]
    fn what_never_came_is_too_seldom() {
        let (table, too_seldom) = Tally::default().report(1000);
        assert_eq!(table.len(), too_seldom.len());
    }
}
