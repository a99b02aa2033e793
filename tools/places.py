#!/usr/bin/env python3
"""Lists the places of src/ that an older form may stand in, by point, and counts them.

usage: python3 tools/places.py [--count] [POINT..]     at the top of a checkout; --count prints the numbers alone
"""
import glob
import re
import sys

# By point: patterns on a line of src/ (comments included, since they say what a value means).
PATTERNS = {
    "1": [
        ("an answer that is an Option of a refusal", r"-> Option<Refusal>"),
        ("an own enum of the shape of Result", r"enum (Outcome|Task)\b|Task::Wrong\("),
        ("a value that means none", r"Answer::.* => (0|\"\"),$|NotReady => 0,$|zero where there is none|one byte too many|one more, and no storage"
         r"|no bytes are no pack|past the last block it is zero|None => NO_ID|return NO_ID"),
        ("a number in place of a kind", r"fn told\(self\)"),
    ],
    "2": [
        ("one of some functions that differ in a type or a constant",
         r"fn (take_(word|byte|address|decimal|name|storage_kind|pack_kind|look_kind|field)|(storage|pack|look|field)_kind|verb_among"
         r"|read_(word|byte|address|decimal)|hexadecimal|put_data|id_field|chain_length|find|chain_single"
         r"|(mark|lift)_(parity|defect)|would_(mark|lift)|mark|lift|is_marked|below"
         r"|plain_storage|keyed_storage|plain_pack|fresh_pack|chained_pack|empty_storage|plain|keyed|parity|reasons|status_byte|mask|bit|is_in)\b"),
        ("a printing that differs in a width", r"ghost output = \{ λ x\. Some \(hex"),
    ],
    "3": [
        ("an index counted in a range", r"for (i|_|index|p|line|number) in [^{]*\.\."),
        ("a count kept by hand", r"(\+= 1;|saturating_add\(1\))"),
        ("a while loop", r"^\s+while "),
        ("a for that only looks for one or tests all", r"^    for .* in (marks|verbs|0\.\.CHAINS|1\.\.=count\(pack\)|0\.\.places|bytes|env::args\(rt\)\?) \{"),
    ],
    "4": [
        ("a comparison by hand", r"fn (is|same_as|is_good|is_idle|meets_busy|input_fits)\(|fn same<"),
        ("a conversion by hand", r"fn (command_of|operation_of|condition|condition_byte|fault_byte|storage_exception|heads_of|word_at|status_bytes|sector_bytes)\("),
        ("bytes by hand", r"/ 256\)? as u8|% 256\)? as u8|as u16 \* 256|\) \* 256 \+"),
        ("a word printed by hand", r"fn (word|condition)\([a-z]+: Condition\)|fn word\(self\)|fn text\(self\)"),
    ],
    "5": [
        ("the world of a contract, written out", r"world [a-z_.]*device \("),
        ("device, drive and storage side by side", r"^\s+device: u8,$|^\s+other_device: u8,$|, device: u8,|device: u8, drive"),
        ("block and done side by side", r"block: Block,? ?.*done: u8|^\s+done: u8,$"),
    ],
    "6": [
        ("a buffer with a length beside it", r"^\s+used: usize,|^\s+(pub )?count: usize,$|, count: usize|entries: \[T; N\]|keys: \[u8; 32\]"),
        ("an index into a list beside", r"pub parts: Vec<Part>|pub first: usize"),
    ],
    "7": [
        ("functions that differ in one step", r"pub fn (mark|lift)_(parity|defect)\(|pub fn (plain|keyed|parity)\("),
        ("a switch on the step", r"match self\.state \{|match asked \{"),
    ],
}


def main():
    words = [a for a in sys.argv[1:] if a != "--count"]
    for point in sorted(PATTERNS):
        if words and point not in words:
            continue
        for what, pattern in PATTERNS[point]:
            found = []
            for path in sorted(glob.glob("crates/*/src/**/*.rt", recursive=True)):
                with open(path, encoding="utf-8") as file:
                    for number, line in enumerate(file, 1):
                        if re.search(pattern, line):
                            found.append(f"{path}:{number}: {line.strip()[:110]}")
            print(f"{point} {what}: {len(found)}")
            if "--count" not in sys.argv:
                for row in found:
                    print(f"    {row}")


if __name__ == "__main__":
    main()
