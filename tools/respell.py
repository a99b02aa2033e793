#!/usr/bin/env python3
"""Brings the repository's own definitions and lemmas to today's spelling, once, after the kit's own script.

A word in camel case that begins small becomes snake case (operationOf: operation_of). In the name of a lemma or a
constructor a dash stays where it joins two names, as in sent-then, and is an underline before a plain word, as in
run_law. Goals, which the check names, and names of src/ are left alone, and so are comments and strings of src/.

usage: python3 tools/respell.py [--list]     at the top of the repository
"""
import glob
import re
import sys

# What would fall together with a field, a function of src/ or a variable, or would read badly.
BY_HAND = {
    "getD-last": "get_or-last",
    "getD-paste-above": "get_or-paste_above",
    "getD-paste-below": "get_or-paste_below",
    "getD-paste-in": "get_or-paste_in",
    # a lemma that would have the name of what it speaks of
    "clear-from": "clear_from_lem",
    "found-on": "found_on_lem",
    "order-rule": "order_rule_lem",
    "same-defect": "same_defect_lem",
    "same-field": "same_field_lem",
    "same_id": "same_id_lem",
    "some_below": "some_below_lem",
    "same_place": "same_place_lem",
    "same-track": "same_track_lem",
    "same-track-on": "same_track_on",
    "line-of": "line_of_lem",
    # a plain word that happens to be a definition's name as well
    "head-count": "head_count",
    "front-word": "front_word",
    "count-every": "count_every",
    "every-step": "every_step",
    "first-sent": "first_sent",
    "word-named": "word_named",
    "words-spaced": "words_spaced",
    "made-directory": "made_directory",
    "run-executes": "run_executes",
    "fetch-well": "fetch_well",
    # a definition that would have the name of a field
    "writeSector": "write_data_sector",
    "idWord": "waiting_words",
    # a definition that has the name of a tactic
    "first_of": "first_from",
}

# Names of the library that a lemma's name can join.
LIBRARY = set("length get_or take drop set replicate append map puts".split())

# What the check names: these are never the repository's own.
GOAL = re.compile(
    r"^(returns|loop|invariant|invariant_of|decreases|overflow|nonzero|bounds|slice_bounds|offset_bounds|prove|then|else|in|in_ok"
    r"|in_err|if|find-requires|head-front-requires|head-index-requires|is-first-requires|weigh-requires"
    r"|weigh-behind-requires)(-|_add|_mul|_sub)|-requires$"
)

NAME = r"[A-Za-z_ℕ][\w'′≡≢≤<ℕ]*(?:-[\w'′≡≢≤<ℕ]+)*"
TOKEN = re.compile(r"(?<![\w'′\-])" + NAME)


def files(*kinds):
    found = []
    for kind in kinds:
        found += glob.glob(f"crates/*/{kind}", recursive=True)
    return sorted(found)


def snake(word):
    return re.sub(r"(?<=[a-z0-9])([A-Z])", lambda m: "_" + m.group(1).lower(), word)


def declared(text, top=False):
    for line in text.split("\n"):
        m = re.match(("" if top else r"\s*") + r"(?:pub |abbrev |unfoldable )*(" + NAME + r") :(?: |$)", line)
        if m and not re.match(r"\s*let\b", line):
            yield m.group(1)


def renames():
    own, defined = set(), set()
    for f in files("specs/**/*.antt", "proofs/**/*.antt"):
        with open(f, encoding="utf-8") as it:
            text = it.read()
        names = {n for n in declared(text) if not GOAL.search(n)}
        own |= names
        if "/specs/" in f:
            defined |= {n for n in declared(text, top=True) if "-" not in n}
    whole = defined | LIBRARY

    def spelled(name):
        if name in BY_HAND:
            return BY_HAND[name]
        parts = name.split("-")
        out = snake(parts[0])
        for before, part in zip(parts, parts[1:]):
            joins = before in whole and part in whole or before == "cond" or part[:1].isupper() or before[:1].isupper()
            out += ("-" if joins else "_") + snake(part)
        return out

    table = {}
    for name in sorted(own):
        if name[0].islower() and spelled(name) != name:
            table[name] = spelled(name)
    return own, table


# Words in camel case that are bound in a term or a signature, and declared nowhere.
def bound(own):
    words = set()
    for f in files("specs/**/*.antt", "proofs/**/*.antt"):
        with open(f, encoding="utf-8") as it:
            text = re.sub(r"--.*", "", it.read())
        words |= {w for w in TOKEN.findall(text) if re.match(r"[a-z]+[a-z0-9]*[A-Z]", w) and "-" not in w}
    return {w: snake(w) for w in words - own}


def clauses(text):
    """The spans of a source text that are antt: ghost items and clauses, up to the brace that closes them."""
    spans, at = [], 0
    for m in re.finditer(r"(?m)^[ \t]*(?:pub )?(?:ghost (?:use|invariant|\w+)|requires|ensures)\*?\b", text):
        if m.start() < at:
            continue
        depth, i = 0, m.end()
        while i < len(text):
            c = text[i]
            if c == "{":
                depth += 1
            elif c == "}":
                depth -= 1
                if depth == 0:
                    break
            elif c == ";" and depth == 0:
                break
            i += 1
        spans.append((m.start(), i + 1))
        at = i + 1
    return spans


def respell(text, table):
    def turned(m):
        tactic = m.group(0) == "first_of" and text.startswith(" (Prim.", m.end())
        return m.group(0) if tactic else table.get(m.group(0), m.group(0))

    return TOKEN.sub(turned, text)


def main():
    own, table = renames()
    table |= bound(own)
    if "--list" in sys.argv:
        for old, new in sorted(table.items()):
            print(old, new)
        return
    for f in files("specs/**/*.antt", "proofs/**/*.antt"):
        with open(f, encoding="utf-8") as it:
            text = it.read()
        new = respell(text, table).replace("′", "'")
        if new != text:
            with open(f, "w", encoding="utf-8") as it:
                it.write(new)
    for f in files("src/**/*.rt"):
        with open(f, encoding="utf-8") as it:
            text = it.read()
        out, at = [], 0
        for a, b in clauses(text):
            out += [text[at:a], respell(text[a:b], table).replace("′", "'")]
            at = b
        new = "".join(out) + text[at:]
        if new != text:
            with open(f, "w", encoding="utf-8") as it:
                it.write(new)


main()
