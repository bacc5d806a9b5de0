#!/usr/bin/env python3
"""Brings this repository's own names to the spelling of today's Rattle: words in snake case.

usage: tools/todays_names.py          after port.py, once, at the top of the repository

port.py respells only the names that it shares with the library. Here every other own word follows: `firstFault` becomes `first_fault`,
a lemma `rows-low` becomes `rows_low`. Names of functions, of goals, of the library, and texts in quotes stay as they are. Two names
that would fall together are printed, and nothing is written.
"""
import collections
import glob
import re
import sys

WORD = re.compile(r"[^\s(){}\[\],;=:.⟨⟩\"`]+")
CAMEL = re.compile(r"[a-z][a-z0-9]*(?:[A-Z][a-z0-9]*)+$")
DEFINED = re.compile(r"(?m)^ *(?:(?:pub|abbrev|unfoldable|data|record|mutual) )*([^\s(){}:.=\[\]]+) (?:[({][^=]*?[)}] )*: ")


def files(pattern):
    return sorted(glob.glob(pattern, recursive=True))


def snake(word):
    return re.sub(r"(?<=[a-z0-9])[A-Z]", lambda m: "_" + m.group(0).lower(), word).replace("-", "_")


def parts(word):
    """A word as antt reads it, and each of its parts where a dash joins them: `earlierDeadline-repeats`."""
    return [word] + word.split("-")


def is_camel(word):
    return any(CAMEL.match(p) for p in word.split("-"))


lemma_files = files("crates/*/specs/**/*.antt") + files("crates/*/proofs/*.antt")
walks = [f for f in files("crates/*/proofs/**/*.antt") if f not in lemma_files]
code = files("crates/*/src/**/*.rt")
edits = files("crates/*/must-fail/*.edit") + files("crates/*/wrong-definitions/*.edit")
pages = ["README.md"] + files("docs/**/*.md")

# a lemma that would have its function's name gets `_lem`
LEMMAS = {("theory", "as-run"): "as_run_lem", ("csv", "keep_all"): "keep_all_lem"}
LEMMAS |= {("checker", "system-in"): "system_in_lem", ("checker", "table-in"): "table_in_lem", ("table", "rows-read"): "rows_read_lem"}
LEMMAS |= {(f, "on-time"): "on_time_lem" for f in ("Completions", "Runs", "Misses")}

defined = set()
for path in lemma_files:
    with open(path) as f:
        defined |= set(DEFINED.findall(f.read()))
dashed = {n for n in defined if "-" in n and not n.startswith("-")}


def renamed(word, path=""):
    folders = path.replace(".antt", "").split("/")
    for (place, name), new in LEMMAS.items():
        if word == name and place in folders:
            return new
    return snake(word) if word in dashed or is_camel(word) else word


def turn_words(text, path=""):
    return WORD.sub(lambda m: renamed(m.group(0), path), text)


def turn_camel(text):
    """Of prose: a dashed word may be English, a camel word is a name."""
    return re.sub(r"[A-Za-z][\w-]*", lambda m: snake(m.group(0)) if is_camel(m.group(0)) and CAMEL.match(m.group(0).split("-")[0]) else m.group(0), text)


def turn_antt(text, path=""):
    lines = []
    for line in text.split("\n"):
        at = line.find("--")
        while at > 0 and line[at - 1] not in " \t":
            at = line.find("--", at + 2)
        lines.append(turn_words(line, path) if at < 0 else turn_words(line[:at], path) + turn_camel(line[at:]))
    return "\n".join(lines)


CLAUSE = re.compile(r"(?ms)^\s*(?:ghost use .*?;$|(?:requires|ensures|ghost)\b[^{]*\{.*?\}$)|//.*?$")


def turn_rt(text):
    return CLAUSE.sub(lambda m: turn_camel(m.group(0)) if m.group(0).lstrip().startswith("//") else turn_words(m.group(0)), text)


def turn_edit(text):
    """Of an edit of antt, projections too: `(w .id)` is written `w.id`."""
    path, rest = text.split("\n", 1)
    if not path.endswith(".antt"):
        return path + "\n" + turn_camel(rest)
    rest = re.sub(r"\(([\w']+(?: \.\w+)+)\)", lambda m: m.group(1).replace(" .", "."), rest)
    rest = re.sub(r"\(([\w']+) \.(\w+) ", r"(\1.\2 ", rest)
    return path + "\n" + "\n".join(turn_antt(l) for l in rest.split("\n"))


def turn_page(text):
    """Of a page, the words in backquotes. Of a dashed one, port.py may have turned the definition before."""

    def turned(word):
        return snake(word) if word in dashed or snake(word) in defined else turn_camel(word)

    return re.sub(r"`[^`\n]+`", lambda m: re.sub(r"[A-Za-z][\w'-]*", lambda w: turned(w.group(0)), m.group(0)), text)


def main():
    before = {p: open(p).read() for p in lemma_files + walks + code + edits + pages}
    after = {}
    for p, text in before.items():
        after[p] = turn_antt(text, p) if p.endswith(".antt") else turn_rt(text) if p.endswith(".rt") else turn_page(text) if p.endswith(".md") else turn_edit(text)
    bad = False
    for p, text in before.items():
        if not p.endswith(".antt"):
            continue
        words = set(re.findall(r"(?<![.\w'-])" + WORD.pattern, re.sub(r"--[^\n]*", "", text)))
        became = collections.defaultdict(set)
        for w in words:
            became[renamed(w, p)].add(w)
        for w, olds in sorted(became.items()):
            if len(olds) > 1:
                print(f"{p}: {' and '.join(sorted(olds))} fall together")
                bad = True
    if bad and "--anyway" not in sys.argv:
        return 1
    for p, text in after.items():
        if text != before[p]:
            with open(p, "w") as f:
                f.write(text)
    print(f"{sum(after[p] != before[p] for p in before)} of {len(before)} files turned")
    return 0


if __name__ == "__main__":
    raise SystemExit(main())
