#!/usr/bin/env python3
"""Brings the project's own words to one spelling: definitions, facts of a record and parts of lemmas in snake case.

usage: python3 tools/port-names.py            once, at the top, after the port of 2026-11-26

What the library spells is left alone: only names that the crates themselves declare, or that the older kit declared
under `getD`, are turned. A name whose new spelling would meet another one is turned by the list `APART`.
Sources, contracts, proofs, must-fail edits and pages are turned alike; functions of src/, names of C and text in quotes
in a source keep theirs.
"""

import glob
import os
import re

# Facts and lemmas whose name would fall together with a definition's in a file that has both: they get another.
# A step of generated proofs, as `c.before.entry_in.result`, is a call of the function of that name and keeps it.
APART = {
    "entry_in": "entry_inside",
    "fields_told": "fields_told_whole",
    "holds_at": "holds_there",
    "in_after": "after_in",
    "is_member": "is_in_set",
    "last_byte": "last_byte_bound",
    "read_short": "short_read",
    "ruled_out": "ruled_out-zero",
    "same_flag": "same_flag-equal",
    "same_flags": "same_flags-equal",
    "same_row": "same_row-equal",
}
STEP = r"(?<!before\.)(?<!\bc\.)(?<![A-Za-z0-9_'\-])%s(?![A-Za-z0-9_'\-])(?!\.)"
WORD = re.compile(r"(?<![0-9\\])[A-Za-zμ_+][A-Za-z0-9_'μ+\-]*")
DECLARED = re.compile(r"^\s*(?:pub |abbrev |unfoldable )*([^\s:()=]+)\s*:\s")
HUMP = re.compile(r"(?<=[a-z0-9])([A-Z])")


def read(path):
    with open(path, encoding="utf-8") as f:
        return f.read()


def snake(name):
    parts = ["get_or" if p == "getD" else HUMP.sub(lambda m: "_" + m.group(1).lower(), p) for p in name.split("-")]
    return "-".join(parts)


def humped(word):
    return re.fullmatch(r"[a-zμ+][A-Za-z0-9_'\-]*", word) and re.search(r"[a-z0-9][A-Z]", word) and not word.startswith("0x")


def code_of(text):
    return "\n".join(line.split("--")[0] if line.lstrip().startswith("--") else line for line in text.split("\n"))


def fields_of(text):
    """The names of a record's facts that are written with dashes."""
    found, inside = set(), False
    for line in text.split("\n"):
        if re.match(r"^(pub )?record\b", line):
            inside = True
        elif line.strip() and not line.startswith(" "):
            inside = False
        elif inside:
            m = re.match(r"^\s+(?:pub )?([^\s:()=]+)\s*:\s", line)
            if m and "-" in m.group(1):
                found.add(m.group(1))
    return found


def outside_paths(word, texts):
    rx = re.compile(r"(?<![A-Za-z0-9_'\-.])" + re.escape(word) + r"(?![A-Za-z0-9_'\-])")
    return any(rx.search(t) for t in texts)


def main():
    antt = sorted(glob.glob("crates/*/specs/**/*.antt", recursive=True) + glob.glob("crates/*/proofs/**/*.antt", recursive=True))
    rt = sorted(glob.glob("crates/*/src/**/*.rt", recursive=True))
    edits = sorted(glob.glob("crates/*/must-fail/**/*.edit", recursive=True) + glob.glob("crates/*/must-fail*/**/*.md", recursive=True))
    pages = sorted(glob.glob("docs/**/*.md", recursive=True) + ["README.md"])
    texts = {p: read(p) for p in antt + rt}
    codes = [code_of(t) for p, t in texts.items() if p in antt]
    words = {w for t in texts.values() for w in WORD.findall(t)}
    turned = {w: snake(w) for w in words if humped(w)}
    # facts of records and definitions with dashes, where nothing else has the new spelling
    dashed = set()
    for p in antt:
        dashed |= fields_of(texts[p]) if "/specs/" in p or os.path.basename(p) != "Proof.antt" else set()
    dashed |= {"arrived-right", "reach-laws", "reached-more", "tab-height", "cell-height"}
    sources = "\n".join(texts[p] for p in rt)
    taken = set(turned.values())
    left = []
    for w in sorted(dashed):
        s = snake(w).replace("-", "_")
        if s in taken or outside_paths(s, codes) or re.search(r"\b" + s + r"\s*:(?!:)", sources) or re.search(r"let (mut )?" + s + r"\b", sources):
            left.append(w)
        else:
            turned[w] = s
            taken.add(s)

    def apart(text):
        for word, new in APART.items():
            text = re.sub(STEP % word, new, text)
        return text

    def turn(text):
        return WORD.sub(lambda m: turned.get(m.group(0), m.group(0)), text)

    for p in antt:
        new = turn(apart(texts[p]))
        if new != texts[p]:
            with open(p, "w", encoding="utf-8") as f:
                f.write(new)
    for p in rt:
        pieces = re.split(r'("(?:[^"\\\n]|\\.)*")', texts[p])
        new = "".join(t if i % 2 else turn(t) for i, t in enumerate(pieces))
        if new != texts[p]:
            with open(p, "w", encoding="utf-8") as f:
                f.write(new)
    for p in edits + pages:
        text = read(p)
        new = turn(text) if p in edits else re.sub(r"`[^`\n]+`", lambda m: turn(m.group(0)), text)
        if new != text:
            with open(p, "w", encoding="utf-8") as f:
                f.write(new)
    print(f"port-names: {len(turned)} names turned; left with a dash, since the other spelling is taken: {' '.join(left) or 'none'}")


if __name__ == "__main__":
    main()
