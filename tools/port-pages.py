#!/usr/bin/env python3
"""Brings the pages to what the crates have now: names beside links, fields of records, and links to proofs.

usage: python3 tools/port-pages.py [--check]          at the top, once the crates are as they are to land; it may be run again

A name that a page gives and that its file lacks is turned where the file has just one name that is spelled alike but for
humps, dashes and underscores, or where the file's declarations as they landed pair with those of now. A link to
a Proof.antt that is gone leads to Answers.antt or Invariants.antt beside it, or, where the kit proves the function by itself,
to the function's source. What is left is printed, and is to be mended by hand. With --check nothing is written.
"""

import difflib
import glob
import os
import re
import subprocess
import sys

LANDED = "561f55960baa5479a75b1534c4d09026874ea09f"
TOKEN = re.compile(r"[\w\-']+")
NAME = re.compile(r"[A-Za-zμ][\w\-']*")
DECLARED = re.compile(r"^\s*(?:(?:pub|abbrev|unfoldable|opaque|record|data)\s+)*([^\s:(){}]+)\s*(?:[({][^:]*)?:(?=\s|$)|^\s*(?:pub )?(?:record|data) (\S+)", re.M)


def norm(name):
    return re.sub(r"[-_]", "", name).lower()


def alike(name, among):
    """The names of these that are spelled as this one but for humps, dashes and underscores."""
    return {it for it in among if norm(it) == norm(name) and it[0].isupper() == name[0].isupper()}


def read(path):
    with open(path, encoding="utf-8") as f:
        return f.read()


def landed(path):
    ran = subprocess.run(["git", "show", f"{LANDED}:{path}"], capture_output=True)
    return ran.stdout.decode() if ran.returncode == 0 else ""


def code(text):
    return "\n".join(line for line in text.split("\n") if not line.lstrip().startswith("--"))


def declared(text):
    return [a or b for a, b in DECLARED.findall(code(text))]


class Tree:
    def __init__(self):
        self.texts, self.cache, self.pairs = {}, {}, {}
        for path in glob.glob("crates/*/**/*", recursive=True):
            if os.path.isfile(path) and "/out/" not in path and path.endswith((".rt", ".antt")):
                self.texts[path] = set(TOKEN.findall(read(path)))
        self.all = set().union(*self.texts.values())
        self.by_norm = {}
        for path in self.texts:
            for name in declared(read(path)):
                self.by_norm.setdefault(norm(name), set()).add(name)
        old = subprocess.run(["git", "ls-tree", "-r", "--name-only", LANDED, "crates"], capture_output=True, text=True).stdout.split()
        self.old = [it for it in old if it.endswith((".antt", ".rt"))]
        self._landed = None

    def was(self, name):
        """Whether the crates had the name as they landed."""
        if self._landed is None:
            ran = subprocess.run(["git", "grep", "-h", "-I", "", LANDED, "--", "crates"], capture_output=True)
            self._landed = set(TOKEN.findall(ran.stdout.decode()))
        return name in self._landed

    def has(self, path, name):
        if os.path.isdir(path):
            return any(name in words for it, words in self.texts.items() if it.startswith(path.rstrip("/") + "/"))
        return name in self.texts.get(path, TOKEN.findall(read(path)) if os.path.isfile(path) else ())

    def paired(self, path):
        """The file's declared names as they landed, each with that of now, where their order tells."""
        if path not in self.pairs:
            found = {}
            if os.path.isfile(path):
                old, new = declared(landed(path)), declared(read(path))
                match = difflib.SequenceMatcher(None, [norm(it) for it in old], [norm(it) for it in new], autojunk=False)
                for kind, a, b, c, d in match.get_opcodes():
                    if kind == "equal" or kind == "replace" and b - a == d - c:
                        found.update(zip(old[a:b], new[c:d]))
            self.pairs[path] = found
        return self.pairs[path]

    def now(self, path, name):
        """What the file calls now what a page calls so, or None."""
        if path and self.has(path, name):
            return name
        if path and os.path.isfile(path):
            # a page may be turned in part already
            found = alike(name, declared(read(path))) or alike(name, self.texts.get(path, ()))
            if len(found) == 1:
                return found.pop()
            pairs = self.paired(path)
            told = {pairs[it] for it in alike(name, pairs)}
            if len(told) == 1:
                return told.pop()
            return None
        if not path:
            if name in self.all or not self.was(name):
                return name
            found = alike(name, self.by_norm.get(norm(name), set()))
            if len(found) == 1:
                return found.pop()
        return None


def new_link(tree, path):
    """Where a link leads now that led to a file of a crate which is gone."""
    folder, name = os.path.split(path)
    if name == "Proof.antt":
        for other in ("Answers.antt", "Invariants.antt"):
            if os.path.isfile(f"{folder}/{other}"):
                return f"{folder}/{other}"
        found = re.fullmatch(r"(crates/[^/]+)/proofs/(.*)", folder)
        parts = found[2].split("/")
        for at in range(len(parts), -1, -1):
            for file in ([f"{found[1]}/src/{'/'.join(parts[:at])}.rt"] if at else [f"{found[1]}/src/lib.rt", f"{found[1]}/src/main.rt"]):
                if os.path.isfile(file) and re.search(rf"\bfn {re.escape(parts[-1])}\b", read(file)):
                    return file
    return None


def fields(text, record):
    found, inside, margin = [], False, 0
    for line in text.split("\n"):
        words = line.lstrip()
        at = len(line) - len(words)
        if words.startswith("pub record "):
            inside, margin = words[len("pub record "):].split(" ")[0] == record, at
        elif inside and words.startswith("pub ") and " :" in words and at == margin + 2:
            found.append(words[4:].split(" :")[0])
        elif words and at <= margin:
            inside = False
    return found


def claims(tree, line, left):
    """A row of the page of claims: a record, its file, and its fields."""
    names = re.findall(r"`([^`]*)`", line)
    if len(names) < 3:
        return line
    record, file = names[0], f"crates/{names[1]}"
    if not os.path.isfile(file):
        left.append(f"docs/CLAIMS.md: there is no {file}")
        return line
    there, was = fields(read(file), record), fields(landed(file), record)
    parts = line.split("`")
    for at in range(5, len(parts), 2):
        name = parts[at]
        if name in there:
            continue
        found = [it for it in there if norm(it) == norm(name)]
        if len(found) != 1 and len(there) == len(was):
            found = [new for old, new in zip(was, there) if norm(old) == norm(name)]
        if len(found) == 1:
            parts[at] = found[0]
        else:
            left.append(f"docs/CLAIMS.md: {record} of {file} has no {name}")
    return "`".join(parts)


PIECE = re.compile(r"\]\(([^)\s]*)\)|`([^`]*)`")


def page(tree, path, left):
    text, base = read(path), os.path.dirname(path)
    lines = []
    for line in text.split("\n"):
        if path == "docs/CLAIMS.md" and line.startswith("| `"):
            line = claims(tree, line, left)
            lines.append(line)
            continue
        is_row = line.startswith("|")
        led = None

        def turn(found):
            nonlocal led
            if found[1] is not None:
                target, _, anchor = found[1].partition("#")
                leads = os.path.normpath(os.path.join(base, target)) if target else path
                led = leads if "crates/" in leads else None
                if led and not os.path.exists(leads):
                    new = new_link(tree, leads)
                    if not new:
                        left.append(f"{path}: there is no {leads}")
                        led = None
                        return found[0]
                    led = new
                    return f"]({os.path.relpath(new, base or '.')}{'#' + anchor if anchor else ''})"
                return found[0]
            name = found[2]
            if not NAME.fullmatch(name) or len(name) < 3:
                return found[0]
            at = led if is_row else None
            new = tree.now(at, name)
            if new is None and at is None and name not in tree.all:
                left.append(f"{path}: `{name}` is no name of the crates")
            elif new is None:
                left.append(f"{path}: {at} has no `{name}`")
            return f"`{new}`" if new else found[0]

        if is_row and path == "docs/TRACE.md":
            cells = re.split(r"(?<!\\)(\|)", line)
            made = []
            for cell in cells:
                led = None
                made.append(PIECE.sub(turn, cell))
            line = "".join(made)
        elif not line.startswith("    "):
            line = PIECE.sub(turn, line)
        lines.append(line)
    return text, "\n".join(lines)


def main():
    tree, left, changed = Tree(), [], 0
    pages = [it for it in ["README.md", *sorted(glob.glob("docs/*.md")), "charts/README.md", "tests/compare/README.md"] if os.path.basename(it) not in ("PORT.md", "PORT-NAMES.md", "DESIGN-PASS.md")]
    for path in pages:
        old, new = page(tree, path, left)
        if old != new:
            changed += sum(a != b for a, b in zip(old.split("\n"), new.split("\n")))
            if "--check" not in sys.argv:
                with open(path, "w", encoding="utf-8") as f:
                    f.write(new)
    print("\n".join(left))
    print(f"lines changed: {changed}; left: {len(left)}")


main()
