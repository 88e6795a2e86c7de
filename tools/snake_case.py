#!/usr/bin/env python3
"""Brings the names of definitions and lemmas to today's spelling, once, after the toolchain's own script.

usage: python3 tools/snake_case.py        at the top of the repository, with everything committed

- A word in camel case (statusByte) that begins with a small letter becomes snake case (status_byte), in specs/, proofs/ and the clauses of src/.
- In the name of a lemma a dash stays where it joins two names of definitions, as in length-take; elsewhere it becomes an underscore.
- Functions and types of src/, strings, inputs and outputs keep their names.
- It stops, and writes nothing, where two names would become one in the files of this repository.
"""
import collections
import pathlib
import re
import sys

ROOT = pathlib.Path(__file__).resolve().parent.parent
WORD = re.compile(r"(?<![\w'-])[^\W\d][\w'-]*")
CAMEL = re.compile(r"(?<![\w'-])[a-z][a-z0-9]*(?:[A-Z][A-Za-z0-9]*)[\w'-]*")
LIBRARY = set("append length take drop set map reverse replicate get_or eqb ltb leb cond not has fold sum holds".split())
DECLARED = re.compile(r"^(?:  )?(?:(?:pub|abbrev|unfoldable|private)\s+)*(?:record\s+|data\s+|ruleset\s+)?(?:pub\s+)?([^\W\d][\w'-]*)\s*(?::(?!:)|\(|\{)")
FIELD = re.compile(r"^\s+(?:pub\s+)?([^\W\d][\w'-]*)\s*:\s")
# names that would fall together with another one: what they become
APART = {"line-written": "one_line_written", "byte-read": "byte_read_back"}
# the same, of a name that one file has for itself
APART_IN = {"crates/image/proofs/Laws/RoundTrip.antt": {"body_kept": "body_is_kept"}}


def files():
    for crate in sorted((ROOT / "crates").iterdir()):
        for part in ("specs", "proofs"):
            yield from sorted((crate / part).rglob("*.antt"))


def snake(word):
    """statusByte to status_byte; a1Next to a1_next."""
    if word == "getD":
        return "get_or"
    return re.sub(r"(?<=[a-z0-9'])([A-Z])", lambda m: "_" + m.group(1).lower(), word)


def declared():
    """The names at the head of a line in specs/ and proofs/, without the proofs of functions; and those of them in specs/."""
    lemmas, words = set(), set()
    for path in files():
        if path.name in ("Proof.antt", "Answers.antt", "Invariants.antt"):
            continue
        for line in path.read_text().splitlines():
            found = DECLARED.match(line)
            if found:
                lemmas.add(found.group(1))
                if "specs" in path.parts:
                    words.add(found.group(1))
            field = FIELD.match(line)
            if field and "specs" in path.parts:
                words.add(field.group(1))
    return lemmas, words


def renamed(lemmas, words):
    """From each name with a dash or in camel case to what it becomes."""
    known = {snake(w) for w in words if "-" not in w} | LIBRARY
    to = {}
    for name in lemmas | words:
        if name[0].isupper():
            continue
        parts = [snake(p) for p in name.split("-")]
        text = parts[0]
        for before, after in zip(parts, parts[1:]):
            text += ("-" if before in known and after in known else "_") + after
        text = APART.get(name, text)
        if text != name:
            to[name] = text
    return to


IMPORT = re.compile(r"use (?!Rattle\.)[\w.]+\.\{([^}]*)\}")


def turned(text, to):
    given = {name for found in IMPORT.finditer(text) for name in WORD.findall(found.group(1))}  # a library's own names

    def word(found):
        name = found.group(0)
        if name in given:
            return name
        if name in to:
            return to[name]
        return "-".join(snake(part) for part in name.split("-")) if CAMEL.fullmatch(name) else name

    return WORD.sub(word, text)


def parameters():
    """The parameters of functions: one hides a definition of its name in the function's clauses."""
    words = set()
    for path in sources():
        for found in re.finditer(r"\bfn \w+\s*(?:<[^>]*>)?\(([^)]*)\)", path.read_text()):
            words |= set(re.findall(r"(\w+)\s*:", found.group(1)))
    return words


def sources():
    for crate in sorted((ROOT / "crates").iterdir()):
        yield from sorted((crate / "src").rglob("*.rt"))


def turned_source(text, to):
    """A file of src/: the lines of clauses, ghost items and comments alone."""
    out, depth, clause = [], 0, False
    for line in text.split("\n"):
        begins = re.match(r"\s*(ghost|requires|ensures|invariant|decreases|also_\w+)\b", line)
        if clause or begins:
            out.append(turned(line, to))
            depth += line.count("{") - line.count("}")
            clause = depth > 0
        else:
            depth = 0
            out.append(re.sub(r"`[^`]*`", lambda m: turned(m.group(0), to), line) if "//" in line else line)
    return "\n".join(out)


def main():
    lemmas, words = declared()
    to = renamed(lemmas, words)
    become = collections.defaultdict(set)
    alone = {name for names in APART_IN.values() for name in names}
    for word in (lemmas | words | parameters()) - alone:
        become[to.get(word, word)].add(word)
    clash = {new: old for new, old in become.items() if len(old) > 1}
    for new, old in sorted(clash.items()):
        print(f"falls together: {', '.join(sorted(old))} -> {new}")
    if "--list" in sys.argv:
        for old, new in sorted(to.items()):
            print(old, new)
        return 0
    if clash:
        return 1
    for path in files():
        text = path.read_text()
        path.write_text(turned(text, to | APART_IN.get(str(path.relative_to(ROOT)), {})))
    for path in sources():
        text = path.read_text()
        path.write_text(turned_source(text, to))
    print(f"{len(to)} names")
    return 0


if __name__ == "__main__":
    sys.exit(main())
