#!/usr/bin/env python3
"""Spells the repository's own definitions and lemmas in snake case, as its libraries spell theirs.

usage: tools/respell.py, at the top of the repository, once, after the toolchain's own script has turned the files.

A name is one that a file of specs/ or proofs/ declares and that has a capital or a dash in it: `firstOf` becomes `first_of`, `two-at` `two_at`. Names that begin
with a capital stay. Where a lemma would get the name of a definition, it gets `_lem` behind it. Rust's names, strings, inputs and outputs stay as they are.
Contracts, must-fail edits and code spans of the pages follow. A step of a function's proof that is named after a function gets that function's spelling.
"""

import collections
import glob
import re

WORD = r'[^\s(){}.;,@"«»`]+'
QUIET = re.compile(r'"(?:[^"\\\n]|\\.)*"|(?<![^\s(){}.;,@"«»])--[^\n]*|\{-.*?-\}', re.S)
DECLARED = re.compile(
    r"(?m)^( *)((?:abbrev|unfoldable|opaque|pub|data|record|pattern|axiom|field|constructor|mutual|private)\s+)*(?:where +|let +)?"
    r'([^\s:(){}.,;"«»]+)(?: +\{[^{}\n]*\})*(?: +\([^()\n]*\))* *:(?= |$)'
)
FUNCTION = re.compile(r"(?m)^ *(?:pub )?(?:const )?(?:extern \"C\" )?fn (\w+)")
NOT_NAMES = {"module", "use", "where", "let", "λ", "in", "_"}


def files(*kinds):
    found = []
    for kind in kinds:
        found += glob.glob(f"crates/*/{kind}", recursive=True)
    return sorted(found)


def antt():
    return files("specs/**/*.antt", "proofs/**/*.antt")


def read(path):
    with open(path, encoding="utf-8") as f:
        return f.read()


def is_of_a_function(path):
    return re.search(r"/proofs/(?:[^/]+/)+(?:Proof|Answers|Invariants)\.antt$", path) is not None


def snake(name):
    words = re.sub(r"(?<=[a-z0-9])[A-Z]+", lambda m: "_" + m[0].lower(), name)
    return words.replace("-", "_")


def table():
    """Each old name with its new one, and the snake-case names that have to give way, each with the files in which they do."""
    declared = collections.defaultdict(set)
    for path in antt():
        for m in DECLARED.finditer(QUIET.sub(" ", read(path))):
            name = m[3]
            if name not in NOT_NAMES and (not is_of_a_function(path) or name.endswith("-spec")):
                declared[name].add(path)
    for path in antt() + files("src/**/*.rt"):
        for items in re.findall(r"use [^\s{;]+\{([^}]*)\}", read(path)):
            for alias in re.findall(r" as ([a-z][a-z0-9]*[A-Z]\w*)", items):
                declared[alias].add(path)
    for path in antt():
        code = QUIET.sub(" ", read(path))
        for name in re.findall(r"(?<![^\s(){}.;,])[a-z][a-z0-9]*[A-Z]\w*(?![^\s(){}.;,])", code):
            declared[name].add(path)
        if not is_of_a_function(path):
            for alias in re.findall(r"(?m)^use \S+ as ([a-z]+(?:-[a-z]+)+)$", code):
                declared[alias].add(path)
    new = {}
    for name in declared:
        if name[0].isupper() or snake(name) == name:
            continue
        new[name] = snake(name)
    spelled = collections.defaultdict(list)
    for name, it in new.items():
        spelled[it].append(name)
    for it, names in spelled.items():
        for name in names if len(names) > 1 else []:
            if "-" in name:
                new[name] = it + "_lem"
    giving_way = {}
    for it, names in spelled.items():
        if it not in declared:
            continue
        if all("-" in name for name in names):
            for name in names:
                new[name] = it + "_lem"
        else:
            giving_way[it] = set(declared[it])
    return new, giving_way


def imported(text, name):
    return any(name in re.findall(WORD, items) for items in re.findall(r"use [^\s{;]+\{([^}]*)\}", text))


class Speller:
    def __init__(self):
        self.new, self.giving_way = table()
        self.calls = {}
        for path in files("src/**/*.rt"):
            for name in FUNCTION.findall(read(path)):
                if "_" in name:
                    self.calls[name.replace("_", "-")] = name

    def word(self, word, mine):
        if word in mine:
            return word + "_lem"
        return self.new.get(word, word)

    def code(self, text, mine=()):
        return re.sub(WORD, lambda m: self.word(m[0], mine), text)

    def comment(self, text):
        """Bare words with a capital inside, and whatever stands between backquotes."""
        text = re.sub(r"`[^`\n]*`", lambda m: self.code(m[0]), text)
        return re.sub(r"(?<![\w`-])[a-z][a-z0-9]*(?:[A-Z][A-Za-z0-9]*)(?![\w`-])", lambda m: self.new.get(m[0], m[0]), text)

    def antt_text(self, text, path=""):
        mine = {it for it, where in self.giving_way.items() if path in where or imported(QUIET.sub(" ", text), it)}
        out, at = [], 0
        for m in QUIET.finditer(text):
            out.append(self.code(text[at : m.start()], mine))
            out.append(m[0] if m[0].startswith('"') else self.comment(m[0]))
            at = m.end()
        out.append(self.code(text[at:], mine))
        return "".join(out)

    def steps(self, text):
        """In a function's proof, the steps that are named after functions: `.given-by`, `.unit-word2`."""

        def one(m):
            name, count = m[1], ""
            if name not in self.calls:
                k = re.fullmatch(r"(.*?)(\d+)", name)
                if not k or k[1] not in self.calls:
                    return m[0]
                name, count = k[1], k[2]
            return "." + self.calls[name] + count

        return re.sub(r"\.([a-z][a-z0-9]*(?:-[a-z0-9]+)+)(?![\w-])", one, text)

    def rust_text(self, text):
        """The clauses, ghost items and comments of a Rust file."""
        out, at = [], 0
        head = re.compile(r'//[^\n]*|ghost use [^;]*;|(?:requires|ensures)\s*\*?\s*(?:\w+\s*)?\{|ghost\s+(?:\w+\s*:\s*)?\{|b?"(?:[^"\\\n]|\\.)*"')
        while True:
            m = head.search(text, at)
            if not m:
                out.append(text[at:])
                return "".join(out)
            out.append(text[at : m.start()])
            end = m.end()
            if m[0].endswith("{"):
                depth = 1
                while depth and end < len(text):
                    depth += {"{": 1, "}": -1}.get(text[end], 0)
                    end += 1
            part = text[m.start() : end]
            if part.startswith("//"):
                part = self.comment(part)
            elif '"' != part[0] and not part.startswith('b"'):
                part = self.code(part)
            out.append(part)
            at = end

    def edit(self, text):
        where = re.search(r"(?m)^file: *(\S+)", text)
        is_antt = bool(where) and where[1].endswith(".antt")

        def line(m):
            return m[1] + (self.antt_text(m[2]) if is_antt else self.capitals(m[2]))

        return re.sub(r"(?m)^((?:old|new):)([^\n]*)$", line, text)

    def capitals(self, text):
        """Clauses and code in one: only names with a capital inside, or a dash in a ghost name, can be definitions."""
        parts = re.split(r'(b?"(?:[^"\\\n]|\\.)*")', text)
        parts[::2] = [re.sub(WORD, lambda m: self.new.get(m[0], m[0]), it) for it in parts[::2]]
        return "".join(parts)


def main():
    speller = Speller()
    turned = collections.Counter()

    def write(path, old, text):
        if text != old:
            turned[path.rsplit(".", 1)[-1]] += 1
            with open(path, "w", encoding="utf-8") as f:
                f.write(text)

    for path in antt():
        old = read(path)
        text = speller.antt_text(old, path)
        if is_of_a_function(path):
            text = speller.steps(text)
        write(path, old, text)
    for path in files("src/**/*.rt"):
        old = read(path)
        write(path, old, speller.rust_text(old))
    for path in files("must-fail/*.edit"):
        old = read(path)
        write(path, old, speller.edit(old))
    for path in ["README.md", "CHANGELOG.md", *sorted(glob.glob("docs/*.md"))]:
        old = read(path)
        write(path, old, re.sub(r"`[^`\n]*`", lambda m: speller.code(m[0]), old))
    for old, new in sorted(speller.new.items()):
        if new.endswith("_lem"):
            print(f"{old} is {new}")
    for it, where in sorted(speller.giving_way.items()):
        print(f"{it} is {it}_lem in {' '.join(sorted(where))}")
    print(f"respell: {len(speller.new)} names, files turned: {dict(turned)}")


if __name__ == "__main__":
    main()
