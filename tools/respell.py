#!/usr/bin/env python3
"""Spells the repository's own names as its Rattle does: words in snake case, types in camel case.

usage: tools/respell.py [--check] [FOLDER]

Below FOLDER/crates it turns the names that the files of specs/ and proofs/ declare or bind, in those files and in the clauses and 'ghost use'
items of src/. Names that a file takes from the kit, that the code declares, or that Rattle makes for a
function's proof stay. It goes by spelling, and lists on lines that begin 'look:' the names that fall together. --check writes nothing.
"""
import collections
import glob
import os
import re
import sys

WORD = re.compile(r'[^\s(){}.;,@"«»]+')
# A name that is to be turned: a dash between letters, or a capital behind a small letter at its start.
DASHED = re.compile(r"[^\W\d_][\w'?₀-₉]*(?:-[\w'?₀-₉]+)+|[≼⊆][\w'?]*(?:-[\w'?₀-₉]+)+")
CAMEL = re.compile(r"[a-z][a-z0-9]*(?:[A-Z]\w*)+[\w'?₀-₉]*")
DECLARED = re.compile(r"(?m)^ *(?:(?:pub|abbrev|unfoldable|pattern) )*([^\s(){}.;,@\"«»:]+)(?: \{[^{}\n]*\})* :(?= |$)")
USE = re.compile(r"(?m)^(?:pub )?use ([^\s{;]+?)(?:\.\{([^}]*)\})?(?: as ([^\s;]+))?;?$")
QUIET = re.compile(r'"(?:[^"\\\n]|\\.)*"|(?<![^\s(){}.;,@"«»])--[^\n]*')
CLAUSE = re.compile(r"\b(?:requires|ensures)\*?\s+(?:\w+\s+)?\{|\bghost\s+\w+\s*:\s*\{")
GHOST_USE = re.compile(r"\bghost\s+use\b[^;]*;")
TYPES = {"Line-read": "LineRead", "Other-first": "OtherFirst", "Bound-on": "BoundOn", "Reads-on": "ReadsOn", "None-found": "NoneFound"}
# Names that would fall together with another.
FIXED = {it: it.replace("-", "_") + "_lem" for it in "in-line is-end is-stray name-kind number-kind string-kind starts-with bit-or bit-and".split()}
FIXED |= {"isWord": "is_word_class", "tokens-from": "plain_tokens_from"}
# The same, of names that have no dash any more, in the files that speak of them.
AGAIN = {
    "plainform/proofs/Digits.antt": {"is_digit": "is_digit_lem"},
    "tokens/proofs/Starts.antt": {"other_at": "other_at_lem"},
    "tokens/proofs/token_at/Proof.antt": {"other_at": "other_at_lem"},
}
TACTICS = set("rw simp search assumption cc omega grind hlevel first_of ground decide".split())


def spelled(name):
    if name in TYPES or name in FIXED:
        return TYPES.get(name) or FIXED[name]
    if name[:1].isupper():
        return name
    return re.sub(r"(?<=[a-z0-9])([A-Z])", lambda it: "_" + it[1].lower(), name).replace("-", "_")


def turns(name):
    return bool(DASHED.fullmatch(name) or CAMEL.fullmatch(name)) and spelled(name) != name


def read(path):
    with open(path, encoding="utf-8", newline="") as it:
        return it.read()


def code_only(text):
    return QUIET.sub("", text)


class Repository:
    def __init__(self, root):
        self.root = root
        self.crates = sorted(os.path.basename(os.path.dirname(it)) for it in glob.glob(f"{root}/crates/*/src"))
        self.antt = sorted(glob.glob(f"{root}/crates/*/specs/**/*.antt", recursive=True) + glob.glob(f"{root}/crates/*/proofs/**/*.antt", recursive=True))
        self.lemma_files = {it for it in self.antt if not self.of_function(it)}
        self.declared = set()
        for path in self.antt:
            for name in DECLARED.findall(code_only(read(path))):
                if path in self.lemma_files and turns(name):
                    self.declared.add(name)

    def of_function(self, path):
        parts = os.path.relpath(path, f"{self.root}/crates").split("/")
        return parts[1] == "proofs" and len(parts) > 3

    def is_own(self, module):
        steps = module.split(".")
        return steps[0] == "Rattle" and len(steps) > 1 and steps[1] in self.crates

    def imports(self, text):
        """The names that a file takes from the kit, and those that it takes from this repository."""
        foreign, own = set(), set()
        for module, items, renamed in USE.findall(text):
            for item in items.split(","):
                names = [it.strip("«» ") for it in item.split(" as ")]
                if names[0]:
                    (own if self.is_own(module) else foreign).add(names[0])
                    if len(names) > 1:
                        own.add(names[1])
            if renamed:
                own.add(renamed)
        return foreign, own

    def turn_words(self, text, wanted):
        """Turns the words of the code for which wanted(word, the sign before it) holds."""
        out, at = [], 0

        def part(it):
            def word(found):
                name, before = found[0], it[found.start() - 1 : found.start()]
                return spelled(name) if turns(name) and wanted(name, before, it[: found.start()]) else name

            return WORD.sub(word, it)

        for quiet in QUIET.finditer(text):
            out += [part(text[at : quiet.start()]), self.comment(quiet[0])]
            at = quiet.end()
        return "".join(out) + part(text[at:])

    def comment(self, text):
        if not text.startswith("--"):
            return text
        return re.sub(r"`([^`\n]+)`", lambda it: "`" + WORD.sub(lambda w: spelled(w[0]) if w[0] in self.declared else w[0], it[1]) + "`", text)

    def antt_text(self, path, text):
        foreign, own = self.imports(text)
        here = set(DECLARED.findall(code_only(text)))
        if path in self.lemma_files:

            def wanted(name, before, front):
                return name in self.declared if before == "." else name not in foreign

        else:

            def wanted(name, before, front):
                if before == ".":
                    return name in self.declared and name not in FIXED and not re.search(r"(?<![\w.])(goal|tie|code)\.$", front)
                return name in own or (name in here and name not in foreign)

        for name, new in next((AGAIN[it] for it in AGAIN if path.endswith("/" + it)), {}).items():
            text = re.sub(rf"(?<![\w.'-]){name}(?![\w'-])", new, text)
        return self.turn_words(text, wanted)

    def rt_text(self, text):
        taken = set()
        for use in GHOST_USE.findall(text):
            module = re.match(r"ghost\s+use\s+([^\s{;]+?)(?:\.\{|;| as)", use)
            if module and self.is_own(module[1]):
                taken |= {it.strip("«»") for it in WORD.findall(use)}

        def clause(it):
            return self.turn_words(it, lambda name, before, front: name in self.declared if before == "." else name in taken or name in self.declared)

        out, at = [], 0
        for found in sorted([*CLAUSE.finditer(text), *GHOST_USE.finditer(text)], key=lambda it: it.start()):
            if found.start() < at:
                continue
            end = found.end()
            if not found[0].startswith("ghost use"):
                depth = 1
                while depth:
                    depth += {"{": 1, "}": -1}.get(text[end], 0)
                    end += 1
            out += [text[at : found.start()], clause(text[found.start() : end])]
            at = end
        return "".join(out) + text[at:]

    def look(self):
        by = collections.defaultdict(set)
        for name in self.declared:
            by[spelled(name)].add(name)
        for new, olds in sorted(by.items()):
            if len(olds) > 1 or new in TACTICS:
                print(f"look: {', '.join(sorted(olds))} become {new}")
        for path in self.antt:
            text = code_only(read(path))
            foreign, own = self.imports(text)
            words = set(WORD.findall(text))
            for name in sorted(words):
                if turns(name) and name not in foreign and spelled(name) in words:
                    print(f"look: {path}: {name} beside {spelled(name)}")
        for path in sorted(glob.glob(f"{self.root}/crates/*/src/**/*.rt", recursive=True)):
            text = read(path)
            given = {it for it in re.findall(r"(?<![\w.])(?:pub )?(\w+): ", text)} | set(re.findall(r"\bconst (\w+)", text))
            for use in GHOST_USE.findall(text):
                for name in WORD.findall(use):
                    if turns(name) and spelled(name) in given:
                        print(f"look: {path}: {name} beside the code's {spelled(name)}")


def main(argv):
    check = "--check" in argv
    folders = [it for it in argv if not it.startswith("--")]
    repository = Repository(os.path.abspath(folders[0] if folders else "."))
    repository.look()
    changed = 0
    files = [(it, repository.antt_text) for it in repository.antt]
    files += [(it, lambda path, text: repository.rt_text(text)) for it in sorted(glob.glob(f"{repository.root}/crates/*/src/**/*.rt", recursive=True))]
    for path, turn in files:
        old = read(path)
        new = turn(path, old)
        if new != old:
            changed += 1
            if not check:
                with open(path, "w", encoding="utf-8", newline="") as it:
                    it.write(new)
    print(f"respell: {len(repository.declared)} names, {changed} files")


if __name__ == "__main__":
    main(sys.argv[1:])
