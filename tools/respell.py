#!/usr/bin/env python3
"""Spells the repository's own antt names as the newer Rattle does: words in snake case, facts and types in camel case.

usage: tools/respell.py [--check]      at the top, once, after port.py

A name is ours if a file of specs/ or proofs/ declares it. A lemma that would have its function's name gets `_lem`. Names that Rattle makes (behind `c.`, `l.`, `goal.`, `tie.`),
names of src/ and of the library stay. --check writes nothing and prints the table and what falls together.
"""
import collections
import os
import re
import sys

ROOT = os.path.join(os.path.dirname(os.path.abspath(__file__)), "..", "crates")
WORD = re.compile(r"[^\s(){}.;,@\"«»\[\]]+")
TOP = re.compile(r"^(\s*)((?:abbrev |unfoldable |pub )*)([^\s(){}:;.,]+)((?: \{[^}]*\})*) :(?: |$)(.*)")
DATA = re.compile(r"^\s*(?:pub )?(data|record) (\S+)")
USE = re.compile(r"\buse ([^\s;{]+)(?:\{([^;}]*)\})?")
# what stays, whatever it looks like: names that the library's words would be mistaken for
STAY = set()


def files(ext):
    for folder, dirs, names in os.walk(ROOT):
        dirs[:] = sorted(d for d in dirs if d != "out")
        for f in sorted(names):
            if f.endswith(ext):
                yield os.path.join(folder, f)


def read(path):
    with open(path, encoding="utf-8") as f:
        return f.read()


def declared():
    """Our names with their kinds: type, con, field, top or in (a module's or a where's)."""
    own = collections.defaultdict(set)
    facts = set()
    for path in files(".antt"):
        kind, depth = None, 0
        for line in read(path).split("\n"):
            m = DATA.match(line)
            if m:
                kind, depth = m[1], len(line) - len(line.lstrip())
                own[m[2]].add("type")
                continue
            m = TOP.match(line)
            if not m:
                continue
            at = len(m[1])
            if kind and at > depth:
                own[m[3]].add("con" if kind == "data" else "field")
            else:
                if kind and at <= depth:
                    kind = None
                own[m[3]].add("in" if at else "top")
                if re.search(r"(?:^|→ )Type 0\s*$", m[5]):
                    facts.add(m[3])
    return own, facts


def snake(name):
    name = re.sub(r"(?<=[a-z0-9])([A-Z])", lambda m: "_" + m[1].lower(), name)
    return name.replace("-", "_").replace("′", "'")


def camel(name):
    parts = re.split(r"[-_]", name)
    return "".join(p[:1].upper() + p[1:] for p in parts)


def from_library():
    """The names that some file imports from outside the repository, and every word of such imports."""
    out = collections.defaultdict(set)
    for ext in (".antt", ".rt"):
        for path in files(ext):
            for where, items in USE.findall(read(path)):
                steps = where.strip(".").split(".")
                ours = steps[0] == "Rattle" and os.path.isdir(os.path.join(ROOT, steps[1] if len(steps) > 1 else "?"))
                if not ours and "::" not in where:
                    for w in re.findall(r"[^\s,{}]+", items or ""):
                        out[w].add(path)
    return out


def functions():
    """The functions of src/: their proofs have names of a form that Rattle fixes."""
    found = set()
    for path in files(".rt"):
        found.update(re.findall(r"\bfn (\w+)", read(path)))
    return found


def table():
    own, facts = declared()
    lib = from_library()
    fns = functions()
    want = {}
    for name, kinds in own.items():
        if name in STAY or name in lib:
            continue
        bare = name.lstrip("+")
        if bare.startswith(("invariant-", "decreases-", "measure-")):
            continue
        if name in facts and bare[0].islower():
            want[name] = camel(name)
        elif bare[0].isupper() and ("-" in bare or "_" in bare):
            head, *rest = re.split(r"[-_]", bare)
            want[name] = bare.replace("-", "_") if rest else bare
        elif bare[0].isupper():
            continue
        else:
            want[name] = snake(name)
    taken = collections.defaultdict(list)
    for name in own:
        taken[want.get(name, name)].append(name)
    result = {}
    for new, olds in taken.items():
        def rank(n):  # the function keeps the plain name, then what is spelled so already, then lemmas
            return (0 if "-" not in n and n != new else 1 if n == new else 2, "top" not in own[n], n)
        held = [n for n in olds if n == new and own[n] == {"field"}]  # fields stand behind a dot, and meet no function
        olds = [n for n in olds if n not in held]
        for i, old in enumerate(sorted(olds, key=rank)):
            spelled = new if i == 0 else new + "_lem" + ("" if i == 1 else str(i))
            if spelled != old:
                result[old] = spelled
    for old, new in list(result.items()):
        if new in lib:
            result[old] = new + "_lem" if "-" in old else new + "_of"
    return result, own, facts, lib, fns


SPAN = re.compile(r"`[^`\n]+`")
QUOTED = re.compile(r'"(?:[^"\\\n]|\\.)*"')


class Turner:
    def __init__(self):
        self.table, self.own, _, _, self.functions = table()
        self.fields = {n for n, kinds in self.own.items() if "field" in kinds}
        self.modules = {m for p in files(".antt") for m in re.findall(r"\buse (?:Rattle\.[^\s{]*) as (\S+)", read(p))} - {"tie", "goal"}

    def word(self, text, at, word):
        if at and text[at - 1] == ".":
            head = WORD.findall(text[max(0, at - 80) : at - 1])
            if word in self.fields or re.search("[a-z0-9][A-Z]", word) and not word[0].isupper() or head and head[-1] in self.modules:
                return self.table.get(word, word)
            return snake(word) if "-" in word and snake(word) in self.functions else word
        return self.table.get(word, word)

    def code(self, text):
        return WORD.sub(lambda m: self.word(text, m.start(), m[0]), text)

    def comment(self, text):
        text = SPAN.sub(lambda m: "`" + self.code(m[0][1:-1]) + "`", text)
        return re.sub(r"(?<![\w`.-])[a-z0-9]+[A-Z]\w*(?![\w-])", lambda m: self.table.get(m[0], m[0]), text)

    def antt(self, text):
        out = []
        for line in text.split("\n"):
            m = re.search(r"(?:(?<=\s)|^)--(?:\s|$)", line)
            cut = m.start() if m else len(line)
            out.append(self.code(line[:cut]) + self.comment(line[cut:]))
        return "\n".join(out)

    def rt(self, text):
        """Clauses and imports have our names; the code has none in camel case or with a dash, so only those turn there."""
        out, at = [], 0
        for m in re.finditer(r"//[^\n]*|" + QUOTED.pattern, text):
            out += [self.clauses(text[at : m.start()]), self.comment(m[0]) if m[0].startswith("//") else m[0]]
            at = m.end()
        return "".join(out + [self.clauses(text[at:])])

    def clauses(self, text):
        turns = lambda w: re.search("[a-z0-9][A-Z]|-", w) and not w[0].isupper()
        text = WORD.sub(lambda m: self.word(text, m.start(), m[0]) if turns(m[0]) else m[0], text)
        # names in snake case that fell together with a function's are lemmas, and no clause cites a lemma
        return text


    def edit(self, text):
        return (self.antt if re.search(r"(?m)^file: (?:specs|proofs)/", text) else self.clauses)(text)


def main():
    t = Turner()
    if "--check" in sys.argv:
        for old, new in sorted(t.table.items()):
            print(old, new, ",".join(sorted(t.own[old])))
        return 0
    for ext, turn in ((".antt", t.antt), (".rt", t.rt), (".edit", t.edit)):
        for path in list(files(ext)):
            text = read(path)
            new = turn(text)
            if new != text:
                with open(path, "w", encoding="utf-8") as f:
                    f.write(new)
    top = os.path.join(ROOT, "..")
    for path in [os.path.join(top, "README.md")] + [os.path.join(top, "docs", f) for f in sorted(os.listdir(os.path.join(top, "docs"))) if f.endswith(".md")]:
        text = read(path)
        new = SPAN.sub(lambda m: "`" + t.code(m[0][1:-1]) + "`", text)
        if new != text:
            with open(path, "w", encoding="utf-8") as f:
                f.write(new)
    return 0


if __name__ == "__main__":
    raise SystemExit(main())
