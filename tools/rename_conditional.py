#!/usr/bin/env python3
"""Gives the conditional and the equivalence of laws names that the library does not have: when◌then◌else◌ and ◌iff◌, in every file that imports them.

usage: tools/rename_conditional.py     at the top, once, after tools/respell.py (rt ci refuses a definition that is named as one of the library's operators)
"""
import os, re
NEW = {"if◌then◌else◌": ("if", "when"), "◌==◌": ("==", "iff")}
USE = re.compile(r"use Rattle\.laws\.specs\.Lists\.\{([^}]*)\}")

def named(text, path):
    if path.endswith("crates/laws/specs/Lists.antt"):
        return set(NEW)
    return {name for found in USE.findall(text) for name in NEW if name in [it.split(" as ")[0].strip() for it in found.split(",")]}

def token(line, old, new):
    return re.sub(rf"(?<![^\s(\[{{,;|⌜]){re.escape(old)}(?=\s|$)", new, line)

def change(line, names):
    for name in names:
        old, new = NEW[name]
        line = line.replace(name, name.replace(old, new))
        line = token(line, old, new)
    return line

def antt(text, names):
    out = []
    for line in text.split("\n"):
        at = re.search(r"(?<!\S)--", line)
        code, rest = (line[: at.start()], line[at.start():]) if at else (line, "")
        out.append(change(code, names) + rest)
    return "\n".join(out)

def rt(text, names):
    out, depth = [], 0
    for line in text.split("\n"):
        inside = depth > 0 or re.match(r"\s*(?:pub )?(?:ghost|requires|ensures)\b", line)
        depth += (line.count("{") - line.count("}")) * bool(inside)
        out.append(change(line, names) if inside else line)
    return "\n".join(out)

count = 0
imports = {}
for at, dirs, files in os.walk("crates"):
    dirs[:] = [d for d in dirs if d != "out"]
    for f in files:
        p = f"{at}/{f}"
        if f.endswith((".antt", ".rt")):
            text = open(p).read()
            names = imports[p] = named(text, p)
            if names:
                new = (antt if f.endswith(".antt") else rt)(text, names)
                if new != text:
                    open(p, "w").write(new); count += 1
edits = 0
for at, dirs, files in os.walk("crates"):
    dirs[:] = [d for d in dirs if d != "out"]
    if os.path.basename(at) != "must-fail":
        continue
    for f in files:
        p = f"{at}/{f}"
        lines = open(p).read().split("\n")
        of = next((l[6:].strip() for l in lines if l.startswith("file: ")), "")
        names = imports.get(f"{os.path.dirname(at)}/{of}", set())
        if not names:
            continue
        spec = of.endswith(".antt")
        new = []
        for l in lines:
            head = l[:5] in ("old: ", "new: ")
            clause = spec or re.search(r"\b(requires|ensures)\b|\bthen\b.*\belse\b", l)
            new.append(l[:5] + change(l[5:], names) if head and clause else l)
        if new != lines:
            open(p, "w").write("\n".join(new)); edits += 1
p = "tests/layout.py"
t = open(p).read()
n = re.sub(r"(past_pair k f Join a b = )if (.*?\(\)?)if ", r"\1when \2when ", t)
n = n.replace("Join a b = if eqb k 8 then some (past_left f a b) else (if eqb k 9", "Join a b = when eqb k 8 then some (past_left f a b) else (when eqb k 9").replace("pair_passed Join = if eqb k 8 then PastLeft f else if eqb k 9", "pair_passed Join = when eqb k 8 then PastLeft f else when eqb k 9")
if n != t:
    open(p, "w").write(n)
print(count, "files,", edits, "edits")
