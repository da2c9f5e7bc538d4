"""Compares paths with rdflib's SPARQL engine: which texts are paths, and the pairs that a path links.

Usage: compare.py SEED COUNT

Each of COUNT seeds from SEED on gives some tables and a path's text: three of four that of a random tree, with needless parentheses
here and there, the others such a text with signs and names taken out, put in, exchanged or doubled. A table's rows are triples from
column 0 to column 1 whose predicate is an IRI for the table, and the text with these IRIs in place of its names stands in

    SELECT DISTINCT ?x ?y { ?x PATH ?y }

so that rdflib's own parser decides what binds tighter. The engine reads the text by capeshard_read_path, which must give 21 exactly
where that parser refuses, and runs the sheet by capeshard_run, whose rows must be the pairs that rdflib finds. The place of 21 has no
counterpart. Paths of over 128 nodes (2) are skipped and counted. The standard has more signs, other names and blanks: no text has
them, and none has digits that are no name.

Needs crates/capi/out/libcapi.a (`rt lib` in crates/capi), a C compiler, and Debian's python3-rdflib, which /usr/bin/python3 finds; its
version is printed.
"""
import collections
import ctypes
import pathlib
import random
import re
import subprocess
import sys
import tempfile
from typing import NamedTuple

import pyparsing
import rdflib
from rdflib.plugins.sparql.algebra import translateQuery
from rdflib.plugins.sparql.parser import parseQuery

TOP = pathlib.Path(__file__).resolve().parent.parent.parent
LIBRARY = TOP / "crates" / "capi" / "out" / "libcapi.a"
COLUMNS, NODES, TABLES, BYTES = 8, 128, 16, 128
# The layout of include/capeshard.h: the entries of a line and of a table, the code of a fix, and the columns 0 and 1 as bits.
LINE, TABLE, FIX, LINKING = 3, 2, 13, 3
# Values are few, so that links meet. A holder of a path's run has at most the columns 0, 1 and 2.
VALUES = 7
ROWS = VALUES**3
# The signs from the loosest on; a name, which has none, binds tightest.
LEVELS = ("|", "/", "^", "+", "")
# The loosest sign that each operand may have without parentheses, and the text.
OPERANDS = {"|": ("|", "/"), "/": ("/", "^"), "^": ("+",), "+": ("",)}
FORMS = {"|": "{}|{}", "/": "{}/{}", "^": "^{}", "+": "{}+"}
# Differences that are printed.
SHOWN = 20


class Tree(NamedTuple):
    """A path: a sign and its operands, or no sign and the table's number."""

    sign: str
    operands: tuple

    def traits(self):
        """What is worth counting."""
        if self.sign:
            yield self.sign
            for operand in self.operands:
                yield from ({f"{self.sign} of {operand.sign}"} if operand.sign else ())
                yield from operand.traits()


def tree_of(chance, tables, signs):
    """A path of so many signs."""
    if not signs:
        return Tree("", (chance.randrange(tables),))
    sign = chance.choice("||//^+")
    first = chance.randrange(signs) if len(OPERANDS[sign]) == 2 else signs - 1
    sizes = (first, signs - 1 - first)[: len(OPERANDS[sign])]
    return Tree(sign, tuple(tree_of(chance, tables, size) for size in sizes))


def printed(chance, tree, loosest="|"):
    """The text where signs from this one on may stand: in parentheses if it must be, and now and then if it need not."""
    if tree.sign:
        text = FORMS[tree.sign].format(*(printed(chance, *operand) for operand in zip(tree.operands, OPERANDS[tree.sign])))
    else:
        text = str(tree.operands[0])
    pairs = int(LEVELS.index(tree.sign) < LEVELS.index(loosest))
    while chance.random() < 0.1:
        pairs += 1
    return "(" * pairs + text + ")" * pairs


def harmed(chance, text):
    """A text with one or two edits of signs and names."""
    tokens = re.findall(r"\d+|.", text)
    for _ in range(chance.randint(1, 2)):
        at, other = chance.randrange(len(tokens) + 1), chance.choice([*"|/^+()", "0", "15"])
        tokens[at : at + chance.choice((0, 1, 1))] = chance.choice(([], [other], [other], tokens[at : at + 1] * 2))
    return "".join(tokens)


def tables_of(chance):
    """Sparse tables and dense ones, some of them empty."""
    count = TABLES if chance.random() < 0.1 else chance.randint(1, 4)
    value = lambda: chance.randrange(VALUES)
    return [{(value(), value()) for _ in range(chance.choice((0, 2, 4, 6, 12)))} for _ in range(count)]


def blank(entries):
    return (ctypes.c_uint32 * entries)()


def array(entries):
    return (ctypes.c_uint32 * len(entries))(*entries)


def stored(tables):
    """The flat form of a database whose tables have the columns 0 and 1, and its store."""
    flat = [len(tables)] + [entry for rows in tables for entry in (LINKING, len(rows))]
    flat += [0] * (1 + TABLE * TABLES - len(flat))
    slots = [entry for rows in tables for row in sorted(rows) for entry in (*row, *[0] * (COLUMNS - 2))]
    return array(flat), array(slots)


def lent(*slices):
    """The arguments of a call: a pointer and a count for each slice."""
    for part in slices:
        yield from (part, ctypes.c_size_t(len(part)))


class Engine:
    """The calls of include/capeshard.h, from the static library by way of a shared one."""

    def __init__(self, folder):
        shared = pathlib.Path(folder) / "libcapeshard.so"
        subprocess.run(["cc", "-shared", "-o", shared, "-Wl,--whole-archive", LIBRARY, "-Wl,--no-whole-archive"], check=True)
        self.calls = ctypes.CDLL(str(shared))
        for call in (self.calls.capeshard_read_path, self.calls.capeshard_run):
            call.restype = ctypes.c_uint64

    def read_path(self, text, database):
        """The query of a path's text, or the refusal's number."""
        path, query = (ctypes.c_uint8 * len(text))(*text.encode()), blank(1 + LINE * NODES)
        status = self.calls.capeshard_read_path(*lent(path, *database), ctypes.c_size_t(NODES), *lent(query))
        return status >> 32 if status else query

    def run(self, query, database):
        """The pairs of a query's answer in their order, or the refusal's number."""
        fixes = query[1 : 1 + LINE * query[0] : LINE].count(FIX)
        workspace, answer, told = blank((query[0] + fixes) * (1 + COLUMNS * ROWS)), blank(COLUMNS * ROWS), blank(3)
        limits = ctypes.c_size_t(NODES), ctypes.c_size_t(ROWS), ctypes.c_uint32(2**32 - 1)
        status = self.calls.capeshard_run(*lent(query, *database), *limits, *lent(workspace, answer, told))
        if status:
            return status >> 32
        rows = [answer[COLUMNS * row : COLUMNS * (row + 1)] for row in range(told[1])]
        linking = told[0] == LINKING and not any(any(row[2:]) for row in rows)
        return [tuple(row[:2]) for row in rows] if linking else "other columns"


def with_iris(text):
    """The text with IRIs in place of names; nothing if some digits are no name."""
    if any(digits != str(int(digits)) or int(digits) >= TABLES for digits in re.findall(r"\d+", text)):
        return None
    return re.sub(r"\d+", lambda digits: f"<urn:table:{digits[0]}>", text)


def graph_of(tables):
    graph = rdflib.Graph()
    for table, rows in enumerate(tables):
        for row in rows:
            first, last = (rdflib.URIRef(f"urn:value:{value}") for value in row)
            graph.add((first, rdflib.URIRef(f"urn:table:{table}"), last))
    return graph


def found(tables, path):
    """The pairs that rdflib finds, ascending; nothing if its parser refuses the path."""
    try:
        parsed = parseQuery(f"SELECT DISTINCT ?x ?y {{ ?x {path} ?y }}")
    except pyparsing.ParseException:
        return None
    value = lambda node: int(node.rpartition(":")[2])
    return sorted((value(x), value(y)) for x, y in graph_of(tables).query(translateQuery(parsed)))


class Tally:
    def __init__(self, engine):
        self.engine, self.failed = engine, 0
        self.agreed, self.skipped, self.traits = collections.Counter(), collections.Counter(), collections.Counter()

    def compare(self, seed):
        chance = random.Random(seed)
        tables = tables_of(chance)
        tree = tree_of(chance, len(tables), chance.randrange(9))
        text = printed(chance, tree)
        edited = chance.random() < 0.25
        if edited:
            text = harmed(chance, text)
        path = with_iris(text)
        if path is None or not 0 < len(text) <= BYTES:
            self.skipped["digits that are no name, or not 1 to 128 bytes"] += 1
            return
        database = stored(tables)
        query, pairs = self.engine.read_path(text, database), found(tables, path)
        told = f"seed {seed}: {text} over {tables}"
        if query == 21 or pairs is None:
            self.outcome("off the grammar", query == 21 and pairs is None, f"{told}: engine {query}, rdflib {pairs}")
        elif query == 2 or query == 10 and edited:
            # An edit may name a table that isn't there.
            self.skipped[f"refused with {query}"] += 1
        else:
            rows = query if isinstance(query, int) else self.engine.run(query, database)
            self.outcome("links", rows == pairs, f"{told}: engine {rows}, rdflib {pairs}")
            self.traits.update(["edited"] if edited else set(tree.traits()))
            self.traits["pairs"] += bool(pairs)

    def outcome(self, kind, agrees, told):
        if agrees:
            self.agreed[kind] += 1
            return
        self.failed += 1
        if self.failed <= SHOWN:
            print(f"FAILED {told}")

    def report(self):
        cases = sum(self.agreed.values()) + self.failed
        print(f"rdflib {rdflib.__version__}: {cases} cases compared, {self.failed} differences; agreed: {counts(self.agreed)}")
        print(f"skipped: {counts(self.skipped)}")
        print(f"links by what is in the path: {counts(self.traits)}")
        print(f"{cases - self.failed} passed, {self.failed} failed")
        return self.failed > 0 or not self.agreed["links"]


def counts(counter):
    return "; ".join(f"{name}: {counter[name]}" for name in sorted(counter)) or "none"


def main(arguments):
    if len(arguments) != 2:
        print(__doc__)
        return 2
    seed, count = map(int, arguments)
    with tempfile.TemporaryDirectory() as folder:
        tally = Tally(Engine(folder))
        for each in range(seed, seed + count):
            tally.compare(each)
    return tally.report()


if __name__ == "__main__":
    sys.exit(main(sys.argv[1:]))
