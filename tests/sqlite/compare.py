"""Compares the program `answer` with SQLite: each checked sheet becomes one SQL statement over its book's tables.

Usage: compare.py [--random SEED COUNT] [FOLDER...]

FOLDER holds folders of texts, as tests/cases and tests/steps do; --random takes COUNT folders that tests/reference makes from SEED on.
In each, `answer` runs without steps and, if there are any, with them. Columns, row count and rows in their order must be those of the
FIRST sheet's statement, since steps may not change them. `ran` has no counterpart in SQL. What `answer` refuses is skipped and counted
by its number. Needs crates/answer/out/answer (`rt run` in crates/answer) and Python's sqlite3 module, whose library is Debian's libsqlite3; its version
is printed. The command sqlite3 is not used.

The statement. Each closed node is a common table expression, one rule for each line of document 01's table; a relation without columns
has one column that is always 1. A fix is `WITH RECURSIVE`: seed UNION step. SQLite wants the recursive table exactly once in the FROM
of each recursive term, and in no subquery and no other expression. So the open nodes of a step become no expressions of their own: a
step is one recursive term for each `var` on its path, with the path's filters and joins in its WHERE and FROM, and the columns as
expressions over these tables. That covers every checked sheet: by 5 to 8 an open node has one open operand, or is a union of two, and
a fix within a step is closed. What SQLite does not finish in STEPS steps of its machine is skipped and counted.

A `mu` is `WITH RECURSIVE` over its body as typed, and nothing is split: the body's SELECTs are united, those that don't read the
recursive table first, as SQLite wants them. Its columns are those of the body, whose variable's are those of a branch without it.

A `last=C` is the rows of its operand's expression for which NOT EXISTS a row of that same expression, called `other`, that is equal in
every other column and has a greater C. Its operand is closed, so it is never in a recursive term. Whether one drops rows is asked apart
and counted.
"""
import collections
import pathlib
import re
import sqlite3
import subprocess
import sys
import tempfile
from typing import NamedTuple

TOP = pathlib.Path(__file__).resolve().parent.parent.parent
ANSWER = TOP / "crates" / "answer" / "out" / "answer"
REFERENCE = TOP / "tests" / "reference" / "Cargo.toml"
BATCH = 500
STEPS = 50_000_000
# All but that of a path's text.
REFUSALS = {*range(1, 21), 22}
# Sheets that tests/reference makes are checked, and their steps accepted, by construction: only a limit may be met.
LIMITS = (18, 19)
OPERANDS = {"table": 0, "var": 0, "fact": 0, "pair": 2, "fix": 2}
# A filter's column, and its value or other column. A column that holds 0 passes no `max`.
CONDITIONS = {"eq": "{0} = {1}", "ne": "{0} <> {1}", "max": "{0} <> 0 AND {0} <= {1}", "same": "{0} = {1}"}


class Term(NamedTuple):
    """One SELECT: its tables, its conditions and the expression of each column."""

    tables: tuple
    where: tuple
    values: dict

    def select(self):
        text = "SELECT DISTINCT " + (", ".join(self.values[c] for c in sorted(self.values)) or "1")
        if self.tables:
            text += " FROM " + ", ".join(self.tables)
        if self.where:
            text += " WHERE " + " AND ".join(self.where)
        return text


def named(table, columns):
    return Term((table,), (), {c: f"{table}.c{c}" for c in columns})


def names(columns):
    return ", ".join(f"c{c}" for c in sorted(columns)) or "one"


class Sheet:
    """A checked sheet over the columns of a book's tables."""

    def __init__(self, text, schema):
        self.schema = schema
        # The fix or `mu` of each variable.
        self.lines, self.operands, self.fix_of = [], [], {}
        waiting = []
        for line in text.splitlines()[2:]:
            key, value = line.split("=")
            node, taken = len(self.lines), OPERANDS.get(key, 1)
            operands = waiting[len(waiting) - taken:]
            waiting = waiting[: len(waiting) - taken] + [node]
            self.lines.append((key, value if key == "pair" else [int(number) for number in value.split(",")]))
            self.operands.append(operands)
            if key in ("fix", "mu"):
                self.fix_of[int(value)] = node
        self.root = waiting.pop()
        # Whether a `last` drops rows over the book.
        self.drops = False
        self.free = [self.variables(node) for node in range(len(self.lines))]

    def variables(self, node):
        """The variables of a node that no fix or `mu` in it binds."""
        key, value = self.lines[node]
        if key == "var":
            return set(value)
        below = [self.variables(operand) for operand in self.operands[node]]
        if key == "mu":
            return below[0] - set(value)
        return below[0] | (below[1] - set(value)) if key == "fix" else set().union(*below)

    def columns(self, node):
        key, value = self.lines[node]
        if key == "table":
            return self.schema[value[0]]
        if key == "var":
            return self.columns(self.grounded(self.operands[self.fix_of[value[0]]][0]))
        if key == "fact":
            return {value[0]}
        below = [self.columns(operand) for operand in self.operands[node]]
        if value == "join":
            return below[0] | below[1]
        if key == "copy":
            return below[0] | {value[1]}
        if key == "drop":
            return below[0] - set(value)
        return below[0]

    def grounded(self, node):
        """A node, or of a union whose variable is sought a side without variables: a body has one somewhere."""
        if not self.free[node]:
            return node
        sides = self.operands[node] if self.lines[node] == ("pair", "union") else []
        return next((found for found in map(self.grounded, sides) if found is not None), None)

    def terms(self, node):
        """The SELECTs whose union a node is; closed operands stand as the tables of their own expressions."""
        key, value = self.lines[node]
        if key == "table":
            return [named(f"t{value[0]}", self.columns(node))]
        if key == "var":
            return [named(f"n{self.fix_of[value[0]]}", self.columns(node))]
        if key == "fact":
            return [Term((), (), {value[0]: str(value[1])})]
        below = [self.terms(operand) if self.free[operand] else [self.table(operand)] for operand in self.operands[node]]
        if key == "fix" or value == "union":
            return below[0] + below[1]
        if value == "join":
            return [joined(left, right) for left in below[0] for right in below[1]]
        if value == "except":
            return [without(left, self.table(self.operands[node][1])) for left in below[0]]
        if key == "mu":
            return sorted(below[0], key=lambda term: f"n{node}" in term.tables)
        if key == "last":
            return [newest(value[0], self.operands[node][0], below[0][0])]
        return [single(key, value, term) for term in below[0]]

    def table(self, node):
        return named(f"n{node}", self.columns(node))

    def asked(self, sought):
        """A statement over the expressions of the closed nodes."""
        expressions = [
            f"n{node}({names(self.columns(node))}) AS ({' UNION '.join(term.select() for term in self.terms(node))})"
            for node in range(len(self.lines))
            if not self.free[node]
        ]
        return f"WITH RECURSIVE {', '.join(expressions)} SELECT {sought}"

    def statement(self):
        order = names(self.columns(self.root))
        return self.asked(f"{order} FROM n{self.root} ORDER BY {order}")

    def traits(self):
        """What is worth counting."""
        yield from {value if key == "pair" else key for key, value in self.lines}
        steps = [self.operands[node][-1] for node in self.fix_of.values()]
        if any(self.recursive(node) > 1 for node in self.fix_of.values()):
            yield "several recursive terms"
        if any(self.lines[node][0] in ("fix", "mu") for step in steps for node in self.below(step)):
            yield "fix or mu in a step or body"
        yield from {trait for node, (key, _) in enumerate(self.lines) if key == "mu" for trait in self.mu_traits(node)}
        yield from {trait for node, (key, _) in enumerate(self.lines) if key == "last" for trait in self.last_traits(node)}
        if self.drops:
            yield "last that drops rows"
        if not self.columns(self.root):
            yield "no columns"

    def recursive(self, node):
        """How many SELECTs of a fix or `mu` read its own table."""
        return sum(f"n{node}" in term.tables for term in self.terms(node))

    def mu_traits(self, node):
        body = self.operands[node][0]
        branches = list(self.branches(body))
        closed = [not self.free[branch] for branch in branches]
        if closed.count(True) > 1:
            yield "mu of several closed branches"
        if closed.count(False) > 1:
            yield "mu of several open branches"
        if closed != sorted(closed, reverse=True):
            yield "mu with a closed branch after an open one"
        if any(self.lines[inner][0] == "mu" for inner in self.below(body)):
            yield "mu in a mu"
        if any(self.lines[inner] == ("pair", "union") for branch in branches for inner in self.below(branch)):
            yield "mu with a union under another line"

    def last_traits(self, node):
        """Where a `last` stands."""
        below = self.operands[node][0]
        if len(self.columns(below)) == 1:
            yield "last of one column"
        if self.lines[below][0] in ("fix", "mu"):
            yield "last over a fix or mu"
        for around, (key, _) in enumerate(self.lines):
            sides = self.operands[around]
            if key == "fix" and node in self.below(sides[0]):
                yield "last in a seed"
            if key == "fix" and node in self.below(sides[1]):
                yield "last in a step"
            if key == "mu" and node in self.below(sides[0]):
                yield "last in a body"

    def kept(self):
        """For each `last` a statement that tells whether it drops rows."""
        for node, (key, _) in enumerate(self.lines):
            if key == "last":
                yield self.asked(f"(SELECT count(*) FROM n{node}) < (SELECT count(*) FROM n{self.operands[node][0]})")

    def branches(self, node):
        if self.lines[node] != ("pair", "union"):
            yield node
            return
        for operand in self.operands[node]:
            yield from self.branches(operand)

    def below(self, node):
        yield node
        for operand in self.operands[node]:
            yield from self.below(operand)


def equal(left, right):
    """Two rows fit when no shared column differs."""
    return tuple(f"{left[c]} = {right[c]}" for c in sorted(left.keys() & right.keys()))


def joined(left, right):
    where = left.where + right.where + equal(left.values, right.values)
    return Term(left.tables + right.tables, where, {**right.values, **left.values})


def without(left, right):
    fitting = Term(right.tables, equal(left.values, right.values), {})
    return left._replace(where=left.where + (f"NOT EXISTS ({fitting.select()})",))


def newest(column, operand, term):
    """The rows of a closed operand that no other row replaces."""
    agreeing = equal(term.values, {c: f"other.c{c}" for c in term.values if c != column})
    greater = f"other.c{column} > {term.values[column]}"
    replacing = Term((f"n{operand} AS other",), (*agreeing, greater), {})
    return term._replace(where=(f"NOT EXISTS ({replacing.select()})",))


def single(key, value, term):
    """A filter, copy or drop."""
    values = term.values
    if key == "copy":
        return term._replace(values={**values, value[1]: values[value[0]]})
    if key == "drop":
        return term._replace(values={c: values[c] for c in values if c != value[0]})
    other = values[value[1]] if key == "same" else value[1]
    return term._replace(where=term.where + (CONDITIONS[key].format(values[value[0]], other),))


def load(database, text):
    """Creates a book's tables; their columns. A book of zero bytes has none."""
    if not text:
        return []
    lines = iter(text.splitlines()[1:])
    number = lambda: int(next(lines).split("=")[1])
    listed = lambda: [int(part) for part in next(lines).split("=")[1].split(",")]
    schema = []
    for table in range(number()):
        columns = listed()
        database.execute(f"CREATE TABLE t{table} ({', '.join(f'c{c} INTEGER NOT NULL' for c in columns)})")
        rows = [listed() for _ in range(number())]
        database.executemany(f"INSERT INTO t{table} VALUES ({', '.join('?' for _ in columns)})", rows)
        schema.append(set(columns))
    return schema


def queried(sheet, book):
    """A sheet read over its book, and what `answer` is to print before `ran`: nothing if SQLite does not finish."""
    database = sqlite3.connect(":memory:")
    try:
        read = Sheet(sheet, load(database, book))
        database.set_progress_handler(lambda: 1, STEPS)
        rows = database.execute(read.statement()).fetchall()
        read.drops = any(database.execute(statement).fetchone()[0] for statement in read.kept())
    except sqlite3.OperationalError as error:
        if str(error) == "interrupted":
            return read, None
        raise
    finally:
        database.close()
    columns = sorted(read.columns(read.root))
    text = f"guide=1\ncols={','.join(map(str, columns))}\nrows={len(rows)}\n"
    return read, text + "".join(f"row={','.join(map(str, row[:len(columns)]))}\n" for row in rows)


def answered(folder, sheet, book, steps):
    for name, text in (("sheet.txt", sheet), ("book.txt", book), ("steps.txt", steps)):
        (folder / name).write_bytes(text)
    ran = subprocess.run([ANSWER], cwd=folder, stdin=subprocess.DEVNULL, capture_output=True, timeout=60, check=True)
    return ran.stdout.decode()


def texts(folder):
    """A folder's sheet, book and steps; a missing file counts as empty."""
    for choice in (("sheet.txt", "query.txt"), ("book.txt", "database.txt"), ("steps.txt",)):
        found = [folder / name for name in choice if (folder / name).is_file()]
        yield found[0].read_bytes() if found else b""


class Tally:
    def __init__(self):
        self.sheets, self.failed = 0, 0
        self.agreed, self.skipped, self.traits = collections.Counter(), collections.Counter(), collections.Counter()

    def compare(self, folder, scratch, refusals):
        """Compares what `answer` prints of a folder's texts, without the steps and with them. Other refusals than those given fail."""
        sheet, book, steps = texts(folder)
        printed = {}
        for kind, lines in {"without steps": b"", **({"with steps": steps} if steps else {})}.items():
            text = answered(scratch, sheet, book, lines)
            refusal = re.fullmatch(r"refused=(\d+),\d+\n", text)
            if refusal and int(refusal[1]) not in refusals:
                self.fail(folder, f"{kind}: {text}of\n{sheet.decode()}{book.decode()}{steps.decode()}")
            elif refusal:
                self.skipped[f"{kind}, refused with {refusal[1]}"] += 1
            else:
                printed[kind] = text
        if not printed:
            return
        try:
            read, sought = queried(sheet.decode(), book.decode())
        except sqlite3.Error as error:
            self.fail(folder, f"SQLite: {error}")
            return
        if sought is None:
            self.skipped["not finished by SQLite"] += len(printed)
            return
        self.sheets += 1
        self.traits.update(read.traits())
        self.traits["rows"] += "\nrow=" in sought
        self.traits["book of zero bytes"] += not book
        if "with steps" in printed:
            self.traits.update({f"kind {kind}" for kind in re.findall(r"step=(\d+)", steps.decode())})
        for kind, text in printed.items():
            if re.fullmatch(re.escape(sought) + r"ran=\d+\n", text):
                self.agreed[kind] += 1
            else:
                self.fail(folder, f"{kind}: SQLite gives\n{sought}answer prints\n{text}of\n{sheet.decode()}{book.decode()}{steps.decode()}")

    def fail(self, folder, why):
        self.failed += 1
        print(f"FAILED {folder} {why}")

    def report(self):
        print(f"SQLite {sqlite3.sqlite_version}: {self.sheets} sheets compared; agreed: {counts(self.agreed)}")
        print(f"skipped: {counts(self.skipped)}")
        print(f"compared sheets by what is in them: {counts(self.traits)}")
        print(f"{sum(self.agreed.values())} passed, {self.failed} failed")
        return self.failed > 0 or not self.sheets


def counts(counter):
    ordered = sorted(counter.items(), key=lambda item: re.sub(r"\d+", lambda digits: digits[0].zfill(2), item[0]))
    return "; ".join(f"{name}: {count}" for name, count in ordered) or "none"


def random_folders(seed, count):
    """Folders that tests/reference makes, a batch at a time."""
    cargo = ["cargo", "run", "--release", "--offline", "--quiet", "--manifest-path", REFERENCE, "--bin", "sheets", "--"]
    for start in range(seed, seed + count, BATCH):
        with tempfile.TemporaryDirectory() as made:
            subprocess.run([*cargo, str(start), str(min(BATCH, seed + count - start)), made], check=True)
            yield from folders(pathlib.Path(made))


def folders(place):
    return sorted(path for path in place.iterdir() if path.is_dir())


def main(arguments):
    if sqlite3.sqlite_version_info < (3, 34):
        print("SQLite 3.34 or later is needed: several recursive terms in one WITH RECURSIVE")
        return 2
    chosen = []
    while arguments:
        word = arguments.pop(0)
        if word == "--random":
            chosen.append((random_folders(int(arguments.pop(0)), int(arguments.pop(0))), LIMITS))
        else:
            chosen.append((folders(pathlib.Path(word)), REFUSALS))
    if not chosen:
        print(__doc__)
        return 2
    tally = Tally()
    with tempfile.TemporaryDirectory() as scratch:
        for place, refusals in chosen:
            for folder in place:
                tally.compare(folder, pathlib.Path(scratch), refusals)
    return tally.report()


if __name__ == "__main__":
    sys.exit(main(sys.argv[1:]))
