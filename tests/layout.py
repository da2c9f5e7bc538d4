"""Rules of the repository that no proof states. Ends with 'N passed, M failed'."""
import pathlib
import re
import sys

TOP = pathlib.Path(__file__).resolve().parent.parent
CRATES = [line.split(":")[0].split()[0] for line in (TOP / "crates.txt").read_text().splitlines() if line and not line.startswith("#")]
EXAMPLES = {"examples"}


def code_lines(path):
    """The lines of a specification or proof without its comments."""
    for number, line in enumerate(path.read_text().splitlines(), 1):
        yield number, re.sub(r"--.*", "", line)


def crate_files(kind):
    for crate in CRATES:
        yield from sorted((TOP / "crates" / crate / kind).rglob("*.antt"))


def every_crate_is_in_the_readme():
    readme = (TOP / "README.md").read_text()
    return [f"README.md does not name the crate {crate}" for crate in CRATES if f"`{crate}`" not in readme]


def the_width_stands_once():
    """The number of columns is a parameter: the numeral is given to it in one place; elsewhere it is refusal number 8, kind 8 and the bytes of `refused=`."""
    found = []
    for path in crate_files("specs"):
        if path.relative_to(TOP / "crates").parts[0] in EXAMPLES:
            continue
        for number, line in code_lines(path):
            if re.search(r"(?<![\w.,])8(?![\w.,])", line):
                found.append((path.relative_to(TOP).as_posix(), line.strip()))
    allowed = [
        ("crates/relation/specs/Rows.antt", "columns = 8"),
        ("crates/database/specs/Refusals.antt", "number (HalfOpen n) = 8"),
        (
            "crates/algebra/specs/Past.antt",
            "past_pair k f Join a b = when eqb k 8 then Some (past_left f a b) else (when eqb k 9 then Some (past_right f a b) else None)",
        ),
        ("crates/passing/specs/Passing.antt", "pair_passed Join = when eqb k 8 then Some (PastLeft f) else when eqb k 9 then Some (PastRight f) else None"),
        ("crates/writing/specs/Rooms.antt", "refusal_room = line_room 8 (number_digits + 1 + place_digits)"),
    ]
    return [f"{path}: {line}" for path, line in found if (path, line) not in allowed] + [
        f"{path}: {line} is missing" for path, line in allowed if (path, line) not in found
    ]


def the_panels_numbers_agree():
    """Node limit, row limit and workspace of the panel: in the specification, the code, the C header and the Rust wrapper."""
    places = {
        "crates/machine/specs/Limits.antt": [r"panel_limits = record \{ nodes = (\d+);", r"panel_limits = record \{.* rows = (\d+) \}", None],
        "crates/panel/src/lib.rt": [r"PANEL_NODES: usize = (\d+);", r"PANEL_ROWS: usize = (\d+);", r"PANEL_WORKSPACE: usize = ([^;]*);"],
        "include/capeshard.h": [r"CAPESHARD_PANEL_NODES = (\d+),", r"CAPESHARD_PANEL_ROWS = (\d+),", r"CAPESHARD_PANEL_WORKSPACE =([^}]*)\}"],
        "bindings/rust/src/panel.rs": [r"NODES: usize = (\d+);", r"ROWS: usize = (\d+);", r"WORKSPACE: usize = ([^;]*);"],
    }
    proved = int(re.search(r"panel_entries : enough_space columns panel_limits ≡ (\d+)", (TOP / "crates/panel/proofs/PanelSpace.antt").read_text()).group(1))
    width = int(re.search(r"^columns = (\d+)", (TOP / "crates/relation/specs/Rows.antt").read_text(), re.M).group(1))
    numbers = {}
    for name, patterns in places.items():
        text = (TOP / name).read_text()
        nodes, rows = (int(re.search(pattern, text).group(1)) for pattern in patterns[:2])
        entries = proved if patterns[2] is None else evaluated(re.search(patterns[2], text).group(1), nodes, rows, width)
        numbers[name] = (nodes, rows, entries)
    return [f"{name}: {found}" for name, found in numbers.items()] if len(set(numbers.values())) > 1 else []


def evaluated(expression, nodes, rows, width):
    """A constant's expression over the constants of the panel and the width."""
    plain = re.sub(r"\w*NODES", str(nodes), re.sub(r"\w*ROWS", str(rows), re.sub(r"\w*COLUMNS", str(width), expression)))
    return eval(" ".join(plain.split()).replace("/", "//"), {"__builtins__": {}})


def no_axioms_and_no_holes():
    bad = []
    for kind in ("specs", "proofs"):
        for path in crate_files(kind):
            for number, line in code_lines(path):
                if re.search(r"(^|\s)axiom\s|Prim\.Axiom|(^|[\s(])\?\w*($|[\s)])", line):
                    bad.append(f"{path.relative_to(TOP)}:{number}: {line.strip()}")
    return bad


def every_definition_file_says_what_it_states():
    """Each file of specs but a root begins with a comment."""
    return [
        f"{path.relative_to(TOP)} begins without a comment"
        for path in crate_files("specs")
        if path.name != "Lib.antt" and not path.read_text().startswith("--")
    ]


def contracts_and_definitions_cite_no_proof():
    """What is believed stands in specs: neither a contract nor a definition imports from a file of proofs. Words of std may stand in std's own."""
    bad = []
    for crate in CRATES:
        for kind, pattern in (("src", "*.rt"), ("specs", "*.antt")):
            for path in sorted((TOP / "crates" / crate / kind).rglob(pattern)):
                for found in re.findall(r"^(?:ghost )?use Rattle\.(?!std\.)\w+\.proofs\.\S+", path.read_text(), re.M):
                    bad.append(f"{path.relative_to(TOP)}: {found}")
    return bad


def the_definitions_to_believe_are_all():
    """The public contracts, and the definition files that the README lists, cite only such files and the declared types."""
    readme = (TOP / "README.md").read_text()
    listed = set()
    for crate, words in re.findall(r"`(\w+)/specs`: ([^;\n]*)", readme.split("### The definitions to believe")[1].split("\n## ")[0]):
        files = {path.stem for path in (TOP / "crates" / crate / "specs").glob("*.antt")}
        listed |= {(crate, name) for name in (files if words.strip() == "all" else files & set(re.findall(r"`(\w+)`", words)))}
    texts = [(f"crates/{crate}/specs/{name}.antt", (TOP / "crates" / crate / "specs" / f"{name}.antt").read_text()) for crate, name in sorted(listed)]
    for functions, crate in re.findall(r"^\| (`[^|]*`) \| `(\w+)` \|", readme.split("## The public functions")[1].split("\n## ")[0], re.M):
        for function in re.findall(r"`(\w+)`", functions):
            texts.append((f"the contract of {function}", public_citations(crate, function)))
    return [
        f"{name} cites {crate}/specs/{file}"
        for name, text in texts
        for crate, file in re.findall(r"^use Rattle\.(?!std\.)(\w+)\.specs\.(\w+)", text, re.M)
        if file != "declared" and (crate, file) not in listed
    ]


def public_citations(crate, function):
    """The imports whose names a public function's contract uses. A function that isn't there cites what is never listed."""
    for path in sorted((TOP / "crates" / crate / "src").glob("*.rt")):
        text = path.read_text()
        stated = re.search(rf'^pub (?:extern "C" )?fn {function}\((.*?)\n\{{\n', text, re.S | re.M)
        if stated:
            uses = re.findall(r"^ghost (use \S+?\.\{([^}]*)\});", text, re.M)
            words = set(re.findall(r"[\w'-]+", stated.group(1)))
            return "\n".join(line for line, names in uses if words & {name.split(" as ")[-1].strip() for name in names.split(",")})
    return f"use Rattle.{crate}.specs.{function}"


def bytes_are_classed_in_one_place():
    """Only `byte_classes` compares a byte with a digit, comma, equals sign or line end, and no code holds a table of 256 entries. Where texts are
    read or written no entry of a slice is compared either, nor anything with the numbers of these bytes."""
    listed = (TOP / "crates.txt").read_text().splitlines()
    texts = {"text"} | {line.split(":")[0].split()[0] for line in listed if re.search(r": .*\b(?:byte_classes|text)\b", line)}
    order, equal, byte = r"(?<![=-])[<>]=?", r"[=!]=", r"b'(?:\\.|[^'])'"
    test, bound, value = rf"(?:{order}|{equal})", r"(?:4[7-9]|5[0-8])\b", r"(?:10|44|4[89]|5[0-7]|61)\b"
    anywhere = [rf"{test} *{byte}", rf"{byte} *(?:{test}|=>|\.\.|\|)", r"; *256 *\]"]
    of_numbers = [rf"{order} *{bound}", rf"{equal} *{value}", rf"(?<![\w.])(?:{bound} *{order}|{value} *(?:{equal}|=>|\.\.|\|))"]
    of_entries = [rf"\w\[[^\]]*\] *{test}", rf"{test} *\w+\["]
    bad = []
    for crate in CRATES:
        patterns = anywhere + (of_numbers + of_entries) * (crate in texts)
        for path in sorted((TOP / "crates" / crate / "src").rglob("*.rt")) if crate != "byte_classes" else []:
            for number, line in enumerate(without_clauses(path.read_text()).splitlines(), 1):
                code = re.sub(r"//.*", "", line)
                if any(re.search(pattern, code) for pattern in patterns):
                    bad.append(f"{path.relative_to(TOP)}:{number}: {line.strip()}")
    return bad


def stages_are_taken_apart():
    """Each stage's answer of `answer` and `path` by `let .. else`, which prints the refusal otherwise: a form that document 01 names."""
    places = {
        "crates/answering/src/lib.rt": ("pub fn answer(", ["read_database", "read_query", "check", "apply_steps", "run"]),
        "crates/path_printing/src/lib.rt": ("pub fn print_path(", ["read_over"]),
    }
    bad = []
    for name, (head, stages) in places.items():
        body = (TOP / name).read_text().split(head)[1].split("\n}\n")[0]
        for stage in stages:
            form = rf"let (\w+) = {stage}\([^;]*\);\s*let Ok\(\w+\) = \1 else {{\s*return write_refusal\(cause\(\1\), out\);\s*}};"
            if not re.search(form, body):
                bad.append(f"{name}: what {stage} tells")
    return bad


def without_clauses(text):
    """Code with its lines, and no clause, which may take several, and no import for clauses."""
    kept, depth = [], 0
    for line in text.splitlines():
        in_clause = depth > 0 or re.match(r"\s*(?:pub )?(?:ghost|requires|ensures)\b", line)
        depth += (line.count("{") - line.count("}")) * bool(in_clause)
        kept.append("" if in_clause else line)
    return "\n".join(kept)


def the_pages_name_files_that_are_there():
    """The pages and the newest note do; an older note speaks of the files of its own landing."""
    bad = []
    for page in [TOP / "README.md", *sorted((TOP / "docs").glob("*.md")), max((TOP / "docs" / "changes").glob("*.md"))]:
        for name in re.findall(r"(?<![\w/.])(?:crates/)?(\w+/(?:src|specs|proofs)/[\w/+]+\.(?:rt|antt))", page.read_text()):
            if not (TOP / "crates" / name).is_file():
                bad.append(f"{page.relative_to(TOP)} names {name}, which isn't there")
    return bad


def no_public_function_without_a_contract():
    bad = []
    for crate in CRATES:
        for path in sorted((TOP / "crates" / crate / "src").rglob("*.rt")):
            lines = path.read_text().splitlines()
            for start, line in enumerate(lines):
                found = re.match(r"\s*pub (?:extern \"C\" )?fn (\w+)", line)
                if found and "ensures" not in contract(lines[start:]):
                    bad.append(f"{path.relative_to(TOP)}: {found.group(1)} promises nothing")
    return bad


def contract(lines):
    """What stands between a function's name and its body, which begins with a brace on a line of its own or behind the result's type."""
    taken = []
    for line in lines:
        word = line.strip()
        if word == "{" or (word.endswith("{") and not word.startswith(("ensures", "requires"))):
            break
        taken.append(word)
    return " ".join(taken)


BLOCK = r"```\n((?:(?!```).*\n)*)```\n"
EXAMPLE = re.compile(
    rf"Case `([\w-]+)`(?:, with the steps? (`[^`\n]*`(?: and `[^`\n]*`)*))?(?:, Reach |:\n\n{BLOCK}\n)(?:over the book:?\n\n{BLOCK}\n|over an (empty) book )?prints\n\n{BLOCK}"
)
PATH_EXAMPLE = re.compile(
    rf"Path case `([\w-]+)`: the path `([^`\n]*)` (?:over the book\n\n{BLOCK}\n|over an (empty) book )?prints\n\n{BLOCK}"
)
SHOWN = {"cases": EXAMPLE, "paths": PATH_EXAMPLE}
PROVED = re.compile(rf"Proved case of `([\w/.]+)`:\n\n{BLOCK}")
# within a sentence
PRINTS = re.compile(r"(?<!path case )`([\w-]+)` prints `([^`\n]*)`")
PATH_PRINTS = re.compile(r"path case `([\w-]+)`(?:, `([^`\n]*)`,)? prints `([^`\n]*)`")
PATH_TYPED = r"`([^`\n]*)` \(path case `([\w-]+)`\)"


def the_pages_show_the_cases():
    """Each example of docs/WHY.md, docs/EDITORS.md and docs/PATHS.md is a test case, and each section of the first two has an example refused and one
    accepted; docs/PATHS.md has one for each sign of a path."""
    bad = []
    for page, last, refused, folders in (("WHY.md", 11, "refused=", ["cases"]), ("EDITORS.md", 23, "refused={},", ["cases", "paths"])):
        text = (TOP / "docs" / page).read_text()
        bad += [f"docs/{page}: {complaint}" for complaint in shown_wrongly(text) + sections_without_examples(text, last, refused, folders)]
    text = (TOP / "docs" / "PATHS.md").read_text()
    return bad + [f"docs/PATHS.md: {complaint}" for complaint in shown_wrongly(text) + counted_wrongly(text) + signs_without_examples(text)]


def shown_wrongly(text):
    """What a page shows of a case is in its folder word for word, and each case that it names is there."""
    sentences = re.sub(r"(?<=\S)\n *(?=\S)", " ", text)
    parts = [("cases", *part) for part in sheet_parts(text, sentences)] + [("paths", *part) for part in path_parts(text, sentences)]
    bad = [f"{name} is not what tests/{folder}/{name}/{file} says" for folder, name, file, part in parts if not shows(part, case_text(name, file, folder))]
    named = [("paths" if path else "cases", name) for path, name in re.findall(r"([Pp]ath )?case `([^`\n]*)`", sentences)]
    bad += [f"there is no case {name} in tests/{folder}" for folder, name in named if not case_text(name, "expected.txt", folder)]
    proved = PROVED.findall(text)
    bad += [f"{path} does not say {part.strip()}" for path, part in proved if part.strip() not in (TOP / path).read_text()]
    sheets, paths = (len(example.findall(text)) for example in SHOWN.values())
    told = len(PRINTS.findall(sentences)) + len(PATH_PRINTS.findall(sentences))
    heads = {"Case `": sheets, "Path case `": paths, "Proved case of `": len(proved), "prints\n\n```": sheets + paths, " prints `": told}
    bad += [f"an example is off the form: {head.strip()}" for head, count in heads.items() if sentences.count(head) != count]
    return bad


def sheet_parts(text, sentences):
    """Files of tests/cases: the sheet, the book, the step and what is printed.

    A sheet or a book that isn't shown is that of the case reach, unless the page says that the book is empty; a step that isn't named isn't there.
    """
    parts = [(name, "expected.txt", printed + "\n") for name, printed in PRINTS.findall(sentences)]
    for name, steps, sheet, book, empty, printed in EXAMPLE.findall(text):
        parts.append((name, "sheet.txt", sheet or case_text("reach", "sheet.txt")))
        parts.append((name, "book.txt", "" if empty else book or case_text("reach", "book.txt")))
        parts.append((name, "steps.txt", "".join(step + "\n" for step in re.findall(r"`([^`]*)`", steps))))
        parts.append((name, "expected.txt", printed))
    return parts


def path_parts(text, sentences):
    """Files of tests/paths: the path, the book and what is printed. A book that isn't shown is as in sheet_parts.

    Of two paths with their cases behind them and the word `is` between, both print the same.
    """
    parts = []
    for name, path, book, empty, printed in PATH_EXAMPLE.findall(text):
        parts.append((name, "path.txt", path))
        parts.append((name, "book.txt", "" if empty else book or case_text("reach", "book.txt")))
        parts.append((name, "expected.txt", printed))
    for name, path, printed in PATH_PRINTS.findall(sentences):
        parts += [(name, "path.txt", path)] if path else []
        parts.append((name, "expected.txt", printed + "\n"))
    parts += [(name, "path.txt", path) for path, name in re.findall(PATH_TYPED, sentences)]
    for _, name, _, other in re.findall(f"{PATH_TYPED} is {PATH_TYPED}", sentences):
        parts.append((name, "expected.txt", case_text(other, "expected.txt", "paths")))
    return parts


def counted_wrongly(text):
    """Each row of the table of nodes has a path, its nodes and its case, whose sheet has so many, or which is refused with 2 if they are over 128."""
    rows = text.partition("| path | nodes | path case |\n|---|---|---|\n")[2].partition("\n\n")[0].splitlines()
    bad = [] if rows else ["the table of nodes is missing"]
    for row in rows:
        found = re.fullmatch(r"\| `([^`]*)` \| (\d+) \| `([\w-]+)` \|", row)
        path, nodes, name = found.groups() if found else ("", "0", "")
        reply = f"guide=1\nnodes={nodes}\n" if int(nodes) <= 128 else "refused=2,0\n"
        said = case_text(name, "path.txt", "paths") == path.replace("\\|", "|") and case_text(name, "expected.txt", "paths").startswith(reply)
        bad += [] if said else [f"tests/paths does not say {row}"]
    return bad


def signs_without_examples(text):
    shown = "".join(path for _, path, *_ in PATH_EXAMPLE.findall(text))
    return [f"no example has the sign {sign}" for sign in "|/^+()" if sign not in shown]


def sections_without_examples(text, last, refused, folders):
    """The sections are numbered from 1 on. One has an example refused and one accepted of each folder of tests in which its number is given; a number
    that no case is refused with has two proved cases instead."""
    sections = re.split(r"^## (?:Kind )?(\d+)\. ", text, flags=re.M)[1:]
    numbers = sections[::2]
    bad = [] if numbers == [str(number) for number in range(1, last + 1)] else [f"the sections are not 1 to {last}"]
    every = {folder: [path.read_text() for path in (TOP / "tests" / folder).glob("*/expected.txt")] for folder in folders}
    for number, section in zip(numbers, sections[1::2]):
        needed = [refused.format(number), "guide="]
        given = [folder for folder in folders if begins(every[folder], needed[0])]
        if not given and len(PROVED.findall(section)) < 2:
            bad.append(f"section {number} has neither examples nor two proved cases")
        for folder in given:
            outcomes = [example[-1] for example in SHOWN[folder].findall(section)]
            bad += [f"section {number} has no example of tests/{folder} that prints {start}" for start in needed if not begins(outcomes, start)]
    return bad


def begins(texts, start):
    return any(text.startswith(start) for text in texts)


def case_text(name, file, folder="cases"):
    """A file of a case; one that isn't there is empty."""
    path = TOP / "tests" / folder / name / file
    return path.read_bytes().decode("ascii") if path.is_file() else ""


def shows(part, text):
    """Whether a part of a page is the text; the line `...` stands for lines left out."""
    first, left_out, last = part.partition("\n...\n")
    if not left_out:
        return part == text
    return text.startswith(first + "\n") and text.endswith("\n" + last) and len(text) > len(first + last) + 1


TESTS = [
    the_pages_show_the_cases,
    the_pages_name_files_that_are_there,
    the_definitions_to_believe_are_all,
    contracts_and_definitions_cite_no_proof,
    every_crate_is_in_the_readme,
    the_width_stands_once,
    the_panels_numbers_agree,
    no_axioms_and_no_holes,
    every_definition_file_says_what_it_states,
    no_public_function_without_a_contract,
    bytes_are_classed_in_one_place,
    stages_are_taken_apart,
]

failed = 0
for test in TESTS:
    complaints = test()
    failed += bool(complaints)
    print(("FAILED " if complaints else "ok ") + test.__name__.replace("_", " "))
    for complaint in complaints:
        print("    " + complaint)
print(f"{len(TESTS) - failed} passed, {failed} failed")
sys.exit(failed > 0)
