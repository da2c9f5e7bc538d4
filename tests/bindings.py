"""Builds the static library, then the C and the Rust examples over it, which must print document 01's Reach, in one run and put aside; compares the
calls that the header and the wrapper declare, and runs the wrapper's own tests.

Ends with 'N passed, M failed'.
"""
import pathlib
import re
import subprocess
import sys
import tempfile

TOP = pathlib.Path(__file__).resolve().parent.parent
EXPECTED = (TOP / "tests" / "cases" / "reach" / "expected.txt").read_text()
CRATE = TOP / "crates" / "capi"
LIBRARY = CRATE / "out" / "libcapi.a"
WARNINGS = ["-Wall", "-Wextra", "-Werror", "-pedantic", f"-I{TOP / 'include'}"]


def runs(*command, folder=TOP):
    """What a command prints, or nothing if it fails."""
    done = subprocess.run([str(word) for word in command], cwd=folder, capture_output=True, text=True)
    if done.returncode != 0:
        print(done.stdout + done.stderr)
        return None
    return done.stdout


def cargo(command, *words):
    return runs("cargo", command, "--offline", "--quiet", "--manifest-path", TOP / "bindings" / "rust" / "Cargo.toml", *words)


def the_library_is_built():
    return runs("rt", "lib", folder=CRATE) is not None


def the_library_needs_two_names():
    """What it needs from outside, so that a program without a C library can give it. An archive without a list of names is a failure too."""
    printed = runs("nm", "-u", LIBRARY)
    needed = re.findall(r"^ +U (\S+)$", printed or "", re.M)
    if sorted(set(needed)) != ["memcpy", "memset"]:
        print("needs", *sorted(set(needed)))
    return sorted(set(needed)) == ["memcpy", "memset"]


def the_header_is_c_and_cpp():
    header = TOP / "include" / "capeshard.h"
    return all(runs("cc", "-fsyntax-only", "-x", *language, *WARNINGS, header) is not None for language in (["c", "-std=c99"], ["c++", "-std=c++11"]))


def declared(text, call, parameter):
    """Each call with its parameters' names and types, by patterns for a call and for one parameter."""
    return {name: [parameter(word) for word in re.split(r",\s*", words.strip().rstrip(","))] for name, words in re.findall(call, text)}


TYPES = {"const uint8_t *": "*const u8", "const uint32_t *": "*const u32", "uint32_t *": "*mut u32", "uint32_t ": "u32", "size_t ": "usize"}


def of_header(word):
    kind, name = re.fullmatch(r"((?:const )?\w+ \*?)(\w+)", " ".join(word.split())).groups()
    return f"{name}: {TYPES[kind]}"


def the_wrapper_declares_the_calls_of_the_header():
    header = (TOP / "include" / "capeshard.h").read_text()
    wrapper = (TOP / "bindings" / "rust" / "src" / "lib.rs").read_text()
    in_c = declared(header, r"uint64_t (capeshard_\w+)\(([^)]*)\);", of_header)
    in_rust = declared(wrapper, r"pub fn (capeshard_\w+)\(([^)]*)\) -> u64;", str.strip)
    if in_c != in_rust:
        print("\n".join(sorted(name for name in in_c.keys() | in_rust.keys() if in_c.get(name) != in_rust.get(name))))
    return in_c == in_rust and len(in_c) > 0


def the_numbers_of_both_agree():
    """The room of each flat slice and the other numbers that both declare."""
    header = (TOP / "include" / "capeshard.h").read_text()
    wrapper = (TOP / "bindings" / "rust" / "src" / "lib.rs").read_text()
    in_c = dict(re.findall(r"CAPESHARD_(\w+_ROOM|\w+_ENTRIES|COLUMNS|NODES|TABLES|PATH_BYTES) = ([^,}]*)", header))
    in_rust = dict(re.findall(r"const (\w+_ROOM|\w+_ENTRIES|COLUMNS|NODES|TABLES|PATH_BYTES): usize = ([^;]*);", wrapper))
    plain = {name: " ".join(words.replace("CAPESHARD_", "").split()) for name, words in in_c.items() if not name.startswith("PANEL")}
    if plain != in_rust:
        print(plain, in_rust, sep="\n")
    return plain == in_rust and "PAUSE_ROOM" in plain


def c_example(name):
    with tempfile.TemporaryDirectory() as folder:
        program = pathlib.Path(folder) / name
        built = runs("cc", "-std=c99", "-O2", *WARNINGS, TOP / "bindings" / "c" / f"{name}.c", LIBRARY, "-o", program)
        return built is not None and runs(program) == EXPECTED


def the_c_example_answers_reach():
    return c_example("reach")


def the_c_example_that_puts_reach_aside_answers_it():
    return c_example("put_aside")


def the_rust_example_answers_reach():
    return cargo("run", "--example", "reach") == EXPECTED


def the_rust_example_that_puts_reach_aside_answers_it():
    return cargo("run", "--example", "put_aside") == EXPECTED


def the_wrapper_passes_its_tests():
    return cargo("test") is not None


TESTS = [
    the_library_is_built,
    the_library_needs_two_names,
    the_header_is_c_and_cpp,
    the_wrapper_declares_the_calls_of_the_header,
    the_numbers_of_both_agree,
    the_c_example_answers_reach,
    the_c_example_that_puts_reach_aside_answers_it,
    the_rust_example_answers_reach,
    the_rust_example_that_puts_reach_aside_answers_it,
    the_wrapper_passes_its_tests,
]

failed = 0
for test in TESTS:
    ok = test()
    failed += not ok
    print(("ok " if ok else "FAILED ") + test.__name__.replace("_", " "))
print(f"{len(TESTS) - failed} passed, {failed} failed")
sys.exit(failed > 0)
