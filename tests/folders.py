"""Runs a program in every folder below another: it must print what the folder's expected.txt says. Ends with 'N passed, M failed'.

Usage: folders.py PROGRAM FOLDER, for the program crates/PROGRAM/out/PROGRAM and the folders of tests/FOLDER. `rt ci` leaves the program there, and so does
`rt run` in its crate's folder.
"""
import pathlib
import subprocess
import sys

TOP = pathlib.Path(__file__).resolve().parent.parent
SECONDS = 60


def complaint(program, folder):
    """What is wrong with what is printed in a folder, or nothing."""
    expected = (folder / "expected.txt").read_bytes()
    try:
        ran = subprocess.run([program], cwd=folder, stdin=subprocess.DEVNULL, capture_output=True, timeout=SECONDS)
    except (OSError, subprocess.TimeoutExpired) as error:
        return str(error)
    if ran.returncode != 0:
        return f"ended with status {ran.returncode}"
    return None if ran.stdout == expected else f"expected {expected[:200]}, printed {ran.stdout[:200]}"


program, name = sys.argv[1:]
folders = sorted(path for path in (TOP / "tests" / name).iterdir() if path.is_dir())
failed = 0
for folder in folders:
    wrong = complaint(TOP / "crates" / program / "out" / program, folder)
    if wrong:
        failed += 1
        print(f"FAILED {program} in {name}/{folder.name}: {wrong}")
print(f"{len(folders) - failed} passed, {failed} failed")
sys.exit(failed > 0)
