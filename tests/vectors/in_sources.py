"""Whether a printed table stands in the sources as it is printed, whatever its layout there, or in files line by line."""

import pathlib
import re
import sys

CRATES = pathlib.Path(__file__).resolve().parent.parent.parent / "crates"


def squeezed(text):
    """The text without white space, without the signs that continue a line, and without commas that end a list."""
    return re.sub(r",(?=[\])}]|$)", "", "".join(text.replace("\\\n", "").split()))


def status_of_check(script, texts):
    """0 where one source file holds each of these texts, else 1."""
    wanted = [squeezed(text) for text in texts]
    for file in sorted(CRATES.glob("*/src/**/*.rt")):
        source = squeezed(file.read_text())
        if all(text in source for text in wanted):
            print(f"{script}: what it prints stands in {file.relative_to(CRATES)}")
            return 0
    print(f"{script}: no source file holds what it prints", file=sys.stderr)
    return 1


def status_of_lines(script, files):
    """0 where each of these files of a crate has these lines one after the other, else 1."""
    status = 0
    for name, lines in files.items():
        held = "\n" + (CRATES / name).read_text()
        if "".join(f"\n{line}" for line in lines) + "\n" in held:
            print(f"{script}: what it prints stands in {name}")
        else:
            print(f"{script}: {name} doesn't hold what it prints", file=sys.stderr)
            status = 1
    return status


def case_files(program, word, cases):
    """What a program reads of cases, each with what is wanted and what is given, and what it has to print."""
    return {
        f"{program}/stdin": [f"{word} {wanted} | {given}" for wanted, given in cases],
        f"{program}/stdout": [f"{word} {wanted} | {wanted}" for wanted, _ in cases]}
