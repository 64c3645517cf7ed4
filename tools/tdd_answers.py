"""Prints what the program tdd must print on standard output for scripts.

Takes the path of the text of TS 25.223 V3.3.0 and then the scripts, by their names from where it
is run; `-` is the script on standard input, and so is no name at all:

    python3 tools/tdd_answers.py TS-25.223-V3.3.0.txt [SCRIPT]...

The standard is not in this repository. tools/reference works out the answers from its text, from
document 01 and from docs/TDD.md. Nothing is shared with the crates.

A script that cannot be read is told on standard error, the others are run, and the exit status is
1. An inconsistent text ends the run with exit status 1, nothing on stdout and what is wrong on
stderr; a missing or wrong argument with status 2.
"""

import sys
from pathlib import Path

sys.dont_write_bytecode = True  # so that the imports leave no files behind
from reference.codes import Codes
from reference.script import answers
from reference.standard import read_text

USAGE = "usage: python3 tools/tdd_answers.py TS-25.223-V3.3.0.txt [SCRIPT]..."


def read_script(name):
    """The bytes of a script, or None where it cannot be read, which is then told."""
    if name == "-":
        return sys.stdin.buffer.read()
    try:
        return Path(name).read_bytes()
    except OSError as error:
        print(f"tdd: cannot open {name}: {error.strerror}", file=sys.stderr)


def read_scripts(names):
    """Each script with its name; the one on standard input where there are no names."""
    return [(name, read_script(name)) for name in names or ["-"]]


def output_lines(codes, scripts):
    """The lines for these scripts, each a name and its bytes."""
    for name, script in scripts:
        if len(scripts) > 1:
            yield f"==> {name} <=="
        if script is not None:
            yield from answers(codes, script)


def main(path="", *names):
    codes = Codes(read_text(path, USAGE))
    scripts = read_scripts(names)
    # So that names go out as the bytes that they came in as.
    sys.stdout.reconfigure(encoding=sys.getfilesystemencoding(), errors="surrogateescape")
    sys.stdout.write("".join(line + "\n" for line in output_lines(codes, scripts)))
    sys.exit(any(script is None for _, script in scripts))


if __name__ == "__main__":
    main(*sys.argv[1:])
