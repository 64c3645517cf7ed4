"""The manual of the program tdd, docs/TDD.md: the forms of the calls, what help and refusals say,
and the words of each refusal."""

from pathlib import Path
from re import findall

from .standard import demand

MANUAL = Path(__file__).parent.parent.parent / "docs" / "TDD.md"


def table_forms(manual):
    """The forms in the table of calls, where a bar that is no border has a stroke before it."""
    table = manual.partition("| line | does | answers |\n")[2].partition("\n\n")[0]
    return [form.replace("\\|", "|") for form in findall(r"(?m)^\| `([^`]+)` \|", table)]


def listed(manual, title):
    """The lines that stand under this title, each moved in by four blanks."""
    lines = manual.partition(f"## {title}\n")[2].partition("\n\n")[0].splitlines()
    return [line.removeprefix("    ") for line in lines]


def read_forms(manual):
    """The form of each call, by its name, in the order of help."""
    forms = table_forms(manual)
    helped = [line.partition("#")[0].strip() for line in listed(manual, "What help says")]
    demand(forms == [form for form in helped if form], "docs/TDD.md",
           "the table of calls and what help says do not have the same forms")
    return {form.split()[0]: form for form in forms}


def read_words(rows):
    """The words of the refusals, by number and call; by number and None for all other calls."""
    words = {}
    for row in rows:
        told_for, _, said = row.partition(": ")
        number, *calls = told_for.split()
        for call in calls or [None]:
            words[int(number), call] = said
    return words


TEXT = MANUAL.read_text("utf-8")
FORMS = read_forms(TEXT)
HELP, REFUSALS = listed(TEXT, "What help says"), listed(TEXT, "What refusals says")
WORDS = read_words(REFUSALS)


def words_of(number, call):
    return WORDS.get((number, call)) or WORDS[number, None]
