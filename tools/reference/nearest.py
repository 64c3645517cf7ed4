"""Which call a word that is none is near to, as docs/TDD.md has it."""

from os.path import commonprefix


def one_step(word, name):
    """Whether one character put in, left out or changed, or two neighbours exchanged, make the
    word the name."""
    same = len(commonprefix([word, name]))
    rest, due = word[same:], name[same:]
    return (rest == due[1:] or rest[1:] == due or rest[1:] == due[1:]
            or rest == due[1::-1] + due[2:])


def nearest(word, names):
    """The first of the names that is nearest to a word, which is bytes; None where none is near."""
    small = word.lower().decode("latin-1")  # lower() changes A to Z alone
    if small in names:
        return small
    return next((name for name in names if one_step(small, name)), None)
