"""What each line of a script is answered: docs/TDD.md decides, and document 01 for the calls.

Nothing here is shared with the crates.
"""

from re import findall

from . import analyser, codes as rules
from .bench import Bench
from .bits import loaded
from .manual import FORMS, HELP, REFUSALS, words_of
from .nearest import nearest
from .recording import Recording
from .refusals import bad_code, refused
from .slot import SLOT, right_count
from .telling import pair, told_bits, told_pairs
from .words import Fault, quoted, values

LONGEST_LINE = 65536  # bytes
MARK = b"\xef\xbb\xbf"  # a byte order mark
METHODS = {"settings": "all_settings"}  # of the bench, by call; any other has the call's name


def is_refusal(value):
    return isinstance(value, str) and value.startswith("refused")


def with_ok(answer):
    return answer if is_refusal(answer) else f"ok {answer}"


def told(value, tell):
    """What a value is told as, or the refusal that stands in its place."""
    return value if is_refusal(value) else tell(value)


def with_words(refusal, call):
    """A refusal of this call, as in "refused 6 place 2", with its words."""
    return f"{refusal}: {words_of(int(refusal.split()[1]), call)}"


def yes_or_no(value):
    return "yes" if value else "no"


def one_chip(chip):
    return pair(*chip)


class CodeCalls:
    """The calls that are answered from the codes alone, and how lines are told."""

    is_brief = False

    def element(self, *arguments):
        return told(rules.element(self.codes, *arguments), str)

    def related(self, *arguments):
        return told(rules.related(self.codes, *arguments), yes_or_no)

    def code_group(self, p):
        return told(rules.code_group(self.codes, p), str)

    def scrambling_chip(self, *arguments):
        return told(rules.scrambling_chip(self.codes, *arguments), one_chip)

    def primary_chip(self, chip):
        return told(rules.primary_chip(self.codes, chip), one_chip)

    def secondary_chip(self, *arguments):
        return told(rules.secondary_chip(self.codes, *arguments), one_chip)

    def allocation(self, *arguments):
        return told(rules.allocation(self.codes, *arguments), str)

    def burst_start(self, group):
        return told(rules.burst_start(self.codes, group), str)

    # Whole codes, each refused as its chip 0 would be

    def code(self, q, k):
        first = rules.element(self.codes, q, k, 0)
        return told(first, lambda _: " ".join(map(str, self.codes.channelisation[q, k])))

    def scrambling(self, p):
        first = rules.scrambling_chip(self.codes, p, 0)
        return told(first, lambda _: self.chips_line(*zip(*self.codes.scrambling[p])))

    def primary(self):
        return self.chips_line(*self.codes.primary)

    def secondary(self, i):
        first = rules.secondary_chip(self.codes, i, 0)
        return told(first, lambda _: self.chips_line(*self.codes.secondary[i]))

    # How lines are told

    def chips_line(self, re, im):
        return told_pairs(re, im, self.is_brief)

    def brief(self):
        self.is_brief = True

    def full(self):
        self.is_brief = False

    def refusals(self):
        return "\n".join(REFUSALS)

    def help(self):
        return "\n".join(HELP)


class ScriptBench(CodeCalls, Bench):
    """A fresh bench, an empty recording and no readings. Each call gives its answer, or None for a
    bare ok; or it raises Fault, and has changed nothing."""

    def __init__(self, codes):
        super().__init__(codes)
        self.recording = Recording()
        self.readings = None  # of the last accepted read, re and im

    def load_bits(self, q, k, *words):
        closed = refused(*bad_code(q, k), self.not_open(q, k))
        if closed:
            return closed
        return super().load_bits(q, k, loaded(right_count(q, self.settings.slot_type), *words))

    def all_settings(self):
        return "\n".join(self.settings_lines())

    def settings_lines(self):
        parameter, slot_type, channels, sync = self.settings
        yield f"cell {parameter} group {parameter // 4} type {slot_type}"
        for q, k in sorted(channels):
            yield f"code ({q}, {k}) gain {channels[q, k][0]}"
        if not channels:
            yield "no code is open"
        yield "sync case {} frame {} half {} gains {} {}".format(*sync) if sync else "no sync"
        left = f"slot under way, {SLOT - self.tally} of {SLOT} chips left"
        yield left if self.copy else "no slot under way"

    def draw(self, re_length, im_length=None):
        if im_length is None:
            im_length = re_length
        refusal = self.draw_refusal(re_length, im_length)
        if refusal:
            return refusal
        count = self.draw_count(re_length)
        self.recording.need_room(count)
        chips = super().draw(re_length, im_length)
        self.recording.append([re for re, _ in chips], [im for _, im in chips])
        return f"ok {count}"

    def record(self, *components):
        self.recording.append(list(components[::2]), list(components[1::2]))

    def silence(self, count):
        self.recording.silence(count)

    def noise(self, first, count, seed, size):
        self.recording.noise(first, count, seed, size)

    def erase(self):
        self.recording = Recording()

    def show(self, first, count):
        return self.chips_line(*self.recording.part(first, count))

    def read(self, p, q, k, first, count):
        chips = self.recording.part(first, count)
        answer = [0] * count, [0] * count  # enough for every Q
        refusal = analyser.read(self.codes, p, q, k, *chips, *answer)
        if refusal:
            return refusal
        self.readings = [buffer[:count // q] for buffer in answer]
        return f"ok {count // q}\n{self.chips_line(*self.readings)}"

    def harden(self):
        if self.readings is None:
            raise Fault("there are no readings yet; right is: a read that is accepted")
        bits = [0] * (2 * len(self.readings[0]))
        analyser.harden(*self.readings, bits)
        return f"ok {len(bits)}\n{told_bits(bits, self.is_brief)}"

    def read_sync(self, case, first, count):
        return with_ok(analyser.read_sync(self.codes, case, *self.recording.part(first, count)))

    def find(self, first, count):
        chips = self.recording.part(first, count)
        scratch = [0] * count, [0] * count
        return with_ok(analyser.find(self.codes, *chips, *scratch))


def call_of(words):
    """The name of the call that these words are; raises Fault where they are none."""
    name = words[0].decode("latin-1")  # which has a character for every byte
    if name in FORMS:
        return name
    near = nearest(words[0], FORMS)
    right = f"nearest is: {FORMS[near]}" if near else "right is: one of those that help lists"
    raise Fault(f"{quoted(words[0])} is no call; {right}")


def answer(bench, line, passed=0):
    """What a line is answered whose first bytes, so many, are passed over; None where it has no
    word. Raises Fault where it is no call."""
    if len(line) > LONGEST_LINE:
        raise Fault(f"the line has more than {LONGEST_LINE} bytes; "
                    f"right is: at most {LONGEST_LINE}")
    words = findall(rb"[^ \t\r]+", line[passed:].partition(b"#")[0])
    if not words:
        return None
    name = call_of(words)
    arguments = values(FORMS[name], words[1:])
    result = getattr(bench, METHODS.get(name, name.replace("-", "_")))(*arguments)
    if result is None:
        return "ok"
    return with_words(result, name) if is_refusal(result) and not bench.is_brief else result


def answer_or_fault(bench, at, line, passed):
    """What line number `at` is answered, or None where it has no word."""
    try:
        return answer(bench, line, passed)
    except Fault as fault:
        return f"line {at}: {fault}"


def passed_over(script):
    """How many bytes at the start of a script are passed over."""
    return len(MARK) if script.startswith(MARK) else 0


def answers(codes, script):
    """The answers to a script, from a fresh bench on."""
    bench, passed = ScriptBench(codes), passed_over(script)
    for at, line in enumerate(script.split(b"\n"), 1):
        result = answer_or_fault(bench, at, line, passed)
        passed = 0
        if result is not None:
            yield result
