"""calls.txt: every call with its refusals and edges; codes.txt has those of the code rules."""

from .analyser_calls import ANALYSER_CALLS, first_readings, instances
from .bench_calls import BENCH_CALLS
from .recording_calls import RECORDING_CALLS


def calls(script):
    script.add("\xef\xbbharden")  # no whole byte order mark
    for family in (first_readings, instances, *BENCH_CALLS, *ANALYSER_CALLS, *RECORDING_CALLS):
        family(script)
