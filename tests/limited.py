#!/usr/bin/env python3
"""Runs of programs with a limit of processor time, which a busy machine doesn't bring nearer.

Only a run that waits for good, and takes no processor time, is ended by the clock, after BACKSTOP times as many seconds.
`tests/limited.py` tries this.
"""
import contextlib
import os
import resource
import signal
import subprocess
import sys
import time

BACKSTOP = 10


class TookTooLong(Exception):
    """A run was ended before its time. `output` and `errors` are what it had written."""

    def __init__(self, why, output=b"", errors=b""):
        super().__init__(why)
        self.output, self.errors = output, errors


def limit(child, seconds):
    """Lets a child that was just started take so many seconds of processor time. Past them a signal ends it."""
    with contextlib.suppress(ProcessLookupError, PermissionError):
        resource.prlimit(child.pid, resource.RLIMIT_CPU, (seconds, seconds + 5))


def has_overrun(child):
    """Whether a child that has ended was ended by its limit of processor time."""
    return child.returncode == -signal.SIGXCPU


def end(child):
    """Kills a child, and those that it started, if it was started as the leader of a group."""
    with contextlib.suppress(ProcessLookupError):
        if os.getpgid(child.pid) == child.pid:
            os.killpg(child.pid, signal.SIGKILL)
    child.kill()


def written(part, child):
    """What a child had written before it was ended; that is bytes even where it writes text."""
    part = part or b""
    return part.decode("utf-8", "replace") if child.text_mode and isinstance(part, bytes) else part


def finish(child, seconds, given=None):
    """What a limited child writes up to its end on standard output and standard error."""
    try:
        output, errors = child.communicate(given, timeout=BACKSTOP * seconds)
    except subprocess.TimeoutExpired as late:
        end(child)
        parts = written(late.stdout, child), written(late.stderr, child)
        raise TookTooLong(f"no end within {BACKSTOP * seconds} seconds by the clock", *parts) from None
    if has_overrun(child):
        raise TookTooLong(f"no end within {seconds} seconds of processor time", output, errors)
    return output, errors


def run(words, seconds, given=None, **how):
    """How a run ended, as subprocess.run returns it. `given` is its standard input; what it writes is kept unless `how` says otherwise."""
    pipes = {"stdout": subprocess.PIPE, "stderr": subprocess.PIPE} | ({} if given is None else {"stdin": subprocess.PIPE})
    with subprocess.Popen(words, **(pipes | how)) as child:
        try:
            limit(child, seconds)
            output, errors = finish(child, seconds, given)
        except BaseException:
            end(child)
            raise
    return subprocess.CompletedProcess(words, child.returncode, output, errors)


# Programs with a limit of processor time and a backstop, and why they are ended, if they are
TRIED = (
    ("while :; do :; done", 1, 60, "no end within 1 seconds of processor time"),
    ("sleep 2; echo whole", 1, 60, None),
    ("echo part; exec sleep 600", 1, 2, "no end within 2 seconds by the clock"),
    ("echo part; sleep 600; echo whole", 1, 2, "no end within 2 seconds by the clock"),
)


def check():
    """Tries the limits: whether each program is ended as it has to be."""
    global BACKSTOP  # pylint: disable=global-statement
    failed = 0
    for script, seconds, BACKSTOP, due in TRIED:
        began = time.monotonic()
        try:
            ended, why = run(["sh", "-c", script], seconds, text=True, start_new_session=True), None
            output = ended.stdout
        except TookTooLong as late:
            why, output = str(late), late.output
        is_well = why == due and output == {"echo part": "part\n", "sleep 2": "whole\n"}.get(script.partition(";")[0], "")
        is_well = is_well and time.monotonic() - began < 500
        failed += not is_well
        print(f"{'passed' if is_well else 'FAILED'}: {script}: {why or 'ended by itself'}")
    print(f"{len(TRIED) - failed} passed, {failed} failed")
    return 1 if failed else 0


if __name__ == "__main__":
    sys.exit(check())
