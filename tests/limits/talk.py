"""A running program, the lines that it reads, and the expected answers."""
import os
import select
import subprocess
import threading

import limited

# Seconds of processor time that a program may take, and seconds by the clock that the next byte of an answer is waited for
LONGEST = 300
PATIENCE = 1_200.0

# Bytes that are read at once
BLOCK = 1 << 20


class Wrong(Exception):
    """An answer that isn't the expected one."""


def text_of(lines):
    """Lines as the program reads and writes them."""
    return "".join([line + "\n" for line in lines]).encode("ascii")


def first_difference(told, due):
    """The message about the first unexpected answer."""
    told_lines, due_lines = told.split(b"\n"), due.split(b"\n")
    for number, (told_line, due_line) in enumerate(zip(told_lines, due_lines)):
        if told_line != due_line:
            before = due_lines[number - 1].decode("ascii") if number else "the lines before"
            return f"behind {before!r} the answer is {told_line[:200]!r}, and {due_line[:200]!r} is due"
    return f"{len(due) - len(told)} bytes of answers didn't come"


class Program:
    """A running `gist`, with its arguments."""

    def __init__(self, path, *words):
        pipes = {"stdin": subprocess.PIPE, "stdout": subprocess.PIPE, "stderr": subprocess.PIPE}
        self.child = subprocess.Popen(["gist", *words], executable=path, **pipes)
        limited.limit(self.child, LONGEST)
        self.lines = 0

    def __enter__(self):
        return self

    def __exit__(self, *_):
        self.child.kill()
        self.child.wait()
        for pipe in (self.child.stdin, self.child.stdout, self.child.stderr):
            try:
                pipe.close()
            except OSError:
                # what was still to be written can't be
                pass

    def read(self, length, due=None):
        """The expected number of bytes of answers, or fewer if no more come or if they aren't the expected ones."""
        blocks, at = [], 0
        output = self.child.stdout.fileno()
        while at < length:
            ready, _, _ = select.select([output], [], [], PATIENCE)
            block = os.read(output, min(length - at, BLOCK)) if ready else b""
            if not block:
                break
            blocks.append(block)
            if due is not None and block != due[at:at + len(block)]:
                break
            at += len(block)
        return b"".join(blocks)

    def write(self, text):
        """Gives bytes to the program."""
        try:
            self.child.stdin.write(text)
            self.child.stdin.flush()
        except BrokenPipeError:
            pass

    def exchange(self, text, length, due=None):
        """The answers to a text, `length` bytes of them. A thread writes the text, so that neither waits for the other."""
        writer = threading.Thread(target=self.write, args=(text,), daemon=True)
        writer.start()
        told = self.read(length, due)
        if len(told) == length:
            writer.join()
        return told

    def answer_text(self, text, due):
        """Gives a text to the program, and compares the answers with the expected ones."""
        told = self.exchange(text, len(due), due)
        if told != due:
            raise Wrong(first_difference(told, due))

    def answer(self, lines, answers):
        """Gives lines to the program, and compares the answers with the expected ones."""
        self.lines += len(lines)
        self.answer_text(text_of(lines), text_of(answers))

    def answer_all(self, pairs):
        """Gives lines to the program, each with the expected answer."""
        self.answer([line for line, _ in pairs], [answer for _, answer in pairs])

    def answer_in_any_order(self, lines, answers):
        """Gives lines to the program, and compares the answers with the expected ones, in any order."""
        self.lines += len(lines)
        due = sorted(answers)
        told = self.exchange(text_of(lines), sum(len(answer) + 1 for answer in due))
        told_lines = sorted(told.decode("ascii", "replace").split("\n")[:-1])
        if told_lines != due:
            lacking, surplus = sorted(set(due) - set(told_lines))[:2], sorted(set(told_lines) - set(due))[:2]
            raise Wrong(f"of {len(due)} answers in any order {lacking} didn't come, and {surplus} came")

    def bytes_of(self, name):
        """A number of bytes that the system reports for the program."""
        with open(f"/proc/{self.child.pid}/status", encoding="ascii") as status:
            return next(int(line.split()[1]) * 1024 for line in status if line.startswith(name + ":"))

    def held(self):
        """The most bytes that the program held."""
        return self.bytes_of("VmHWM")

    def asked(self):
        """The bytes that the program has allocated from the system for its data, touched or not."""
        return self.bytes_of("VmData")

    def seconds(self):
        """The processor time that the program took."""
        with open(f"/proc/{self.child.pid}/stat", encoding="ascii") as status:
            fields = status.read().rpartition(")")[2].split()
        return (int(fields[11]) + int(fields[12])) / os.sysconf("SC_CLK_TCK")

    def end(self):
        """Ends the input: no answer is left over, and the program ends well and prints nothing more."""
        self.child.stdin.close()
        left = self.read(1)
        if left:
            raise Wrong(f"there is an answer for which no line asked, which begins with {left!r}")
        errors = self.child.stderr.read()
        if self.child.wait() != 0 or errors:
            raise Wrong(f"the program ended with status {self.child.returncode} and {errors!r} on standard error")
