"""Texts of sessions and replays, as a user sees them.

A text begins with `$ ./gist serve` or `$ ./gist replay` and options. Input lines begin with `> `, with their answers,
if they are given, below. Empty lines and lines that begin with `#` are ignored.
"""
import re


class Text:
    """The words of a run, the lines that are typed, and the answers to each if they are known."""

    def __init__(self, name, words):
        self.name, self.words = name, words
        self.language = words[0]
        named = re.search(r"--class[ =](\w+)", " ".join(words))
        self.class_name = named[1] if named else "interval"
        self.lines, self.answers = [], []
        self.is_plain = True

    def input(self):
        """What is typed."""
        return b"".join(line + b"\n" for line in self.lines)


def read_texts(path):
    """The texts of a file. One that is more than plain lines, with signs of its own for them, is left out.

    `\\z` at the end of a line, which says that the input ends there, is no part of the line.
    """
    texts = []
    with open(path, encoding="utf-8") as file:
        for number, line in enumerate(file.read().split("\n"), 1):
            if line.startswith("$ ./gist "):
                texts.append(Text(f"{path}:{number}", line.split()[2:]))
            elif line.startswith(">"):
                typed = line[2:].removesuffix("\\z")
                texts[-1].is_plain &= "\\" not in typed
                texts[-1].lines.append(typed.encode("utf-8"))
                texts[-1].answers.append([])
            elif line.startswith("!"):
                texts[-1].is_plain = False
            elif line and not line.startswith("#"):
                texts[-1].is_plain &= bool(texts[-1].lines) and "\\" not in line
                texts[-1].answers[-1:] = [answers + [line] for answers in texts[-1].answers[-1:]]
    return [text for text in texts if text.is_plain and text.lines and text.language in ("serve", "replay")]
