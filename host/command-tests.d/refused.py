"""The check of a refusal: how it is told, and that nothing is written."""
import os
import re
from dataclasses import dataclass
from typing import Any

from papers import line_and_column, shows_place

WITH_OUTPUT = ("builtin", "model", "run", "generate", "image-run", "list", "draw", "undraw")
TOO_LONG = {
    "model": "a model's text has at most 1024 bytes", "stream": "a stream has at most 4096 operations",
    "image": "an image has at most 7168 bytes", "drawing": "a drawing has at most 262144 bytes",
    "input": "an input has at most 32768 bytes",
}


@dataclass
class Fault:
    """A refusal as it must be told: the text and the place in it only where a line and a column are told."""
    number: int
    place: int
    sentence: Any  # its words, or a test of them
    text: Any = None
    at: int = 0
    shown: bool = True  # the line, below


def answer(told):
    """The number and the place of a refusal that the model tells."""
    found = re.fullmatch(rb"refused (\d+) at (\d+)\n", told)
    assert found, f"the model does not refuse: {told!r}"
    return int(found.group(1)), int(found.group(2))


# ---- the check of a refusal

def is_told(trial, ran, name, fault):
    head = "shim: " + (f"{name}: " if name else "")
    if fault.text is not None:
        head += "line %d, column %d: " % line_and_column(fault.text, fault.at)
    tail = f" (refused {fault.number} at {fault.place})"
    line, _, rest = ran.err.partition(b"\n")
    line = line.decode("latin-1")
    framed = line.startswith(head) and line.endswith(tail) and len(line) > len(head) + len(tail)
    trial.check(ran, framed, f"must be told as: {head}...{tail}")
    sentence = line[len(head):len(line) - len(tail)]
    right = fault.sentence(sentence) if callable(fault.sentence) else sentence == fault.sentence
    trial.check(ran, right, f"the sentence is: {sentence}", "" if callable(fault.sentence) else f"and must be: {fault.sentence}")
    shows = shows_place(rest, fault.text, fault.at) if fault.text is not None and fault.shown else rest == b""
    trial.check(ran, shows, "the line or the caret is not right")


def too_long(what, whole=None, before=0):
    """Of a part of a whole input it is told where the part begins."""
    return Fault(1, 0, "too long: " + TOO_LONG[what], whole, before, shown=False)


def standing(trial, name):
    """All of an output file that a refusal must leave as it is; nothing where there is none."""
    if not os.path.exists(trial.path(name)):
        return None
    status = os.stat(trial.path(name))
    return trial.read(name), status.st_mode, status.st_ino, status.st_mtime_ns


def refused(trial, words, name, fault, data=b""):
    """The call is refused, tells it and writes nothing, neither to a new output file nor over an old one."""
    out = trial.output(*([b"old"] if trial.calls % 2 else []))
    before = standing(trial, out)
    if words[0] in WITH_OUTPUT:
        words = [*words, "-o", out]
    ran = trial.run(*words, data=data)
    trial.check(ran, ran.status == 1 and ran.out == b"", "must be refused, with nothing on standard output")
    is_told(trial, ran, name, fault)
    if out in words:
        trial.check(ran, standing(trial, out) == before, "the output file is not as it was")
        trial.nothing_left(ran, out)


def by_file_or_pipe(trial, words, place, label, data, fault):
    """An input that is wrong, as a file and on standard input by turns. `words[place]` is where it stands."""
    if trial.calls // 2 % 2:
        refused(trial, words[:place] + ["-"] + words[place + 1:], "standard input", fault, data)
    else:
        file = trial.file(f"bad/{label}", data)
        refused(trial, words[:place] + [file] + words[place + 1:], file, fault)
