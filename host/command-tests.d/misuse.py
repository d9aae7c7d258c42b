"""Words that mean nothing: status 2 and the usage. And the words that ask for it."""
import os
import re

from good import image_of, input_of
from papers import SYNOPSIS

# Every subcommand with words that are right, to go wrong from. IMAGE and INPUT are files.
RIGHT = {
    "builtin": ["1"], "model": ["1"], "compare": ["1", "2"], "run": ["--way", "full", "1", "15", "l"],
    "generate": ["--way", "full", "1", "15"], "image": ["IMAGE"], "image-run": ["--start", "0", "IMAGE", "l"],
    "list": ["INPUT"], "draw": ["IMAGE"], "undraw": ["DRAWING"],
}

# The kinds of misuse: subcommand and words.
KINDS = [
    # --way missing or another word
    ("run", "1 15 l"), ("run", "--way fast 1 15 l"), ("run", "--way"), ("run", "1 15 l --way"), ("run", "--way 1 1 15 l"),
    ("run", "--way Full 1 15 l"), ("generate", "1 15"), ("generate", "--way slow 1 15"), ("generate", "--way full INPUT"),
    # --start missing or no digits
    ("image-run", "IMAGE l"), ("image-run", "--start x IMAGE l"), ("image-run", "--start 1x IMAGE l"), ("image-run", "--start -1 IMAGE l"),
    ("image-run", "--start +1 IMAGE l"), ("image-run", "--start 0x1 IMAGE l"), ("image-run", "IMAGE l --start"),
    # options that are unknown, or another subcommand's
    ("builtin", "-1"), ("builtin", "-q 1"), ("builtin", "--way full 1"), ("model", "-x 1"), ("compare", "-o FILE 1 2"), ("compare", "-q 1 2"),
    ("run", "--way full --start 0 1 15 l"), ("generate", "--way full -q 1 15"), ("image", "-o FILE IMAGE"), ("image", "--all IMAGE"),
    ("image-run", "--way full --start 0 IMAGE l"), ("list", "-q INPUT"), ("draw", "--way full IMAGE"), ("undraw", "--start 0 DRAWING"),
    ("builtin", "1 -o"), ("builtin", "1 --output"),
    # numbers that are none
    ("builtin", "x"), ("builtin", "1x"), ("builtin", "0x1"), ("builtin", "+1"), ("builtin", "TSO"), ("builtin", "builtin:1"),
    # names that are none
    ("model", "builtin:XYZ"), ("model", "builtin:"), ("model", "builtin:tso"), ("model", "builtin:1x"), ("compare", "1 builtin:XYZ"),
    ("run", "--way full builtin:XYZ 15 l"), ("generate", "--way full 1 builtin:XYZ"),
    # standard input twice
    ("compare", "- -"), ("run", "--way full - - l"), ("run", "--way full - 15"), ("run", "--way full 1 -"), ("run", "--way full - 15 -"),
    ("generate", "--way full - -"), ("image-run", "--start 0 -"), ("image-run", "--start 0 - -"),
    ("image-run", "--start 0 - @-"), ("run", "--way full 1 - @-"),
]


def usage_of(err, subcommand):
    """Behind the first line, all the subcommand's usages; of another's none."""
    first, _, rest = err.decode("latin-1").partition("\n")
    told = [subcommand] if subcommand else list(SYNOPSIS)
    others = [line for name, lines in SYNOPSIS.items() if name not in told for line in lines]
    return first.startswith("shim: ") and all_stand(rest, told) and not any(line in rest for line in others)


def all_stand(text, subcommands):
    spaced = " ".join(text.split()) + " "
    return all(f"{line} " in spaced for name in subcommands for line in SYNOPSIS[name])


def misused(trial, subcommand, *words, **how):
    ran = trial.run(*words, **how)
    trial.check(ran, ran.status == 2 and ran.out == b"", "must be misuse, with nothing on standard output")
    trial.check(ran, usage_of(ran.err, subcommand), "must tell why, and then the usage")


def inputs(trial):
    """What the words above stand for."""
    image = image_of(trial, "full", 1, 15)
    return {
        "IMAGE": trial.file("images/tso-on-arm", image), "INPUT": trial.file("inputs/tso-on-arm", input_of(trial, "full", 1, 15, "l")),
        "DRAWING": trial.file("drawings/tso-on-arm", trial.model("draw", data=image)), "FILE": "never-made",
    }


def kinds(trial):
    named = inputs(trial)
    for subcommand, words in KINDS:
        misused(trial, subcommand, subcommand, *[named.get(word, word) for word in words.split()])
    text = trial.model("builtin", "1").decode()
    for name in ("TSO\n", text[len("model "):], text[len("model "):-len("\nend\n")]):
        misused(trial, "model", "model", "builtin:" + name)
    for words in (["builtin", ""], ["builtin", " 1"], ["image-run", "--start", "", named["IMAGE"], "l"], ["run", "--way", "", "1", "15", "l"]):
        misused(trial, words[0], *words)


def operands(trial):
    """An operand too many, one too few, none at all, an unknown option."""
    named = inputs(trial)
    for subcommand, words in RIGHT.items():
        words = [named.get(word, word) for word in words]
        misused(trial, subcommand, subcommand, *words, "more")
        misused(trial, subcommand, subcommand)
        misused(trial, subcommand, subcommand, *words, "--unknown")
    misused(trial, "compare", "compare", "1")
    misused(trial, "run", "run", "--way", "full", "1")


def only_before(trial):
    """Where POSIXLY_CORRECT is set, options stand before operands."""
    how = {"env": {**os.environ, "POSIXLY_CORRECT": "1"}}
    trial.is_done(trial.run("run", "-q", "--way", "full", "1", "15", "ss", **how), b"s0s\n")
    misused(trial, "run", "run", "--way", "full", "1", "15", "ss", "-q", **how)
    misused(trial, "run", "run", "1", "15", "--way", "full", **how)


def blamed(trial):
    """The word that is told is the one that is wrong."""
    for words, blame in (
        ("run --way=full -xq 1 15 ss", "-x"), ("run --quiet -xq 1 15", "-x"), ("run -qx --way full 1 15 ss", "-x"),
        ("run --way full 1 15 ss -q -xo", "-x"), ("run --way full --quite 1 15 ss", "--quite"), ("model --x=-y 1", "--x=-y"),
        ("model -\u00e9 1", r"-\xC3"),  # its first byte in UTF-8
    ):
        ran = trial.run(*words.split())
        trial.check(ran, ran.err.startswith(f"shim: {blame}: there is no such option\n".encode()), f"{blame} is what is wrong")
        trial.check(ran, ran.status == 2 and ran.out == b"" and usage_of(ran.err, words.split()[0]), "must be misuse, with the usage")


def subcommands(trial):
    misused(trial, None)
    for word in ("unknown", "", "Run", "image_run", "--unknown", "-x", "-", "helping"):
        misused(trial, None, word)


def terminal(trial, *words, **how):
    """The run with a terminal as its standard output, and what came out there."""
    mine, its = os.openpty()
    ran = trial.run(*words, stdout=its, **how)
    os.close(its)
    try:
        ran.out = os.read(mine, 65536)
    except OSError:  # nothing was written, and the other end is closed
        ran.out = b""
    os.close(mine)
    return ran


def terminals(trial):
    """An image is not written to a terminal; a text is, and an image that goes to a file."""
    named = inputs(trial)
    drawing, data = trial.read(named["DRAWING"]), trial.read(named["INPUT"])
    calls = (["generate", "--way", "full", "1", "15"], b""), (["generate", "-"], data), (["undraw", "-"], drawing)
    for words, given in calls:
        for more in ([], ["-o", "-"], ["-o", "/dev/stdout"]):
            ran = terminal(trial, *words, *more, data=given)
            trial.check(ran, ran.status == 2 and ran.out == b"" and usage_of(ran.err, words[0]), "an image must not go to a terminal")
        name = trial.output()
        ran = terminal(trial, *words, "-o", name, data=given)
        trial.is_done(ran, b"")
        trial.is_written(ran, name, trial.model("image", "full", "1", "15", "raw"))
    ran = terminal(trial, "builtin", "1")
    ran.out = ran.out.replace(b"\r\n", b"\n")
    trial.is_done(ran, trial.model("builtin", "1"))


def helps(trial):
    for word in ("--help", "-h"):
        ran = trial.run(word)
        trial.check(ran, ran.status == 0 and ran.err == b"" and all_stand(ran.out.decode(), SYNOPSIS), "must print all usages")
    for turn, (subcommand, words) in enumerate(RIGHT.items()):
        ran = trial.run(subcommand, *(words if turn % 2 else []), "-h" if turn % 3 else "--help")
        trial.check(ran, ran.status == 0 and ran.err == b"" and all_stand(ran.out.decode(), [subcommand]), "must print the usage")


def versions(trial):
    """One version everywhere, the header's."""
    header = trial.stored("..", "include", "shim.h").decode()
    told = re.search(r'#define SHIM_VERSION "([0-9.]+)"', header)
    for subcommand in ([], *([name] for name in SYNOPSIS)):
        ran = trial.run(*subcommand, "--version")
        trial.check(ran, ran.status == 0 and ran.err == b"" and told and ran.out == f"shim {told.group(1)}\n".encode(), "must print the version")


def tried(trial):
    for part in (kinds, operands, only_before, blamed, subcommands, terminals, helps, versions):
        part(trial)
    made = os.path.exists(trial.path("never-made"))
    trial.check(trial.run("--version"), not made, "misuse must make no file")
