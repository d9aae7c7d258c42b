"""Good input: what the command writes is what the model says, or what Python works out."""
import os

from papers import NAMES, TARGETS, told_of_image

WAYS = ("full", "sparing")
FULLEST = b"model " + b"n" * 16 + b"\nppo " + b" ".join([b"SSSS"] * 4) + b"\n" + b"".join(
    b"fence fence_number__%02d %s\n" % (number, b" ".join([b"-NMS"] * 4)) for number in range(16)) + b"end\n"
BARE = b"model bare\nppo ---- ---- ---- ----\nend\n"

# Document 01, "Streams to try": upstream, target, ways, stream, output.
STREAMS = [
    ("TSO", "ARM", WAYS, "", ""), ("TSO", "ARM", WAYS, "ss", "s0s"), ("TSO", "ARM", WAYS, "sl", "sl"),
    ("TSO", "ARM", WAYS, "s0l", "s0l"), ("TSO", "ARM", WAYS, "0l", "l"), ("TSO", "ARM", WAYS, "ssl0l", "s0sl0l"),
    ("TSO", "POWER", WAYS[1:], "ss", "s1s"), ("TSO", "POWER", WAYS[1:], "ll", "l0l"),
    ("POWER", "POWER", WAYS[1:], "s0l", "sl"), ("POWER", "POWER", WAYS[1:], "s0s1s", "s0s1s"),
    ("POWER", "POWER", WAYS[1:], "sl0l1s", "sl0l1s"), ("TSO", "RMO", WAYS[1:], "ll", "l1l"),
    ("TSO", "RMO", WAYS[1:], "sls", "sl0s"), ("TSO", "RMO", WAYS[:1], "ll", "l2l"),
]

# Limits of host/model/README.md that are accepted: upstream, target, way.
AT_THE_LIMITS = [("a4096", "full", "full"), ("st255-up", "st-target", "sparing"), ("grow-up", "grow-target", "sparing")]


def lines_of(told, quiet=False):
    """The lines that the command prints for a run that the model tells of."""
    fields = dict(line.split(b" ", 1) for line in told.splitlines())
    if b"out" not in fields:
        return told  # the model refuses, so the command must not have done it
    numbers = [b"%s %s\n" % (word, fields[word]) for word in (b"fences", b"state") if word in fields]
    return fields[b"out"] + b"\n" + b"".join([] if quiet else numbers)


def image_of(trial, way, upstream, target):
    return trial.model("image", way, str(upstream), str(target), "raw")


def model_file(trial, name):
    """A file with a built-in model's text, or with one of host/model/models."""
    data = trial.model("builtin", str(name)) if isinstance(name, int) else trial.stored("model", "models", name + ".model")
    return trial.file(f"models/{name}.model", data)


def input_of(trial, way, upstream, target, stream):
    """What `shim list` reads; models are built-in numbers."""
    texts = trial.model("builtin", str(upstream)) + trial.model("builtin", str(target))
    return texts + f"way {way}\nrun {stream}\n".encode()


# ---- models

def builtins(trial):
    for number in range(16):
        text = trial.model("builtin", str(number))
        trial.is_done(trial.run("builtin", str(number)), text)
    trial.is_done(trial.run("builtin", "007"), trial.model("builtin", "7"))


def names(trial):
    """As a target a shared name is the later model, elsewhere the earlier."""
    for number, name in enumerate(NAMES):
        word, target = f"builtin:{name}", TARGETS.get(name, number)
        trial.is_done(trial.run("model", word), trial.model("builtin", str(number)))
        trial.is_done(trial.run("generate", "--way", "sparing", word, word), image_of(trial, "sparing", number, target))


def models(trial):
    text = trial.model("builtin", "6")
    file = trial.file("models/6", text)
    trial.file("1", text)
    trial.file("builtin:TSO", text)
    trial.file("-dash.model", text)
    for words in (["6"], ["builtin:6"], ["builtin:06"], [file], ["./1"], ["./builtin:TSO"], ["--", "-dash.model"], ["--", file]):
        trial.is_done(trial.run("model", *words), text)
    trial.is_done(trial.run("model", "-", data=text), text)
    trial.is_done(trial.run("model", "--", "-", data=text), text)
    trial.is_done(trial.run("model", "1"), trial.model("builtin", "1"))
    trial.is_done(trial.run("model", trial.file("models/fullest", FULLEST)), FULLEST)
    trial.is_done(trial.run("model", trial.file("models/bare", BARE)), BARE)


def comparisons(trial):
    file = trial.file("models/bare", BARE)
    for first, second in ((0, 1), (1, 0), (1, 9), (2, 3), (3, 2), (7, 8), (5, 6), (4, 2), (0, file), (file, 8), (file, file)):
        told = trial.model("compare", str(first), str(second)).split(b" ", 1)[1]
        trial.is_done(trial.run("compare", str(first), str(second)), told)
    trial.is_done(trial.run("compare", "-", "builtin:SC", data=trial.model("builtin", "1")), b"second stronger\n")
    trial.is_done(trial.run("compare", "builtin:TSO", "-", data=trial.model("builtin", "1")), b"equal\n")
    # As a model this is a file's name; a stream that is given so is standard input.
    trial.is_done(trial.run("compare", trial.file("@-", BARE), "@-"), b"equal\n")


# ---- streams

def document_streams(trial):
    for upstream, target, ways, stream, out in STREAMS:
        fences = len(out) - sum(stream.count(access) for access in "lLsS")
        for way in ways:
            words = ["--way", way, f"builtin:{upstream}", f"builtin:{target}", stream]
            trial.is_done(trial.run("run", *words), f"{out}\nfences {fences}\n".encode())


def runs(trial):
    """Both ways of pairs that have something to do, by number and by file."""
    for upstream, target, stream in ((0, 9, "slSLls"), (7, 14, "sl0l1sLS"), (6, 14, "s0l1sSL0l"), (5, 8, "lslsLS"), (1, 13, "llsls0lL")):
        for way in WAYS:
            told = trial.model("run", way, str(upstream), str(target), stream)
            trial.is_done(trial.run("run", "--way", way, str(upstream), model_file(trial, target), stream), lines_of(told))


def runs_of_fullest(trial):
    """All sixteen fences in a stream."""
    fullest, target = trial.file("models/fullest", FULLEST), model_file(trial, 14)
    stream = "l0s1L2S3l4s5L6S7l8s9LASBlCsDLESFl"
    told = trial.model("run", "full", fullest, target, stream)
    trial.is_done(trial.run("run", "--way", "full", fullest, target, stream), lines_of(told))


def stream_inputs(trial, begun, told):
    """A stream as an argument, as a file and on standard input, with and without a line feed at its end."""
    stream, out = "ssl0l", lines_of(told("ssl0l"))
    for number, data in enumerate((stream.encode(), stream.encode() + b"\n")):
        file = trial.file(f"streams/{number}", data)
        trial.is_done(trial.run(*begun, "@" + file), out)
        for word in ([], ["-"], ["@-"]):
            trial.is_done(trial.run(*begun, *word, data=data), out)
    trial.is_done(trial.run(*begun, stream), out)
    empty = lines_of(told(""))
    for number, data in enumerate((b"", b"\n")):
        trial.is_done(trial.run(*begun, data=data), empty)
        trial.is_done(trial.run(*begun, "@" + trial.file(f"streams/empty-{number}", data)), empty)
    trial.is_done(trial.run(*begun, ""), empty)


def long_streams(trial, begun, told):
    """4,096 operations; a line feed behind them does not count."""
    stream = "lsLS0sll" * 512
    out = lines_of(told(stream))
    trial.is_done(trial.run(*begun, stream), out)
    trial.is_done(trial.run(*begun, data=stream.encode() + b"\n"), out)
    trial.is_done(trial.run(*begun, "@" + trial.file("streams/long", stream.encode())), out)


def streams(trial):
    run = ["run", "--way", "full", "1", "15"]
    image = trial.file("images/tso-on-arm", image_of(trial, "full", 1, 15))
    image_run = ["image-run", "--start", "0", image]
    for part in (stream_inputs, long_streams):
        part(trial, run, lambda stream: trial.model("run", "full", "1", "15", stream))
        part(trial, image_run, lambda stream: trial.model("image-run", "0", stream, data=trial.read(image)))


# ---- machines

def machines(trial):
    for upstream, target, way in ((0, 15, "full"), (7, 14, "sparing"), (7, 14, "full"), (6, 9, "sparing"), (1, 5, "full")):
        image = image_of(trial, way, upstream, target)
        name = trial.file(f"images/{upstream}-{target}-{way}", image)
        trial.is_done(trial.run("generate", "--way", way, str(upstream), str(target)), image)
        trial.is_done(trial.run("image", name), told_of_image(image))
        data = input_of(trial, way, upstream, target, "sLSl")
        trial.is_done(trial.run("list", trial.file(name + ".input", data)), trial.model("list", data=data))
        trial.is_done(trial.run("draw", name), trial.model("draw", data=image))


def machines_at_the_limits(trial):
    for upstream, target, way in AT_THE_LIMITS:
        files = [model_file(trial, upstream), model_file(trial, target)]
        image = image_of(trial, way, *files)
        trial.is_done(trial.run("generate", "--way", way, *files), image)
        trial.is_done(trial.run("image", "-", data=image), told_of_image(image))
        drawing = trial.model("draw", data=image)
        trial.is_done(trial.run("draw", "-", data=image), drawing)
        trial.is_done(trial.run("undraw", "-", data=drawing), image)
        data = trial.read(files[0]) + trial.read(files[1]) + f"way {way}\nrun lsLS0\n".encode()
        trial.is_done(trial.run("list", "-", data=data), trial.model("list", data=data))


def generated_from_inputs(trial):
    """The stream of an input is not looked at, whatever it is."""
    image = image_of(trial, "full", 1, 15)
    for number, stream in enumerate(("ssl0l", "", "x", "7", "l" * 4097)):
        data = input_of(trial, "full", 1, 15, stream)
        trial.is_done(trial.run("generate", trial.file(f"inputs/{number}", data)), image)
    trial.is_done(trial.run("generate", "-", data=input_of(trial, "sparing", 7, 14, "")), image_of(trial, "sparing", 7, 14))


def lists(trial):
    examples = os.path.join(trial.host, "..", "examples")
    for name in sorted(os.listdir(examples)):
        data = trial.stored("..", "examples", name)
        told = trial.model("list", data=data)
        if not told.startswith(b"refused"):
            trial.is_done(trial.run("list", trial.file(f"inputs/{name}", data)), told)
    for stream in ("", "lsLS0sll" * 512):
        data = input_of(trial, "full", 1, 15, stream)
        trial.is_done(trial.run("list", "-", data=data), trial.model("list", data=data))


def chain(trial):
    """From models to an image, its drawing and the same image again, all through files."""
    image, drawing, again = trial.output(), trial.output(), trial.output()
    sound = image_of(trial, "sparing", 1, 13)
    for words, name, written in (
        (["generate", "--way", "sparing", "builtin:TSO", "builtin:RMO"], image, sound),
        (["draw", image], drawing, trial.model("draw", data=sound)), (["undraw", drawing], again, sound),
    ):
        ran = trial.run(*words, "-o", name)
        trial.is_done(ran, b"")
        trial.is_written(ran, name, written)
    trial.is_done(trial.run("image", again), told_of_image(sound))


def thread(trial):
    """A thread in parts over an image: each begins in the state that the command told last, and all together are the direct run."""
    image = trial.file("images/tso-on-rmo", image_of(trial, "sparing", 1, 13))
    stream, state, out = "llsls0lLsS0ss", "0", b""
    for cut in range(0, len(stream), 4):
        part = stream[cut:cut + 4]
        ran = trial.run("image-run", image, "--start", state, part)
        if not trial.is_done(ran, lines_of(trial.model("image-run", state, part, data=trial.read(image)))):
            return
        out, state = out + ran.out.split(b"\n")[0], ran.out.split()[-1].decode()
    direct = lines_of(trial.model("run", "sparing", "1", "13", stream), quiet=True).strip()
    trial.check(ran, out == direct, f"the parts give {out}, the whole {direct}")


def renamed(trial):
    """A drawing's image has the names that its label has now."""
    drawing = trial.model("draw", data=image_of(trial, "full", 1, 15)).replace(b"TSO ARM", b"x86 this_one_has_16_")
    image = image_of(trial, "full", 1, 15)
    wanted = trial.model("undraw", data=drawing)
    trial.is_done(trial.run("undraw", "-", data=drawing), wanted)
    ran = trial.run("image", "-", data=wanted)
    trial.is_done(ran, told_of_image(image[:7] + b"x86".ljust(16, b"\0") + b"this_one_has_16_" + image[39:510] + wanted[510:]))


# ---- options

def option_orders(trial):
    """Options before, between and after operands, short and long, and `--`."""
    out = b"s0sl0l\n"
    for words in (
        "--way full -q 1 15 ssl0l", "1 --way full 15 -q ssl0l", "1 15 ssl0l -q --way full", "-q 1 15 --way full -- ssl0l",
        "--quiet --way full -- 1 15 ssl0l", "--way full 1 15 ssl0l --quiet --",
    ):
        trial.is_done(trial.run("run", *words.split()), out)
    image = trial.file("images/tso-on-arm", image_of(trial, "full", 1, 15))
    for words in (f"--start 1 {image} 0l", f"{image} --start 1 0l", f"{image} 0l --start 01", f"--start 1 -- {image} 0l"):
        trial.is_done(trial.run("image-run", *words.split()), b"0l\nfences 1\nstate 1\n")
    trial.is_done(trial.run("image-run", image, "-q", "0l", "--start", "1"), b"0l\n")


def output_options(trial):
    """-o with every subcommand that has it: the bytes in the file, the numbers on standard output."""
    image, text = image_of(trial, "full", 1, 15), trial.model("builtin", "1")
    data, numbers = input_of(trial, "full", 1, 15, "ssl0l"), b"fences 2\n"
    drawing = trial.model("draw", data=image)
    for words, given, written, out in (
        (["builtin", "1"], b"", text, b""), (["model", "-"], text, text, b""), (["generate", "-"], data, image, b""),
        (["generate", "--way", "full", "1", "15"], b"", image, b""), (["list", "-"], data, trial.model("list", data=data), b""),
        (["draw", "-"], image, drawing, b""), (["undraw", "-"], drawing, image, b""),
        (["run", "--way", "full", "1", "15", "ssl0l"], b"", b"s0sl0l\n", numbers),
        (["run", "-q", "--way", "full", "1", "15", "ssl0l"], b"", b"s0sl0l\n", b""),
        (["image-run", "--start", "0", "-", "ssl0l"], image, b"s0sl0l\n", numbers + b"state 1\n"),
        (["image-run", "--start", "0", "-q", "-", "ssl0l"], image, b"s0sl0l\n", b""),
    ):
        for option, place, name in (("-o", 1, trial.output()), ("--output", len(words), trial.output(b"old"))):
            ran = trial.run(*words[:place], option, name, *words[place:], data=given)
            trial.is_done(ran, out)
            trial.is_written(ran, name, written)
        trial.is_done(trial.run(*words, "-o", "-", data=given), written + out)


def tried(trial):
    for part in (
        builtins, names, models, comparisons, document_streams, runs, runs_of_fullest, streams, machines,
        machines_at_the_limits, generated_from_inputs, lists, chain, thread, renamed, option_orders, output_options,
    ):
        part(trial)
