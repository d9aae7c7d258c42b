"""Bad input: number and place by the model, the sentence by the papers, one call for each thing that can be wrong."""
from dataclasses import replace

import broken
from good import image_of, model_file
from papers import LARGEST, changed, escaped, says_not_of_the_form
from refused import Fault, answer, by_file_or_pipe, refused, too_long


# ---- models

def fault_of_model(trial, text, whole=None, before=0):
    """What is wrong with a model's text, which may stand in a whole input behind so many bytes."""
    number, place = answer(trial.model("model", data=text))
    if number == 1:
        return too_long("model", whole, before)
    sentence = lambda told: says_not_of_the_form(trial, "model", text, place, told)
    if number == 3:
        sentence = f"the fence name '{text[place:].split()[0].decode()}' stands above already"
    return Fault(number, place, sentence, text if whole is None else whole, before + place)


def models(trial):
    for label, text in broken.models().items():
        by_file_or_pipe(trial, ["model", ""], 1, label, text, fault_of_model(trial, text))


def model_at_many_bytes(trial):
    text = trial.model("builtin", "1")
    for wrong in [text[:at] + b"*" + text[at + 1:] for at in range(0, len(text), 3)] + [text[:at] for at in range(1, len(text), 7)]:
        refused(trial, ["model", "-"], "standard input", fault_of_model(trial, wrong), wrong)


MODEL_PLACES = (
    (["compare", "", "1"], 1), (["compare", "1", ""], 2), (["run", "--way", "full", "", "15", "l"], 3),
    (["run", "--way", "sparing", "1", "", "l"], 4), (["generate", "--way", "full", "", "15"], 3),
    (["generate", "--way", "sparing", "1", ""], 4),
)


def models_in_every_place(trial):
    for label in ("too-long", "no-cell", "repeats"):
        text = broken.models()[label]
        for words, place in MODEL_PLACES:
            by_file_or_pipe(trial, words, place, label, text, fault_of_model(trial, text))


def models_in_inputs(trial):
    """K counts in the model's own text, the line and the column in the whole file."""
    good = trial.model("builtin", "15")
    for label in ("too-long", "no-cell", "repeats", "second-line"):
        text = broken.models()[label]
        for up, target, before in ((text, good, 0), (good, text, len(good))):
            data = up + target + b"way full\nrun l\n"
            assert trial.model("list", data=data) == trial.model("model", data=text), "the input has the text's own refusal"
            for subcommand in ("list", "generate"):
                by_file_or_pipe(trial, [subcommand, ""], 1, f"{label}-{before}", data, fault_of_model(trial, text, data, before))


# ---- numbers

def numbers(trial):
    """A number is shown as it was typed, and one of more than 64 bits counts as the largest."""
    for word in ("16", "017", "256", "4294967296", str(LARGEST), str(LARGEST + 1), "9" * 40):
        fault = Fault(12, 0, f"there is no built-in model {word}; the last is 15")
        refused(trial, ["builtin", word], "", fault)
        refused(trial, ["model", f"builtin:{word}"], "", fault)
    fault = Fault(12, 0, "there is no built-in model 16; the last is 15")
    for words, place in MODEL_PLACES:
        refused(trial, words[:place] + ["16"] + words[place + 1:], "", fault)


def states(trial):
    image = trial.file("images/tso-on-arm", image_of(trial, "full", 1, 15))
    for word in ("3", "003", "255", "256", "4294967296", str(LARGEST), str(LARGEST + 1), "9" * 40):
        fault = Fault(12, 0, f"there is no state {word}; the last is 2")
        refused(trial, ["image-run", "--start", word, image, "l"], image, fault)


# ---- streams

def fault_of_stream(told, stream, upstream_fences, six, whole=None, before=0):
    """What is wrong with a stream, of which the model tells number and place."""
    number, place = answer(told)
    if number == 1:
        return too_long("stream", whole, before)
    byte = stream[place:place + 1]
    shown = escaped(byte[0]).decode()
    last = f"its last is {upstream_fences - 1}" if upstream_fences else "it has none"
    sentences = {
        4: f"'{shown}' is no operation; operations are l, L, s, S, 0 to 9 and A to F",
        5: f"the upstream model has no fence {int(byte, 16) if byte.isalnum() and number == 5 else ''}; {last}",
        6: f"no fence will do before this access: {six}",
    }
    return Fault(number, place, sentences[number], stream if whole is None else whole, before + place)


def manners(trial, label, stream):
    """How a stream can be given: the word for it, its name in a refusal, the bytes that are shown, standard input."""
    line = stream + b"\n"  # at a file's end it is no part of the stream
    file, lined = trial.file(f"bad/stream-{label}", stream), trial.file(f"bad/stream-{label}-line", line)
    given = [(["@" + file], file, stream, b""), (["@" + lined], lined, line, b""), (["-"], "standard input", line, line),
             ([], "standard input", stream, stream), (["@-"], "standard input", line, line)]
    return given if b"\0" in stream else [([stream], "the stream", stream, b""), *given]


def wrong_streams(trial):
    """Streams of TSO on ARM, by direct runs and over the image, given in each manner by turns."""
    image = trial.file("images/tso-on-arm", image_of(trial, "full", 1, 15))
    for turn, (label, stream) in enumerate(broken.STREAMS.items()):
        given = manners(trial, label, stream)
        fault = fault_of_stream(trial.model("run", "full", "1", "15", f"@bad/stream-{label}"), stream, 1, "")
        for begun in (["run", "--way", "full", "1", "15"], ["image-run", "--start", "0", image]):
            word, name, text, data = given[turn % len(given)]
            refused(trial, [*begun, *word], name, replace(fault, text=fault.text and text), data)
            turn += 2


def streams_in_inputs(trial):
    models = trial.model("builtin", "1") + trial.model("builtin", "15") + b"way full\nrun "
    for label, stream in broken.STREAMS.items():
        data = models + stream + b"\n"
        fault = fault_of_stream(trial.model("list", data=data), stream, 1, "", data, len(models))
        by_file_or_pipe(trial, ["list", ""], 1, f"list-{label}", data, fault)


def line_feeds(trial):
    """Only one line feed at a file's end is left out, and none of an argument."""
    sentence = r"'\n' is no operation; operations are l, L, s, S, 0 to 9 and A to F"
    begun = ["run", "--way", "full", "1", "15"]
    refused(trial, [*begun, b"ss\n"], "the stream", Fault(4, 2, sentence, b"ss\n", 2))
    refused(trial, begun, "standard input", Fault(4, 2, sentence, b"ss\n\n", 2), b"ss\n\n")
    refused(trial, begun, "standard input", Fault(4, 2, sentence, b"ss\nll\n", 2), b"ss\nll\n")
    refused(trial, begun, "standard input", too_long("stream"), b"l" * 4096 + b"\n\n")


def without_fences(trial):
    """A fence that an upstream model without any does not have."""
    told = trial.model("run", "full", "0", "15", "l0")
    refused(trial, ["run", "--way", "full", "0", "15", "l0"], "the stream", fault_of_stream(told, b"l0", 0, ""))
    told = trial.model("run", "full", "7", "15", "l01A")
    refused(trial, ["run", "--way", "full", "7", "15", "l01A"], "the stream", fault_of_stream(told, b"l01A", 2, ""))


def no_fence_will_do(trial):
    """The three reasons, by a direct run, over the image and in an input."""
    for label, (way, up, target, stream, why) in broken.NO_FENCE.items():
        files = [trial.file(f"bad/{label}-up", up), trial.file(f"bad/{label}-target", target)]
        fault = fault_of_stream(trial.model("run", way, *files, stream.decode()), stream, 0, why)
        refused(trial, ["run", "--way", way, *files, stream], "the stream", fault)
        image = trial.file(f"bad/{label}-image", image_of(trial, way, *files))
        refused(trial, ["image-run", "--start", "0", image, stream], "the stream", fault)
        models = up + target + b"way %s\nrun " % way.encode()
        data = models + stream + b"\n"
        fault = replace(fault, text=data, at=len(models) + fault.place)
        by_file_or_pipe(trial, ["list", ""], 1, f"{label}-input", data, fault)


# ---- machines that are too large

def too_large(trial):
    for upstream, target, number, sentence in (
        ("a4097", "part", 8, "the shim reaches more than 4096 situations"), ("st256-up", "st-target", 9, "the machine has more than 255 states"),
        ("both-up", "both-target", 8, "the shim reaches more than 4096 situations"),
    ):
        files = [model_file(trial, upstream), model_file(trial, target)]
        assert answer(trial.model("image", "sparing", *files)) == (number, 0), "the pair is over this limit"
        refused(trial, ["generate", "--way", "sparing", *files], " on ".join(files), Fault(number, 0, sentence))
        models = trial.read(files[0]) + trial.read(files[1])
        for subcommand in ("list", "generate"):
            data = models + b"way sparing\nrun l\n"
            by_file_or_pipe(trial, [subcommand, ""], 1, f"{upstream}-input", data, Fault(number, 0, sentence))
    long = ["./" * 400 + file for file in files]
    refused(trial, ["generate", "--way", "sparing", *long], " on ".join(long), Fault(8, 0, sentence))
    names = ["standard input", files[1]]
    refused(trial, ["generate", "--way", "sparing", "-", files[1]], " on ".join(names), Fault(8, 0, sentence), trial.read(files[0]))


# ---- inputs of another shape

def shapes(trial):
    """The line and the column are where the shape ends."""
    for label, (data, at, sentence) in broken.shapes(trial.model("builtin", "1"), trial.model("builtin", "15")).items():
        fault = Fault(*answer(trial.model("list", data=data)), sentence, data, at)
        by_file_or_pipe(trial, ["list", ""], 1, f"shape-{label}", data, fault)
        by_file_or_pipe(trial, ["generate", ""], 1, f"shape-{label}", data, fault)
    data = trial.model("builtin", "1") * 2 + b"way full\nrun " + b"l" * 32768
    for subcommand in ("list", "generate"):
        by_file_or_pipe(trial, [subcommand, ""], 1, "input-too-long", data, too_long("input"))


# ---- images

def fault_of_image(trial, image):
    number, place = answer(trial.model("image-read", data=image))
    if number == 1:
        return too_long("image")
    if number == 11:
        return Fault(11, place, broken.barred(image, place))
    block = image[512 * place:512 * place + 512]
    own = int.from_bytes(block[:2], "big")
    # Where both the number and the check are wrong, the number is told: it comes first in document 01 and in the block.
    sentence = f"block {place} is damaged: its check does not fit its bytes"
    if not image:
        sentence = "the image is empty"
    elif len(block) < 512:
        sentence = f"block {place} is cut short: a block has 512 bytes"
    elif own != place:
        sentence = f"block {place} has the number {own}"
    return Fault(10, place, sentence)


def images(trial):
    sound = image_of(trial, "sparing", 1, 13)
    wrong = broken.images(sound, image_of(trial, "full", 1, 5))
    for label, image in wrong.items():
        file = trial.file(f"bad/image-{label}", image)
        refused(trial, ["image", file], file, fault_of_image(trial, image))
    for label in ("empty", "too-long", "number", "damaged", "cut", "form"):
        for words, place in ((["image", ""], 1), (["draw", ""], 1), (["image-run", "--start", "0", "", "l"], 3)):
            by_file_or_pipe(trial, words, place, f"image-{label}", wrong[label], fault_of_image(trial, wrong[label]))


# ---- drawings

def fault_of_drawing(trial, drawing):
    number, place = answer(trial.model("undraw", data=drawing))
    if number == 1:
        return too_long("drawing")
    return Fault(2, place, lambda told: says_not_of_the_form(trial, "drawing", drawing, place, told), drawing, place)


def drawings(trial):
    """A byte that stands in no drawing, at many places; cuts; and what was made for the purpose."""
    drawing = trial.model("draw", data=image_of(trial, "full", 1, 5))
    places = [*range(0, 50, 5), *range(50, len(drawing), 41), drawing.index(b"refused"), drawing.index(b"!"), len(drawing) - 2, len(drawing) - 1]
    wrong = [drawing[:at] + b"*" + drawing[at + 1:] for at in places] + [drawing[:at] for at in range(0, len(drawing), 61)]
    for text in wrong:
        refused(trial, ["undraw", "-"], "standard input", fault_of_drawing(trial, text), text)
    for label, text in broken.drawings(drawing).items():
        by_file_or_pipe(trial, ["undraw", ""], 1, f"drawing-{label}", text, fault_of_drawing(trial, text))


# ---- which is told first

def orders(trial):
    bad = broken.models()
    first, second = bad["no-cell"], bad["repeats"]
    files = [trial.file("bad/first", first), trial.file("bad/second", second)]
    fault = fault_of_model(trial, first)
    refused(trial, ["compare", *files], files[0], fault)
    refused(trial, ["run", "--way", "full", *files, "x"], files[0], fault)
    refused(trial, ["generate", "--way", "full", *files], files[0], fault)
    refused(trial, ["run", "--way", "full", "1", files[1], "x"], files[1], fault_of_model(trial, second))
    refused(trial, ["run", "--way", "full", "1", files[1], "l" * 4097], files[1], fault_of_model(trial, second))
    data = first + second + b"way full\nrun x\n"
    refused(trial, ["list", "-"], "standard input", fault_of_model(trial, first, data), data)


def orders_of_images(trial):
    sound = image_of(trial, "full", 1, 15)
    both = changed(sound, 2, 0)[:1023]
    refused(trial, ["image-run", "--start", "9", "-", "x"], "standard input", fault_of_image(trial, both), both)
    fault = Fault(12, 0, "there is no state 9; the last is 2")
    refused(trial, ["image-run", "--start", "9", "-", "l" * 4097], "standard input", fault, sound)
    refused(trial, ["image-run", "--start", "9", "-", "x"], "standard input", fault, sound)


def orders_of_machines(trial):
    """A stream's refusal goes before those of its machine; a run has no such refusal."""
    models = trial.stored("model", "models", "a4097.model") + trial.stored("model", "models", "part.model")
    data = models + b"way full\nrun lx\n"
    fault = fault_of_stream(trial.model("list", data=data), b"lx", 0, "", data, len(data) - 3)
    refused(trial, ["list", "-"], "standard input", fault, data)
    files = [model_file(trial, "a4097"), model_file(trial, "part")]
    told = trial.model("run", "full", *files, "l0s").splitlines()
    trial.is_done(trial.run("run", "--way", "full", *files, "l0s"), told[0][4:] + b"\n" + told[2] + b"\n")


def tried(trial):
    for part in (
        models, model_at_many_bytes, models_in_every_place, models_in_inputs, numbers, states, wrong_streams, streams_in_inputs,
        line_feeds, without_fences, no_fence_will_do, too_large, shapes, images, drawings, orders, orders_of_images, orders_of_machines,
    ):
        part(trial)
