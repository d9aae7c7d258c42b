"""Input that is refused, one example for each thing that can be wrong."""
from good import BARE
from papers import BLOCK, changed, renewed

TSO = b"model TSO\nppo SSSS SSSS SSSS -SMS\nfence mfence SSSS SSSS SSSS SSSS\nend\n"
FENCE = b"fence mfence SSSS SSSS SSSS SSSS\n"
ROWS = b" ---- ---- ---- ----\n"


def fences(count):
    return b"".join(b"fence f%d SSSS SSSS SSSS SSSS\n" % number for number in range(count))


def models():
    head, end = TSO[:TSO.index(b"fence")], b"end\n"
    return {
        "too-long": head + fences(16) + b"e" * 800 + b"\n" + end,
        "just-too-long": head.ljust(1025, b"x"),
        "no-cell": TSO.replace(b"-SMS", b"-SmS"),
        "repeats": head + FENCE + b"fence other" + ROWS + FENCE + end,
        "repeats-last": head + fences(15) + b"fence f3" + ROWS + end,
        "second-line": TSO.replace(b"ppo ", b"ppo  "),
        "empty": b"",
        "blank": b"\n",
        "no-name": TSO.replace(b"TSO", b""),
        "long-name": TSO.replace(b"TSO", b"n" * 17),
        "long-fence-name": TSO.replace(b"mfence", b"n" * 17),
        "dash-in-name": TSO.replace(b"TSO", b"TS-O"),
        "two-spaces": TSO.replace(b"model ", b"model  "),
        "short-row": TSO.replace(b"-SMS", b"-SM"),
        "long-row": TSO.replace(b"-SMS", b"-SMSS"),
        "space-at-end": TSO.replace(b"end", b"end "),
        "capital": TSO.replace(b"model", b"Model"),
        "seventeen": head + fences(17) + end,
        "no-end": TSO[:-4],
        "no-line-feed": TSO[:-1],
        "more": TSO + b"more",
        "line-more": TSO + b"\n",
        "carriage-returns": TSO.replace(b"\n", b"\r\n"),
        "carriage-return-at-end": TSO + b"\r\n",
        "carriage-return-in-name": TSO.replace(b"mfence", b"\rfence"),
        "tab": TSO.replace(b"ppo ", b"ppo\t"),
        "zero": TSO.replace(b"TSO", b"T\0O"),
        "not-ascii": TSO.replace(b"TSO", b"T\xc3\x9cO"),
        "tabs-before": TSO.replace(b"-SMS", b"-S\x01\t\x7f\xff"),
        "long-line": TSO.replace(b"-SMS\n", b"-SMS" + b"-SMS " * 60 + b"\n"),
        "long-line-cut": TSO[:-5] + b" SSSS" * 60 + b"\n" + end,
    }


# Streams that TSO on ARM refuses, as an argument or with a line feed behind.
STREAMS = {
    "no-operation": b"ssxl", "first": b"x", "last": b"llllz", "capital-g": b"lG", "blank": b"l s", "tab": b"l\ts", "quote": b"l's",
    "return": b"ssl\r", "high": b"l\xff", "control": b"l\x01\x7f", "zero": b"l\0l", "no-fence": b"ss0l1", "fence-fifteen": b"lF",
    "both": b"l3x", "too-long": b"l" * 4097, "too-long-and-wrong": b"x" * 4097, "far": b"l" * 2000 + b"y" + b"s" * 2000,
    "near-end": b"l" * 4095 + b"-", "near-start": b"ls;" + b"s" * 200, "escapes": b"l" * 50 + b"\x01" * 100,
}

WEAK = b"model weak\nppo" + ROWS + b"fence all SSSS SSSS SSSS SSSS\nfence none" + ROWS + b"end\n"
WEAKEST = b"model weakest\nppo" + ROWS + b"fence some -NM- -NM- -NM- -NM-\nfence none" + ROWS + b"end\n"
SC = b"model SC\nppo SSSS SSSS SSSS SSSS\nend\n"
NO_FENCE = {
    "none": ("full", SC, BARE, b"ll", "the target has none"),
    "none-sparing": ("sparing", SC, BARE, b"slL", "the target has none"),
    "last": ("full", SC, WEAK, b"lsS", "the full way takes the target's last fence alone"),
    "weak": ("sparing", SC, WEAKEST, b"SS", "none of the target's is strong enough"),
}


NO_END = "a model's text ends with a line 'end', and there must be two texts"
NO_WAY = "a line 'way full' or 'way sparing' must stand here"
NO_RUN = "a line of 'run ' and a stream must stand here"
NO_LINE_FEED = "the line must end in a line feed"
RETURNS = "; lines end in a line feed alone"


def shapes(up, target):
    """Inputs of another shape, with the place where that shows and the sentence."""
    both, way = up + target, b"way full\n"
    run = both + way
    returns = (run + b"run l\n").replace(b"\n", b"\r\n")
    return {
        "empty": (b"", 0, NO_END), "no-end": (up[:-4], len(up) - 4, NO_END), "one-end": (up + target[:-4], len(both) - 4, NO_END),
        "end-unended": (both[:-1], len(both) - 1, NO_LINE_FEED), "one-unended": (up[:-1], len(up) - 1, NO_LINE_FEED),
        "end-with-return": (returns, len(returns), NO_END + RETURNS),
        "no-way": (both + b"run l\n", len(both), NO_WAY), "cut-before-way": (both, len(both), NO_WAY),
        "another-way": (both + b"way fast\nrun l\n", len(both), NO_WAY),
        "way-with-return": (both + b"way full\r\nrun l\n", len(both), NO_WAY + RETURNS),
        "way-cut": (both + b"way ful", len(both), NO_WAY), "way-unended": (both + b"way full", len(both) + 8, NO_LINE_FEED),
        "sparing-unended": (both + b"way sparing", len(both) + 11, NO_LINE_FEED),
        "no-run": (run, len(run), NO_RUN), "another-run": (run + b"runs l\n", len(run), NO_RUN), "run-cut": (run + b"run", len(run), NO_RUN),
        "no-stream": (run + b"run\n", len(run), NO_RUN),
        "no-line-feed": (run + b"run l", len(run) + 5, NO_LINE_FEED), "empty-unended": (run + b"run ", len(run) + 4, NO_LINE_FEED),
        # Only here can bytes that are not shown as they are stand before the caret.
        "escapes": (run + b"run l\t\x01\xff\\", len(run) + 9, NO_LINE_FEED),
        "many-escapes": (run + b"run " + b"\t\xff" * 40, len(run) + 84, NO_LINE_FEED),
        "more": (run + b"run l\nl\n", len(run) + 6, "nothing may follow here"),
        "more-with-return": (run + b"run l\n\r\n", len(run) + 6, "nothing may follow here" + RETURNS),
    }


def at(state, byte):
    """Where a byte of a state stands in an image."""
    return BLOCK * (1 + state // 21) + 2 + 24 * (state % 21) + byte


def images(sound, refusing):
    """`refusing` is an image with accesses that are refused, of fewer than 21 states; one of them is told by its byte FE."""
    refusal = refusing.index(b"\xfe", BLOCK)
    return {
        "empty": b"", "too-long": sound + bytes(7169 - len(sound)), "cut": sound[:-1], "stub": sound[:7], "cut-first": sound[:511],
        "number": changed(sound, BLOCK + 1, 7), "first-number": changed(sound, 0, 1), "number-high": changed(sound, BLOCK, 3),
        "damaged": sound[:100] + b"\1" + sound[101:], "damaged-check": sound[:-1] + bytes([sound[-1] ^ 1]),
        "another-zero": sound[:510] + b"\0\0" + sound[512:], "swapped": sound[BLOCK:] + sound[:BLOCK],
        "form": changed(sound, 2, 2), "way": changed(sound, 3, 2), "states": changed(sound, 4, 0), "more-states": changed(sound, 4, 200),
        "block-more": renewed(sound + (len(sound) // BLOCK).to_bytes(2, "big") + bytes(510)), "block-fewer": sound[:BLOCK],
        "upstream-fences": changed(sound, 5, 0x11), "target-fences": changed(sound, 6, 0x99), "no-name": changed(sound, 7, 0),
        "name-byte": changed(sound, 8, 0x2D), "after-zero": changed(sound, 22, 0x41), "target-name": changed(sound, 23, 0x80),
        "header-rest": changed(sound, 39, 1), "header-last": changed(sound, 505, 9), "four-zeros": changed(sound, 506, 1),
        "last-zero": changed(sound, BLOCK + 509, 0x10), "fence": changed(sound, at(0, 0), 0x63), "fence-fd": changed(sound, at(0, 2), 0xFD),
        "next": changed(sound, at(1, 1), 0x50), "refused-next": changed(refusing, refusal + 1, 1), "fence-next": changed(sound, at(0, 8), 0x77),
        "no-such-fence": changed(sound, at(1, 9), 1), "fifteenth": changed(sound, at(1, 23), 1), "unused": changed(sound, at(20, 0), 0x42),
        "behind-last": changed(sound, at(sound[4], 0), 0x42), "in-last": changed(sound, at(sound[4] - 1, 23), 0x42),
    }


HEADER = {
    2: "the form, which is 1", 3: "the way, 0 or 1", 4: "the number of states, at least 1, which must fit the number of blocks",
    5: "the number of upstream fences, at most 16", 6: "the number of target fences, at most 16",
}


def header_field(byte):
    name = "the %s model's name, which is letters, digits and underscores and then zeros"
    return HEADER.get(byte) or (name % "upstream" if byte < 23 else name % "target" if byte < 39 else "zeros behind the header")


def state_field(byte, upstream_fences):
    """Four pairs of a fence byte and a next state, then sixteen next states, zero where there is no such fence."""
    if byte >= 8 + upstream_fences:
        return "zeros for fences that the upstream model does not have"
    if byte >= 8:
        return f"next state for upstream fence {byte - 8}, which must be one of the states"
    if byte % 2:
        return f"next state for {'lLsS'[byte // 2]}, which must be one of the states, and 0 if refused"
    return f"fence for {'lLsS'[byte // 2]}: a number of a target fence, FF for none or FE if refused"


def barred(image, place):
    """The sentence of a byte that document 01's layout bars: what the layout has there."""
    block, in_block = divmod(place, BLOCK)
    state, byte = divmod(in_block - 2, 24)
    state += 21 * (block - 1)
    if in_block >= 506:
        field = "zeros before a block's check"
    elif block == 0:
        field = header_field(place)
    else:
        field = f"state {state}'s {state_field(byte, image[5])}" if state < image[4] else "zeros behind the last state"
    return f"byte {place} is {image[place]:02X}, which may not stand there: {field}"


def drawings(drawing):
    """From a drawing with three states or more of TSO with one fence on a target without."""
    return {
        "empty": b"", "more": drawing + b"\n", "too-long": drawing + b" " * 262144, "carriage-returns": drawing.replace(b"\n", b"\r\n"),
        "long-name": drawing.replace(b'label="TSO', b'label="' + b"n" * 17), "no-name": drawing.replace(b'label="TSO', b'label="'),
        "way": drawing.replace(b" full ", b" fill "), "seventeen": drawing.replace(b' 1 0"', b' 17 0"'),
        "leading-zero": drawing.replace(b' 1 0"', b' 01 0"'), "node": drawing.replace(b"\n1;\n", b"\n2;\n"),
        "next": drawing.replace(b"0 -> 1 ", b"0 -> 9 "), "mark": drawing.replace(b'l -"', b'l 7"'), "order": drawing.replace(b'"L ', b'"s '),
        "return-at-end": drawing + b"\r", "not-ascii": drawing.replace(b"TSO", b"\xc3\x9c"), "edge-after": drawing[:-2] + b"0 -> 0\n}\n",
    }
