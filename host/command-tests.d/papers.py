"""What the manual page and document 01 say, in a form to test by."""
import re
import string

NAMES = ["SC", "TSO", "PLO", "PSO", "LSO", "RMO", "POWERA", "POWER", "ARM"]  # built-in models 0 to 8
TARGETS = {"TSO": 9, "PLO": 10, "PSO": 11, "LSO": 12, "RMO": 13, "POWER": 14, "ARM": 15}  # made for targets

SYNOPSIS = {
    "builtin": ["shim builtin [-o FILE] NUMBER"],
    "model": ["shim model [-o FILE] MODEL"],
    "compare": ["shim compare MODEL MODEL"],
    "run": ["shim run --way full|sparing [-q] [-o FILE] UPSTREAM TARGET [STREAM]"],
    "generate": ["shim generate --way full|sparing [-o FILE] UPSTREAM TARGET", "shim generate [-o FILE] INPUT"],
    "image": ["shim image IMAGE"],
    "image-run": ["shim image-run --start STATE [-q] [-o FILE] IMAGE [STREAM]"],
    "list": ["shim list [-o FILE] INPUT"],
    "draw": ["shim draw [-o FILE] IMAGE"],
    "undraw": ["shim undraw [-o FILE] DRAWING"],
}

BLOCK = 512
SHOWN, SHOWN_BEFORE = 70, 50  # characters of a line, in all and before the place
LARGEST = 2**64 - 1


# ---- images

def check(block):
    """RFC 1071, as it is written there: the sum of the words, carries added back, all bits turned."""
    total = 0
    for high, low in zip(block[0:510:2], block[1:510:2]):
        total += high << 8 | low
        total = (total & 0xFFFF) + (total >> 16)
    return ~total & 0xFFFF


def renewed(image):
    """The image with the checks that its bytes ask for."""
    blocks = [image[at:at + BLOCK] for at in range(0, len(image), BLOCK)]
    return b"".join(block[:510] + check(block).to_bytes(2, "big") if len(block) == BLOCK else block for block in blocks)


def changed(image, at, byte):
    """The image with another byte there, and right checks."""
    return renewed(image[:at] + bytes([byte]) + image[at + 1:])


def counted(number, noun):
    return f"{number} {noun}" if number == 1 else f"{number} {noun}s"


def told_of_image(image):
    """What `shim image` prints, from document 01's layout."""
    name = [image[at:at + 16].rstrip(b"\0").decode() for at in (7, 23)]
    blocks = [image[at:at + BLOCK] for at in range(0, len(image), BLOCK)]
    checks = " ".join(f"{check(block):04X}" for block in blocks)
    lines = [
        ("form", image[2]), ("way", ["sparing", "full"][image[3]]), ("states", image[4]),
        ("upstream", f"{name[0]}, {counted(image[5], 'fence')}"), ("target", f"{name[1]}, {counted(image[6], 'fence')}"),
        ("size", f"{len(image)} bytes, {counted(len(blocks), 'block')}"), ("checks", f"{checks}, all right"),
    ]
    return "".join(f"{word:<10}{value}\n" for word, value in lines).encode()


# ---- places in a text

def line_and_column(text, at):
    return text.count(b"\n", 0, at) + 1, at - (text.rfind(b"\n", 0, at) + 1) + 1


def escaped(byte):
    if 0x20 <= byte <= 0x7E:
        return bytes([byte])
    return {9: b"\\t", 13: b"\\r"}.get(byte, b"\\x%02X" % byte)


def excerpt(cells, column, first, last):
    """The cells from first to last behind four blanks, with a caret under the one at the column."""
    dots = [b"..." if first > 0 else b"", b"..." if last < len(cells) else b""]
    before = b"    " + dots[0] + b"".join(cells[first:column])
    return before + b"".join(cells[column:last]) + dots[1] + b"\n" + b" " * len(before) + b"^\n"


def window(cells, column):
    """The cells that are shown: all if they have room, else as many before the column and then in all as have."""
    if len(b"".join(cells)) <= SHOWN:
        return 0, len(cells)
    first = next(at for at in range(column + 1) if len(b"".join(cells[at:column])) <= SHOWN_BEFORE)
    return first, max(at for at in range(first, len(cells) + 1) if len(b"".join(cells[first:at])) <= SHOWN)


def shows_place(told, text, at):
    """Is this the line of the text, with the caret under that place?"""
    start, end = text.rfind(b"\n", 0, at) + 1, text.find(b"\n", at)
    cells, column = [escaped(byte) for byte in (text[start:] if end < 0 else text[start:end])], at - start
    return told == excerpt(cells, column, *window(cells, column))


# ---- what refusal 2 says must stand at a place

CLASSES = {"a letter": string.ascii_letters, "a digit": string.digits, "a space": " ", "the end of the line": "\n"}
WORD = re.compile(r"'([^']+)'|" + "|".join(CLASSES))
BETWEEN = re.compile(r"(, | or |$)")


def alternatives(expected):
    """The texts that a phrase as `a letter, a digit or '_'` names, or nothing where it is no such phrase."""
    found, at = [], 0
    while at < len(expected):
        word = WORD.match(expected, at)
        between = word and BETWEEN.match(expected, word.end())
        if not between:
            return []
        found.extend(CLASSES.get(word.group(), [word.group(1)]))
        at = between.end()
    return found


def names_what_follows(trial, kind, text, place, expected):
    """Does each alternative stand at the place in some text of the form, and is none left out?"""
    begun = text[:place]
    follow = {bytes.fromhex(byte.decode()) for byte in trial.model("follow", kind, data=begun).split()[1:]}
    tried = [alternative.encode() for alternative in alternatives(expected)]
    whole = [len(begun) + len(part) == int(trial.model("follow", kind, data=begun + part).split()[0]) for part in tried if len(part) > 1]
    return bool(tried) and all(whole) and {part[:1] for part in tried} == follow


def says_not_of_the_form(trial, kind, text, place, sentence):
    """The three forms of refusal 2's sentence, and its end at a carriage return."""
    ending = "; lines end in a line feed alone" if text[place:place + 1] == b"\r" else ""
    if not sentence.endswith(ending) or ("carriage" in sentence or "line feed alone" in sentence) != bool(ending):
        return False
    sentence = sentence[:len(sentence) - len(ending)]
    follow = trial.model("follow", kind, data=text).split()[1:]
    if not follow:
        return sentence == "nothing may follow here"
    form = r"the text ends here, where (.*) must follow" if place == len(text) else r"(.*) must stand here"
    found = re.fullmatch(form, sentence)
    return bool(found) and names_what_follows(trial, kind, text, place, found.group(1))
