"""host/command.expected: runs its lines and compares all that comes to standard error."""
import difflib
import shlex
import subprocess

from broken import WEAK, WEAKEST
from good import BARE, image_of
from papers import changed
from trial import Ran

REPEATS = b"model A\nppo ---- ---- ---- ----\nfence mfence SSSS SSSS SSSS SSSS\nfence mfence ---- ---- ---- ----\nend\n"

# Bytes that may not stand in the image of TSO on ARM, by their places.
BARRED = {2: 2, 3: 2, 4: 22, 5: 17, 6: 17, 11: 0x41, 23: 0, 39: 1, 506: 1, 514: 1, 515: 3, 522: 3, 531: 0x63, 586: 0xFF}


def files(trial):
    """What the transcript's lines read."""
    image = image_of(trial, "full", 1, 15)
    made = {
        "repeats.model": REPEATS, "bare.model": BARE, "weak.model": WEAK, "weakest.model": WEAKEST, "tso-on-arm.image": image,
        "empty.image": b"", "cut.image": image[:-1], "number.image": changed(image, 513, 7),
        "damaged.image": image[:600] + bytes([image[600] ^ 1]) + image[601:],
    }
    for place, byte in BARRED.items():
        made[f"{place}.image"] = changed(image, place, byte)
    for name in ("a4097", "part", "st256-up", "st-target"):
        made[name + ".model"] = trial.stored("model", "models", name + ".model")
    for name, data in made.items():
        trial.file("transcript/" + name, data)


def told(trial, line):
    """The line again, with what its command says and its status."""
    trial.calls += 1
    script = f"shim() {{ {shlex.join(trial.program)} \"$@\"; }}\n{line}"
    run = subprocess.run(["sh", "-c", script], stdout=subprocess.PIPE, stderr=subprocess.PIPE, cwd=trial.path("transcript"), check=False)
    return f"$ {line}\n{run.stderr.decode('latin-1')}{run.stdout.decode('latin-1')}[{run.returncode}]\n"


def tried(trial):
    files(trial)
    stored = trial.stored("command.expected").decode("latin-1")
    lines = [line[2:] for line in stored.splitlines() if line.startswith("$ ")]
    said = "".join(told(trial, line) for line in lines)
    wanted = "".join(line for line in stored.splitlines(True) if not line.startswith("#") and line != "\n")
    differs = "".join(difflib.unified_diff(wanted.splitlines(True), said.splitlines(True), "host/command.expected", "the command"))
    trial.check(Ran([], b"", 0, b"", differs.encode()), said == wanted and lines, "the transcript differs")
