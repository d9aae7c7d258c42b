"""Running the command and the model, and counting what holds."""
import os
import shlex
import subprocess
from dataclasses import dataclass

SECONDS = 300  # a run that takes longer hangs


@dataclass
class Ran:
    words: list
    data: bytes
    status: int
    out: bytes
    err: bytes


class Trial:
    def __init__(self, model, program, folder, host):
        self.model_program, self.program, self.folder, self.host = model, program, folder, host
        self.calls = self.checks = self.failures = self.outputs = 0
        self.modelled = {}

    # ---- files

    def path(self, name):
        return os.path.join(self.folder, name)

    def file(self, name, data):
        """Writes an input file, under a name that stands in the command line."""
        os.makedirs(os.path.dirname(self.path(name)), exist_ok=True)
        with open(self.path(name), "wb") as file:
            file.write(data)
        return name

    def output(self, *data):
        """A name to write to, in a folder of its own; the file stands there already where there are data."""
        self.outputs += 1
        name = f"out/{self.outputs}/file"
        os.makedirs(os.path.dirname(self.path(name)))
        return self.file(name, *data) if data else name

    def read(self, name):
        with open(self.path(name), "rb") as file:
            return file.read()

    def stored(self, *names):
        """A file of the repository's folder host/."""
        with open(os.path.join(self.host, *names), "rb") as file:
            return file.read()

    # ---- runs

    def model(self, *words, data=b""):
        """What the model prints. No input file changes, so equal words get equal answers."""
        key = (words, data)
        if key not in self.modelled:
            run = subprocess.run([self.model_program, *words], input=data, stdout=subprocess.PIPE, cwd=self.folder, check=True)
            self.modelled[key] = run.stdout
        return self.modelled[key]

    def run(self, *words, data=b"", **how):
        """The command on these words, with `data` on standard input; `how` goes to subprocess."""
        self.calls += 1
        given = {"stdout": subprocess.PIPE, "stderr": subprocess.PIPE, "cwd": self.folder}
        if "stdin" not in how:
            given["input"] = data
        try:
            run = subprocess.run([*self.program, *words], timeout=SECONDS, **{**given, **how})
        except subprocess.TimeoutExpired:
            return Ran(list(words), data, -1, b"", b"(it hangs)")
        return Ran(list(words), data, run.returncode, run.stdout or b"", run.stderr or b"")

    # ---- checks

    def check(self, ran, holds, *told):
        """One thing that must hold of a run."""
        self.checks += 1
        if not holds:
            self.failures += 1
            print(f"FAILED: {self.repeat(ran)}")
            for line in (*told, f"status {ran.status}, output {shown(ran.out)}, standard error:"):
                print(f"  {line}")
            print(b"\n".join(b"    | " + line for line in ran.err.splitlines()).decode("latin-1"), flush=True)
        return holds

    def repeat(self, ran):
        """The command line that meets a failure again."""
        words = [os.fsdecode(word) for word in [*self.program, *ran.words]]
        line = f"cd {self.folder} && {shlex.join(words)}"
        if ran.data:
            line += f" <{self.file(f'standard-input-{self.failures}', ran.data)}"
        return line

    def is_done(self, ran, out):
        """The call succeeded, wrote exactly this to standard output and said nothing else."""
        holds = ran.status == 0 and ran.out == out and ran.err == b""
        return self.check(ran, holds, f"must be done, with the output {shown(out)}")

    def is_written(self, ran, name, data):
        """The file has exactly these bytes, and its folder holds no other that the command has left."""
        whole = os.path.exists(self.path(name)) and self.read(name) == data
        self.check(ran, whole, f"{name} must hold {shown(data)}")
        self.nothing_left(ran, name)

    def nothing_left(self, ran, *names):
        """Output files stand in folders of their own, where nothing else may be."""
        for name in names:
            folder, own = os.path.split(name)
            left = [other for other in os.listdir(self.path(folder)) if other != own]
            self.check(ran, left == [], f"left in {folder}: {left}")


def shown(data):
    return repr(data) if len(data) <= 300 else f"{data[:200]!r} and {len(data) - 200} bytes more"
