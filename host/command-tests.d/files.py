"""Files that cannot be read or written, and what becomes of the old ones."""
import errno
import os
import resource
import signal
import stat
import subprocess
import threading

from good import image_of, input_of, model_file
from refused import standing

TSO_OUT = ["builtin", "1"]


def failed(trial, ran, name, what, fault, more=""):
    """Status 2, nothing on standard output, one line with the system's words."""
    line = f"shim: {name}: cannot be {what}: {os.strerror(fault)}{more}\n".encode()
    trial.check(ran, ran.status == 2 and ran.out == b"", "must end with status 2 and nothing on standard output")
    return trial.check(ran, ran.err == line, f"must tell {line!r}")


# ---- reading

def unreadable(trial):
    os.mkdir(trial.path("folder"))
    cases = [("folder", errno.EISDIR), ("missing/file", errno.ENOENT), ("/proc/self/mem", errno.EIO)]
    if os.geteuid() != 0:
        os.chmod(trial.path(trial.file("locked", b"")), 0)
        cases.append(("locked", errno.EACCES))
    for name, fault in cases:
        failed(trial, trial.run("model", name), name, "read", fault)
        failed(trial, trial.run("run", "--way", "full", "1", "15", "@" + name), name, "read", fault)


def missing(trial):
    image = trial.file("images/tso-on-arm", image_of(trial, "full", 1, 15))
    places = [
        "model FILE", "compare FILE 1", "compare 1 FILE", "run --way full FILE 15 l", "run --way full 1 FILE l", "run --way full 1 15 @FILE",
        "generate --way full FILE 15", "generate --way full 1 FILE", "generate FILE", "image FILE", "image-run --start 0 FILE l",
        f"image-run --start 0 {image} @FILE", "list FILE", "draw FILE", "undraw FILE",
    ]
    for place in places:
        failed(trial, trial.run(*place.replace("FILE", "missing").split()), "missing", "read", errno.ENOENT)


def unreadable_input(trial):
    """Standard input that is a folder, or closed."""
    folder = os.open(trial.folder, os.O_RDONLY)
    failed(trial, trial.run("model", "-", stdin=folder), "standard input", "read", errno.EISDIR)
    os.close(folder)
    ran = trial.run("model", "-", stdin=subprocess.DEVNULL, preexec_fn=lambda: os.close(0))
    failed(trial, ran, "standard input", "read", errno.EBADF)


def forgotten_prefix(trial):
    """Where a model's file does not exist and its name is a built-in model's, the right word is told."""
    for words in (["model", "TSO"], ["compare", "TSO", "1"], ["run", "--way", "full", "TSO", "15", "l"], ["generate", "--way", "full", "0", "TSO"]):
        failed(trial, trial.run(*words), "TSO", "read", errno.ENOENT, "; the built-in model is builtin:TSO")
    failed(trial, trial.run("model", "tso"), "tso", "read", errno.ENOENT)
    failed(trial, trial.run("list", "TSO"), "TSO", "read", errno.ENOENT)


# ---- writing

def outputs(trial):
    """Every subcommand that writes to a file, with what goes to standard input and what is written."""
    image, text, data = image_of(trial, "full", 1, 15), trial.model("builtin", "1"), input_of(trial, "full", 1, 15, "ssl0l")
    return [
        (["builtin", "1"], b"", text), (["model", "-"], text, text), (["run", "-q", "--way", "full", "1", "15", "ssl0l"], b"", b"s0sl0l\n"),
        (["generate", "--way", "full", "1", "15"], b"", image), (["generate", "-"], data, image),
        (["image-run", "-q", "--start", "0", "-", "ssl0l"], image, b"s0sl0l\n"), (["list", "-"], data, trial.model("list", data=data)),
        (["draw", "-"], image, trial.model("draw", data=image)), (["undraw", "-"], trial.model("draw", data=image), image),
    ]


def unwritable(trial):
    for words, data, _ in outputs(trial):
        ran = trial.run(*words, "-o", "missing/out", data=data)
        failed(trial, ran, "missing/out", "written", errno.ENOENT)
    if os.geteuid() != 0:
        os.mkdir(trial.path("closed"), 0o555)
        failed(trial, trial.run(*TSO_OUT, "-o", "closed/out"), "closed/out", "written", errno.EACCES)


def folders_as_outputs(trial):
    name = trial.output()
    os.mkdir(trial.path(name))
    for word in (name, name + "/", name + "/."):
        ran = trial.run(*TSO_OUT, "-o", word)
        failed(trial, ran, word, "written", errno.EISDIR)
        trial.check(ran, os.listdir(trial.path(name)) == [], "something is left in the folder")
        trial.nothing_left(ran, name)


def protected(trial):
    """A file that may not be written is not replaced either, by its name or by a link to it. Root may write all."""
    if os.geteuid() == 0:
        return
    name, *names = linked(trial, b"old")
    os.chmod(trial.path(name), 0o444)
    before = standing(trial, name)
    for word in (name, *names):
        ran = trial.run(*TSO_OUT, "-o", word)
        failed(trial, ran, word, "written", errno.EACCES)
        trial.check(ran, standing(trial, name) == before, "the output file is not as it was")
        trial.nothing_left(ran, name, word)


def empty_names(trial):
    for words, what in (
        (["model", ""], "read"), (["list", ""], "read"), (["run", "--way", "full", "1", "15", "@"], "read"), ([*TSO_OUT, "-o", ""], "written"),
    ):
        failed(trial, trial.run(*words), "''", what, errno.ENOENT)


def piped(trial):
    """A pipe is written to and stays a pipe. What is a device is tried only where that holds, so that none is lost."""
    pipe = trial.path("pipe")
    os.mkfifo(pipe)
    got = []
    reader = threading.Thread(target=lambda: got.append(trial.read("pipe")), daemon=True)
    reader.start()
    ran = trial.run(*TSO_OUT, "-o", "pipe")
    holds = stat.S_ISFIFO(os.stat(pipe).st_mode)
    trial.check(ran, holds, "the pipe is no pipe any more")
    reader.join(10 if holds else 0)
    trial.is_done(ran, b"")
    trial.check(ran, got == [trial.model("builtin", "1")], f"the pipe must give the text, not {got}")
    if holds:
        devices(trial)


def devices(trial):
    ran = trial.run(*TSO_OUT, "-o", "/dev/null")
    trial.is_done(ran, b"")
    trial.check(ran, stat.S_ISCHR(os.stat("/dev/null").st_mode), "/dev/null is no device any more")
    for words, data, _ in outputs(trial):
        failed(trial, trial.run(*words, "-o", "/dev/full", data=data), "/dev/full", "written", errno.ENOSPC)
    for name in ("/dev/stdout", "/dev/fd/1"):
        trial.is_done(trial.run(*TSO_OUT, "-o", name), trial.model("builtin", "1"))
        trial.is_done(trial.run("run", "--way", "full", "1", "15", "ssl0l", "-o", name), b"s0sl0l\nfences 2\n")
        behind_what_stands(trial, name)


def behind_what_stands(trial, name):
    """Standard output by another name is a file: what stands there stays, and the numbers come behind the stream."""
    image = image_of(trial, "full", 1, 15)
    numbers = [
        (["run", "--way", "full", "1", "15", "ssl0l"], b"", b"s0sl0l\nfences 2\n"),
        (["image-run", "--start", "0", "-", "ssl0l"], image, b"s0sl0l\nfences 2\nstate 1\n"),
    ]
    for words, data, written in outputs(trial) + numbers:
        file = trial.output()
        with open(trial.path(file), "wb", buffering=0) as shared:
            shared.write(b"before\n")
            ran = trial.run(*words, "-o", name, data=data, stdout=shared)
            shared.write(b"after\n")
        trial.is_done(ran, b"")
        trial.is_written(ran, file, b"before\n" + written + b"after\n")


def full_standard_output(trial):
    image = trial.file("images/tso-on-arm", image_of(trial, "full", 1, 15))
    calls = [(words, data) for words, data, _ in outputs(trial)]
    calls += [(["compare", "1", "2"], b""), (["image", image], b""), (["--help"], b""), (["run", "--version"], b"")]
    for words, data in calls:
        with open("/dev/full", "wb") as full:
            failed(trial, trial.run(*words, data=data, stdout=full), "standard output", "written", errno.ENOSPC)


def numbers_unwritten(trial):
    """Where the numbers of a run cannot be written something goes wrong, so the output file stays as it was."""
    for old in ([], [b"old"]):
        name = trial.output(*old)
        before = standing(trial, name)
        with open("/dev/full", "wb") as full:
            ran = trial.run("run", "--way", "full", "1", "15", "ssl0l", "-o", name, stdout=full)
        failed(trial, ran, "standard output", "written", errno.ENOSPC)
        trial.check(ran, standing(trial, name) == before, "the output file is not as it was")
        trial.nothing_left(ran, name)


def closed_standard_output(trial):
    """A file that is opened while standard output is closed must not be taken for it."""
    text = trial.model("builtin", "1")
    name = trial.output(text)
    close = {"stdout": subprocess.DEVNULL, "preexec_fn": lambda: os.close(1)}
    for words in (["model", name], ["builtin", "1"], ["run", "--way", "full", name, "15", "l"]):
        before = standing(trial, name)
        ran = trial.run(*words, **close)
        failed(trial, ran, "standard output", "written", errno.EBADF)
        trial.check(ran, standing(trial, name) == before, "the input file was written to")
    new = trial.output()
    ran = trial.run("run", "--way", "full", "1", "15", "ssl0l", "-o", new, **close)
    failed(trial, ran, "standard output", "written", errno.EBADF)
    trial.check(ran, not os.path.exists(trial.path(new)), "a file was made")
    trial.nothing_left(ran, new)


def file_limited(trial, size):
    """No file may get larger. Only of the command alone is it asked that the signal does not end it: valgrind writes files too."""
    def limit():
        if len(trial.program) != 1:
            signal.signal(signal.SIGXFSZ, signal.SIG_IGN)
        resource.setrlimit(resource.RLIMIT_FSIZE, (size, size))
    return limit


def half_written(trial):
    """Writing fails half way: the old file stays whole, a new one is not made."""
    for turn, (words, data, written) in enumerate(outputs(trial)):
        name = trial.output(*([b"old" * 1000] if turn % 2 else []))
        before = standing(trial, name)
        ran = trial.run(*words, "-o", name, data=data, preexec_fn=file_limited(trial, len(written) // 2))
        failed(trial, ran, name, "written", errno.EFBIG)
        trial.check(ran, standing(trial, name) == before, "the output file is not as it was")
        trial.nothing_left(ran, name)


def limited_standard_output(trial):
    """Standard output is a file that may not get so large."""
    for words, data, written in outputs(trial):
        with open(trial.path(trial.output()), "wb") as file:
            ran = trial.run(*words, data=data, stdout=file, preexec_fn=file_limited(trial, len(written) // 2))
        failed(trial, ran, "standard output", "written", errno.EFBIG)


# ---- the file that is written

def mode_of(trial, name):
    return stat.S_IMODE(os.stat(trial.path(name)).st_mode)


def modes(trial):
    """An old file's mode stays, a new one's is the umask's."""
    for mode in (0o600, 0o644, 0o755, 0o666):
        name = trial.output(b"old")
        os.chmod(trial.path(name), mode)
        ran = trial.run(*TSO_OUT, "-o", name)
        trial.is_written(ran, name, trial.model("builtin", "1"))
        trial.check(ran, mode_of(trial, name) == mode, f"the mode must stay {mode:o}")
    for umask in (0o000, 0o022, 0o027, 0o077):
        name = trial.output()
        ran = trial.run(*TSO_OUT, "-o", name, umask=umask)
        trial.is_written(ran, name, trial.model("builtin", "1"))
        trial.check(ran, mode_of(trial, name) == 0o666 & ~umask, f"the mode must be the umask's, {umask:o}")


def set_id_bits(trial):
    """The new file may have another owner, as that of root over a user's file has: nobody else may run as that one."""
    for owner in (-1, 65534) if os.geteuid() == 0 else (-1,):
        name = trial.output(b"old")
        os.chown(trial.path(name), owner, owner)
        os.chmod(trial.path(name), 0o6755)
        ran = trial.run(*TSO_OUT, "-o", name)
        trial.is_written(ran, name, trial.model("builtin", "1"))
        trial.check(ran, mode_of(trial, name) == 0o755, "the mode must be 755, without set-user-id and set-group-id")


def linked(trial, *old):
    """An output file, a symbolic link to it and one to that link, each in a folder of its own."""
    name, link, second = trial.output(*old), trial.output(), trial.output()
    os.symlink("../../" + name, trial.path(link))
    os.symlink("../../" + link, trial.path(second))
    return name, link, second


def links(trial):
    """A symbolic link stays one, and the file that it names is written, in its own folder."""
    name, *names = linked(trial, b"old")
    for link in names:
        ran = trial.run(*TSO_OUT, "-o", link)
        trial.is_done(ran, b"")
        trial.is_written(ran, name, trial.model("builtin", "1"))
        trial.check(ran, os.path.islink(trial.path(link)), "the link is gone")
        trial.nothing_left(ran, *names)
    before = standing(trial, name)
    ran = trial.run("builtin", "16", "-o", link)
    trial.check(ran, ran.status == 1 and standing(trial, name) == before and os.path.islink(trial.path(link)), "must stay as it was")


def dangling_links(trial):
    """What a link names must be there: nothing is made."""
    name, *names = linked(trial)
    circle = trial.output()
    os.symlink("file", trial.path(circle))
    for link, fault in (*((link, errno.ENOENT) for link in names), (circle, errno.ELOOP)):
        ran = trial.run(*TSO_OUT, "-o", link)
        failed(trial, ran, link, "written", fault)
        trial.check(ran, os.path.islink(trial.path(link)) and not os.path.exists(trial.path(name)), "must stay as it was")
        trial.nothing_left(ran, name, link)


def over_its_input(trial):
    image = image_of(trial, "full", 1, 15)
    drawing, text, data = trial.model("draw", data=image), trial.model("builtin", "1"), input_of(trial, "full", 1, 15, "ssl0l")
    for words, given, written in (
        (["draw"], image, drawing), (["undraw"], drawing, image), (["model"], text, text), (["generate"], data, image),
        (["list"], data, trial.model("list", data=data)),
    ):
        name = trial.output(given)
        ran = trial.run(*words, name, "-o", name)
        trial.is_done(ran, b"")
        trial.is_written(ran, name, written)
    name = trial.output(b"ssl0l\n")
    ran = trial.run("run", "--way", "full", "1", "15", "@" + name, "-o", name)
    trial.is_done(ran, b"fences 2\n")
    trial.is_written(ran, name, b"s0sl0l\n")


def plain_name(trial):
    """A name without a folder, and one that is as long as names can be."""
    os.mkdir(trial.path("plain"))
    ran = trial.run(*TSO_OUT, "-o", "model", cwd=trial.path("plain"))
    trial.is_done(ran, b"")
    trial.is_written(ran, "plain/model", trial.model("builtin", "1"))
    name = "out/long/" + "n" * 255
    os.makedirs(os.path.dirname(trial.path(name)))
    ran = trial.run(*TSO_OUT, "-o", name)
    trial.is_done(ran, b"")
    trial.is_written(ran, name, trial.model("builtin", "1"))


def long_inputs(trial):
    """Files may be of any length: what is over its limit is refused with 1, also where it comes from a pipe."""
    for words in (["model"], ["image"], ["draw"], ["undraw"], ["list"], ["run", "--way", "full", "1", "15"]):
        ran = trial.run(*words, "-", data=b"l" * 3_000_000)
        trial.check(ran, ran.status == 1 and ran.out == b"" and ran.err.endswith(b"(refused 1 at 0)\n"), "must be refused 1 at 0")


# ---- the stack

SMALL = 256 * 1024  # less than shim.h says that generate, list and draw want


def stack_limited(hard):
    return lambda: resource.setrlimit(resource.RLIMIT_STACK, (SMALL, hard))


def stacks(trial):
    """A small limit is raised, where that may be; else the calls that want more say so, and the others are made.

    A limit would hit an emulator or valgrind first, so it is set only where the command runs by itself."""
    if len(trial.program) != 1:
        return
    hard = resource.getrlimit(resource.RLIMIT_STACK)[1]
    files = [model_file(trial, "a4096"), model_file(trial, "full")]
    image, data = image_of(trial, "full", *files), trial.read(files[0]) + trial.read(files[1]) + b"way full\nrun l\n"
    large = [
        (["generate", "--way", "full", *files], b"", image), (["generate", "-"], data, image),
        (["list", "-"], data, trial.model("list", data=data)), (["draw", "-"], image, trial.model("draw", data=image)),
    ]
    line = f"shim: the stack: cannot be made as large as the call wants: {os.strerror(errno.EINVAL)}; see ulimit -s\n".encode()
    for words, given, out in large:
        trial.is_done(trial.run(*words, data=given, preexec_fn=stack_limited(hard)), out)
        ran = trial.run(*words, data=given, preexec_fn=stack_limited(SMALL))
        trial.check(ran, ran.status == 2 and ran.out == b"" and ran.err == line, f"must end with status 2 and {line!r}")
    for words in (["--version"], ["--help"], ["run", "--way", "full", "1", "15", "ssl0l"], ["compare", "1", "2"], ["builtin", "1"]):
        ran = trial.run(*words, preexec_fn=stack_limited(SMALL))
        trial.is_done(ran, trial.run(*words).out)


def tried(trial):
    for part in (
        unreadable, missing, unreadable_input, forgotten_prefix, unwritable, folders_as_outputs, protected, empty_names, piped,
        full_standard_output, limited_standard_output, numbers_unwritten, closed_standard_output, half_written, modes, set_id_bits, links,
        dangling_links, over_its_input, plain_name, long_inputs, stacks,
    ):
        part(trial)
