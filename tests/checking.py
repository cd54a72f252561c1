"""What the checks of the scripts share: a shell line is run in an environment of its own, and its status, its standard output, its standard
error and the temporary folder afterwards are held against what is wanted."""
import os
import pathlib
import shutil
import signal
import subprocess
import tempfile
import time

ROOT = pathlib.Path(__file__).resolve().parent.parent
# A case that takes longer hangs.
LONGEST = 60


class Last(str):
    """A standard error of which only the last line is wanted exactly: a tool speaks before it."""


class Room:
    """A folder for the files of the checks, and in it the folder for temporary files, which each run has to leave empty."""

    def __init__(self, **variables):
        self.folder = pathlib.Path(tempfile.mkdtemp(prefix="gumbyra-scripts-"))
        self.temporary = self.folder / "temporary"
        self.temporary.mkdir()
        inherited = {key: value for key, value in os.environ.items() if key not in ("CDPATH", "BASH_ENV", "POSIXLY_CORRECT", "SHELLOPTS")}
        self.variables = {**inherited, "TMPDIR": str(self.temporary), "R": str(ROOT), "T": str(self.folder), **variables}
        self.passed = 0
        self.failed = 0

    def close(self):
        shutil.rmtree(self.folder)

    def write(self, name, content):
        """A file of the folder, which is made with its parents."""
        path = self.folder / name
        path.parent.mkdir(parents=True, exist_ok=True)
        path.write_bytes(content.encode() if isinstance(content, str) else content)
        return path

    def check(self, name, wrong):
        """Counts one check: `wrong` says what is wrong, and is empty if nothing is."""
        if wrong:
            self.failed += 1
            print(f"{name}: {wrong}", flush=True)
        else:
            self.passed += 1

    def same(self, name, got, wanted):
        self.check(name, "" if got == wanted else f"{got!r} in place of {wanted!r}")

    def start(self, line, **more):
        """The shell that runs the line, at the head of a process group of its own; its streams are files of the folder."""
        streams = {key: open(self.folder / key, "wb+") for key in ("stdout", "stderr")}
        settings = {"cwd": ROOT, "env": self.variables, "stdin": subprocess.DEVNULL, **streams, **more}
        return subprocess.Popen(["bash", "-c", line], start_new_session=True, preexec_fn=take_signals, **settings)

    def ended(self, process):
        """Its status; it is killed if it hangs."""
        try:
            return process.wait(LONGEST)
        except subprocess.TimeoutExpired:
            os.killpg(process.pid, signal.SIGKILL)
            process.wait()
            return "no status: it hangs"

    def run(self, name, line, status, out, err, **more):
        """One check: runs the line and looks at all that it leaves. A wanted text that is None may be anything."""
        process = self.start(line, **more)
        got = self.ended(process)
        wrong = [f"status {got!r} in place of {status}"] if got != status else []
        for stream, wanted in (("stdout", out), ("stderr", err)):
            wrong += difference(stream, (self.folder / stream).read_bytes(), wanted)
        for left in self.temporary.iterdir():
            wrong += [f"left in TMPDIR: {left.name}"]
            shutil.rmtree(left)
        self.check(name, "; ".join(wrong))

    def wait_for(self, name, condition):
        """Waits until the condition holds; that it does is a check."""
        end = time.monotonic() + LONGEST
        while not condition() and time.monotonic() < end:
            time.sleep(0.01)
        self.check(name, "" if condition() else "it does not come about")


def take_signals():
    """A shell that runs the checks in the background, or nohup, lets them ignore signals; a run is not to inherit that."""
    for number in (signal.SIGINT, signal.SIGTERM, signal.SIGHUP):
        signal.signal(number, signal.SIG_DFL)


def difference(stream, got, wanted):
    """What is wrong with a stream."""
    if wanted is None:
        return []
    wanted = wanted if isinstance(wanted, (bytes, Last)) else wanted.encode()
    if isinstance(wanted, Last):
        got = b"".join(got.splitlines(keepends=True)[-wanted.count("\n") :]) if wanted else got
        wanted = wanted.encode()
    return [] if got == wanted else [f"{stream} is {shown(got)} in place of {shown(wanted)}"]


def shown(content):
    return repr(content) if len(content) < 300 else f"{content[:120]!r} .. ({len(content)} bytes)"
