"""Checks of the real ./fit and ./convert of this tree: what they answer, and what they do with every kind of file, name, stream and folder."""
import os
import pathlib
import re
import signal
import stat
import subprocess
import time

from checking import ROOT, Last

SAMPLES = ROOT / "samples"
# Gives a stream (1 or 2) to a pipe whose reader is gone, and runs a command; Python itself ignores SIGPIPE.
GONE = """python3 -c 'import os, signal, sys
signal.signal(signal.SIGPIPE, signal.{1})
reader, writer = os.pipe()
os.close(reader)
os.dup2(writer, {0})
os.execv(sys.argv[1], sys.argv[1:])' """
ROWS = "{}: the text has a list \"Rows:\", and the rule file's rows are others: in a draft its heading is \"Rows of the draft:\"\n"


class Command:
    """A command, a file that it takes, and what it writes for it."""

    def __init__(self, name, good, answer):
        self.name, self.good, self.answer = name, good, (SAMPLES / answer).read_bytes()
        self.usage = usage(name)

    def refusal(self, number):
        """Status, standard output and standard error of a refusal."""
        explanation = explained(self.name, str(number))
        return (1, f"REFUSED {number}\n", explanation) if self.name == "fit" else (1, "", f"REFUSED {number}\n{explanation}")

    def failure(self, sentence):
        return (2, "", f"{self.name}: {sentence}\n")


def explained(name, numbers):
    """What is said beside a refusal, on standard error."""
    number = int(numbers.split()[0])
    row, more = "; ./show tells which row", "; ./show --fit lends more"
    draft = ", or that it is a draft: ./convert makes a rule file of one" if name == "fit" else ""
    helps = {5: row + draft, 11: more, 13: more, 14: more, 15: more}
    helps.update({6: row, 7: row, 8: row, 16: row})
    return f"{name}: refused: docs/USE.md, Refusals, says what the number means and what to do{helps.get(number, '')}\n"


def version():
    """The version of the wrapper, which is that of the header."""
    return re.search('^version = "(.*)"$', (ROOT / "rust/engine/Cargo.toml").read_text(), re.MULTILINE).expand("gumbyra \\1\n")


def usage(name):
    """The usage that stands in the command's file."""
    return (ROOT / name).read_text().split('usage="')[1].split('"\n')[0] + "\n"


COMMANDS = [Command("fit", "pump.fit", "pump.txt"), Command("convert", "hose.draft", "hose.fit")]


def check_runs(room):
    # What is old is built first, so that the checks meet only the programs.
    for command in COMMANDS:
        subprocess.run([str(ROOT / command.name), str(SAMPLES / command.good)], stdout=subprocess.DEVNULL)
    check_samples(room)
    check_texts(room)
    for command in COMMANDS:
        room.variables.update(C=command.name, F=str(SAMPLES / command.good))
        for part in (check_inputs, check_standard_input, check_names, check_places, check_outputs, check_errors, check_temporary, check_words):
            part(room, command)
        check_settings(room, command)
        check_signals(room, command)
    check_full(room)


def check_samples(room):
    """Each sample has the answer that stands beside it."""
    fit, convert = COMMANDS
    for file in sorted(SAMPLES.glob("*.fit")):
        answer = file.with_suffix(".txt").read_text()
        refused = answer.startswith("REFUSED")
        wanted = (1, answer, explained("fit", answer.split(" ", 1)[1])) if refused else (0, answer, "")
        room.run(f"fit {file.name}", f'./fit "samples/{file.name}"', *wanted)
        room.run(f"convert {file.name}", f'./convert "samples/{file.name}"', *refused_or_any(convert, file))
    for draft in sorted(SAMPLES.glob("*.draft")):
        room.run(f"convert {draft.name}", f'./convert "samples/{draft.name}"', 0, draft.with_suffix(".fit").read_bytes(), "")


def refused_or_any(convert, file):
    """What the converter itself writes for the file, as status and streams."""
    written = converted(file.read_bytes())
    if written.startswith(b"REFUSED ") and written.count(b"\n") == 1 and written.endswith(b"\n"):
        return convert.refusal(written.decode().split()[1])
    other_rows = written != file.read_bytes() and b"\nRows:\n" in file.read_bytes()
    return (0, written, ROWS.format(convert.name) if other_rows else "")


def converted(draft):
    return subprocess.run([str(ROOT / "target/bin/convert")], input=draft, stdout=subprocess.PIPE).stdout


def check_texts(room):
    """A rule file may hold a line that looks like a refusal; a refused draft gives no file."""
    draft = (SAMPLES / "hose.draft").read_bytes()
    place = int.from_bytes(draft[-8:-6], "little")
    for text in (b"REFUSED 6\n", b"REFUSED 6\nand more\n", b"REFUSED 6", b"\nREFUSED 6\n", b"\0\xff\r\n", b"REFUSED 13 1024\n" * 20, b""):
        file = text + draft[place:-8] + len(text).to_bytes(2, "little") + draft[-6:]
        room.write("text.draft", file)
        room.run(f"convert: the text {text[:20]!r}", './convert "$T/text.draft"', 0, converted(file), "")
    rows = b"Rows:\r\n0 is a box\r\n"
    headed = rows + draft[place:-8] + len(rows).to_bytes(2, "little") + draft[-6:]
    room.write("rows.draft", headed)
    room.run("convert: a list Rows:", './convert "$T/rows.draft"', 0, converted(headed), ROWS.format("convert"))
    room.run("convert: a list Rows:, standard error full", './convert "$T/rows.draft" 2>/dev/full', 0, converted(headed), "")
    room.write("bad.draft", draft[:-1])
    bad = COMMANDS[1].refusal(2)
    room.run("convert: a refused draft, && stops", './convert "$T/bad.draft" >"$T/x.fit" && ./fit "$T/x.fit"', *bad)
    room.same("convert: a refused draft leaves an empty file", (room.folder / "x.fit").read_bytes(), b"")
    room.run("convert, then fit", './convert samples/hose.draft >"$T/x.fit" && ./fit "$T/x.fit"', 0, (SAMPLES / "hose.txt").read_bytes(), "")
    room.run("convert, piped into fit", "./convert samples/hose.draft | ./fit -", 0, (SAMPLES / "hose.txt").read_bytes(), "")


def check_inputs(room, command):
    """Files that are no rule files, and what can't be read at all."""
    room.write("empty", b"")
    room.write("garbage", bytes(range(256)))
    room.write("long", (SAMPLES / command.good).read_bytes().rjust(4097, b"x"))
    with open(room.folder / "zeros", "wb") as zeros:
        zeros.truncate(10**9)
    os.symlink("loop", room.write("made", b"").with_name("loop"))
    os.mknod(room.folder / "socket", stat.S_IFSOCK | 0o600)
    folder, missing = command.failure(f"{room.folder} is a folder"), command.failure(f"there is no file {room.folder}/none")
    unread = Last(f"{command.name}: {{}} can't be read, or not be copied to {room.temporary}\n")
    for name, word, wanted in (
        ("a folder", '"$T"', folder),
        ("a missing file", '"$T/none"', missing),
        ("a file in a missing folder", '"$T/none/none"', command.failure(f"there is no file {room.folder}/none/none")),
        ("an empty name", '""', command.failure("there is no file ")),
        ("a loop of links", '"$T/loop"', command.failure(f"there is no file {room.folder}/loop")),
        ("a file as a folder", '"$F/x"', command.failure(f"there is no file {SAMPLES}/{command.good}/x")),
        ("an empty file", '"$T/empty"', command.refusal(1)),
        ("/dev/null", "/dev/null", command.refusal(1)),
        ("1 GB of zeros", '"$T/zeros"', command.refusal(1)),
        ("/dev/zero", "/dev/zero", command.refusal(1)),
        ("4,097 bytes", '"$T/long"', command.refusal(1)),
        ("garbage", '"$T/garbage"', command.refusal(2)),
        ("a read error", "/proc/self/mem", (2, "", Last(unread.format("/proc/self/mem")))),
        ("a socket", '"$T/socket"', (2, "", Last(unread.format(f"{room.folder}/socket")))),
    ):
        room.run(f"{command.name}: {name}", f'"$R/$C" {word}', *wanted)
    for name in ("zeros", "loop", "socket"):
        os.unlink(room.folder / name)


def check_standard_input(room, command):
    """`-` and /dev/stdin, from files and pipes; a named file leaves standard input alone."""
    answer = (0, command.answer, "")
    halves = '{ head -c 30 "$F"; sleep 0.2; tail -c +31 "$F"; }'
    unread = (2, "", Last(f"{command.name}: standard input can't be read, or not be copied to {room.temporary}\n"))
    for name, line, wanted in (
        ("- from a file", '"$R/$C" - <"$F"', answer),
        ("- after --", '"$R/$C" -- - <"$F"', answer),
        ("- from a pipe", 'cat "$F" | "$R/$C" -', answer),
        ("- from a slow pipe", halves + ' | "$R/$C" -', answer),
        ("- from an endless pipe", 'cat /dev/zero | "$R/$C" -', command.refusal(1)),
        ("- from nothing", '"$R/$C" - </dev/null', command.refusal(1)),
        ("- from a folder", '"$R/$C" - <"$T"', unread),
        ("- closed", '"$R/$C" - <&-', unread),
        ("/dev/stdin from a file", '"$R/$C" /dev/stdin <"$F"', answer),
        ("/dev/stdin from a pipe", 'cat "$F" | "$R/$C" /dev/stdin', answer),
        ("/dev/stdin from a slow pipe", halves + ' | "$R/$C" /dev/stdin', answer),
        ("/dev/stdin closed", '"$R/$C" /dev/stdin <&-', command.failure("there is no file /dev/stdin")),
        ("/dev/fd/3", '"$R/$C" /dev/fd/3 3<"$F"', answer),
        ("a pipe of the shell's", '"$R/$C" <(cat "$F")', answer),
        ("a named file, standard input closed", '"$R/$C" "$F" <&-', answer),
        ("a named file, standard input left alone", 'echo rest | { "$R/$C" "$F"; cat; }', (0, command.answer + b"rest\n", "")),
    ):
        room.run(f"{command.name}: {name}", line, *wanted)


def check_names(room, command):
    """Names that a shell or a tool could take for something else."""
    content = (SAMPLES / command.good).read_bytes()
    folder = room.folder / "names"
    for name in ("with  two spaces.fit", "new\nline", "new line at the end\n", "-", "--", "-n", "--help", "*", "$(false)", "'\"\\", "Säurepumpe.fit", "a,b"):
        room.write(f"names/{name}", content)
        for form, words in (("absolute", [str(folder / name)]), ("relative", [f"./{name}"]), ("after --", ["--", name])):
            if (form, name) != ("after --", "-"):
                more = {"cwd": folder, "env": {**room.variables, "N": words[-1]}}
                room.run(f"{command.name}: the name {name!r}, {form}", f'"$R/$C" {"-- " if len(words) > 1 else ""}"$N"', 0, command.answer, "", **more)
    bytes_name = os.fsencode(folder) + b"/\xff\xfe"
    pathlib.Path(os.fsdecode(bytes_name)).write_bytes(content)
    room.run(f"{command.name}: a name that is no UTF-8", '"$R/$C" "$T"/names/$\'\\xff\\xfe\'', 0, command.answer, "")


def check_places(room, command):
    """Called from other folders, by links, through PATH and with CDPATH."""
    away = room.folder / "away" / "and further"
    away.mkdir(parents=True, exist_ok=True)
    for path, aim in (("link", ROOT / command.name), ("second", "link"), ("other name", ROOT / command.name), ("tree", ROOT)):
        if not (away / path).is_symlink():
            os.symlink(aim, away / path)
        elif path != "tree":
            (away / path).unlink()
            os.symlink(aim, away / path)
    near = os.path.relpath(SAMPLES / command.good, away)
    environment = {**room.variables, "N": near, "HERE": str(away), "ABOVE": str(ROOT.parent), "NAME": ROOT.name}
    for name, line in (
        ("a relative file from another folder", '"$R/$C" "$N"'),
        ("a symbolic link", './link "$N"'),
        ("a link to a link", './second "$N"'),
        ("a link with another name", '"./other name" "$N"'),
        ("a link to the tree", '"./tree/$C" "$N"'),
        ("a link in PATH", 'PATH=$HERE:$PATH link "$N"'),
        ("PATH", 'PATH=$R:$PATH "$C" "$N"'),
        ("bash", 'bash "$R/$C" "$N"'),
        ("CDPATH", 'cd -- "$ABOVE" && CDPATH=/:.:$ABOVE "$NAME/$C" "$NAME/samples/' + command.good + '"'),
        ("CDPATH, from the tree", 'cd -- "$R" && CDPATH=$ABOVE:$R "./$C" "samples/' + command.good + '"'),
    ):
        room.run(f"{command.name}: {name}", line, 0, command.answer, "", cwd=away, env=environment)


def check_outputs(room, command):
    """A standard output that does not take the answer."""
    lost = (2, "", Last(f"{command.name}: standard output can't be written\n"))
    for name, line in (
        ("/dev/full", '"$R/$C" "$F" >/dev/full'),
        ("closed", '"$R/$C" "$F" >&-'),
        ("standard input and output closed", '"$R/$C" "$F" >&- <&-'),
        ("not for writing", '"$R/$C" "$F" 1</dev/null'),
        ("the reader is gone", GONE.format(1, "SIG_DFL") + '"$R/$C" "$F"'),
        ("the reader is gone, SIGPIPE ignored", GONE.format(1, "SIG_IGN") + '"$R/$C" "$F"'),
        ("usage to /dev/full", '"$R/$C" --help >/dev/full'),
        ("usage, closed", '"$R/$C" --help >&-'),
        ("usage, the reader is gone", GONE.format(1, "SIG_DFL") + '"$R/$C" --help'),
        ("usage, the reader is gone, SIGPIPE ignored", GONE.format(1, "SIG_IGN") + '"$R/$C" --help'),
    ):
        room.run(f"{command.name}: {name}", line, *lost)
    room.run(f"{command.name}: all streams closed", '"$R/$C" "$F" >&- <&- 2>&-', 2, "", "")
    if command.name == "fit":
        room.run("fit: a refusal to /dev/full", '"$R/fit" /dev/null >/dev/full', *lost)
        room.run("fit: a refusal, closed", '"$R/fit" /dev/null >&-', *lost)


def check_errors(room, command):
    """A standard error that takes nothing: an answer is one all the same, a refusal that is told nowhere is a failure."""
    status, out, _ = command.refusal(1)
    told = status if out else 2
    for name, line in (
        ("closed", '"$R/$C" {} 2>&-'),
        ("/dev/full", '"$R/$C" {} 2>/dev/full'),
        ("the reader is gone", GONE.format(2, "SIG_DFL") + '"$R/$C" {}'),
        ("the reader is gone, SIGPIPE ignored", GONE.format(2, "SIG_IGN") + '"$R/$C" {}'),
    ):
        room.run(f"{command.name}: standard error {name}", line.format('"$F"'), 0, command.answer, "")
        room.run(f"{command.name}: a refusal, standard error {name}", line.format("/dev/null"), told, out, "")
        room.run(f"{command.name}: a missing file, standard error {name}", line.format('"$T/none"'), 2, "", "")
        room.run(f"{command.name}: no word, standard error {name}", line.format(""), 2, "", "")


def check_temporary(room, command):
    """Folders for temporary files."""
    answer = (0, command.answer, "")
    missing = Last(f"{command.name}: no temporary folder can be made in {room.folder}/none\n")
    (room.folder / "temporary, too" / "-x").mkdir(parents=True, exist_ok=True)
    for name, line, wanted in (
        ("that is not there", 'TMPDIR=$T/none "$R/$C" "$F"', (2, "", missing)),
        ("that is a file", 'TMPDIR=$F "$R/$C" "$F"', (2, "", None)),
        ("with a space and a comma", 'TMPDIR="$T/temporary, too" "$R/$C" "$F"', answer),
        ("relative", 'cd "$T" && TMPDIR=temporary "$R/$C" "$F"', answer),
        ("relative, with a dash", 'cd "$T/temporary, too" && TMPDIR=-x "$R/$C" "$F"', answer),
        ("with an empty name", 'TMPDIR= "$R/$C" "$F"', answer),
        ("not named", 'unset TMPDIR; "$R/$C" "$F"', answer),
    ):
        room.run(f"{command.name}: a TMPDIR {name}", line, *wanted)
    left = [str(path) for path in (room.folder / "temporary, too").rglob("*") if path.name != "-x"]
    room.same(f"{command.name}: nothing is left in other temporary folders", left, [])


def check_words(room, command):
    """Words, options and the usage."""
    one_file = command.failure("one file is to be named\n" + command.usage[:-1])
    for name, words, wanted in (
        ("no word", "", one_file),
        ("two words", '"$F" "$F"', one_file),
        ("two words after --", '-- "$F" "$F"', one_file),
        ("-- alone", "--", one_file),
        ("an unknown option", '-n "$F"', command.failure("there is no option -n\n" + command.usage[:-1])),
        ("an option behind the file", '"$F" --all', command.failure("there is no option --all\n" + command.usage[:-1])),
        ("--help", "--help", (0, command.usage, "")),
        ("--help and a file", '--help "$F"', (0, command.usage, "")),
        ("a file and --help", '"$F" --help', (0, command.usage, "")),
        ("--", '-- "$F"', (0, command.answer, "")),
    ):
        room.run(f"{command.name}: {name}", f'"$R/$C" {words}', *wanted)


def check_settings(room, command):
    """What the caller's shell and language hand down."""
    for setting in ("SHELLOPTS=errexit", "SHELLOPTS=noglob:noclobber:nounset", "POSIXLY_CORRECT=1", "LC_ALL=C", "LC_ALL=C.UTF-8", "IFS=FE0", "HOME="):
        room.run(f"{command.name}: with {setting}", f'env {setting} "$R/$C" "$F"', 0, command.answer, "")
        room.run(f"{command.name}: a refusal with {setting}", f'env {setting} "$R/$C" /dev/null', *command.refusal(1))
        room.run(f"{command.name}: a missing file with {setting}", f'env {setting} "$R/$C" "$T/none"', 2, "", None)


def check_signals(room, command):
    """A run that is ended by a signal leaves nothing: Ctrl-C reaches all of its processes, `kill` the first only."""
    for name, number, send in (
        ("SIGINT", signal.SIGINT, os.killpg),
        ("SIGTERM", signal.SIGTERM, os.killpg),
        ("SIGHUP", signal.SIGHUP, os.killpg),
        ("SIGTERM to the shell alone", signal.SIGTERM, os.kill),
    ):
        reader, writer = os.pipe()
        process = room.start('exec "$R/$C" -', stdin=reader)
        os.close(reader)
        room.wait_for(f"{command.name}: {name}: it reads", lambda: any(room.temporary.glob("*/input")))
        # A signal that comes while the shell starts a tool may pass the tool by; now it waits for input.
        time.sleep(0.1)
        send(process.pid, number)
        room.same(f"{command.name}: {name}: the status", room.ended(process), -number)
        os.close(writer)
        room.same(f"{command.name}: {name}: nothing is left", list(room.temporary.iterdir()), [])
        room.same(f"{command.name}: {name}: nothing is printed", (room.folder / "stdout").read_bytes(), b"")


def check_full(room):
    """A file system without room, in a name space of its own: it goes with the shell that made it."""
    small = room.folder / "small"
    small.mkdir()
    own = "unshare -m bash -c" if os.geteuid() == 0 else "unshare -rm bash -c"
    mount = 'mount -t tmpfs -o size={} none "$T/small" && head -c 4096 /dev/zero >"$T/small/filler" && '
    room.write("mounts", f"{own} '{mount.format('4k')} true'")
    if room.ended(room.start('bash "$T/mounts"')) != 0:
        print("left out: the checks on a full file system, since none can be mounted here")
        return
    for command in COMMANDS:
        room.variables.update(C=command.name, F=str(SAMPLES / command.good))
        for name, size, line, sentence in (
            ("a file on a full file system", "4k", '"$R/$C" "$F" >"$T/small/x"', "standard output can't be written"),
            ("no room for the input", "4k", 'TMPDIR=$T/small "$R/$C" "$F"', f"{SAMPLES}/{command.good} can't be read, or not be copied to {small}"),
            ("no room for the answer", "8k", 'TMPDIR=$T/small "$R/$C" "$F"', f"the answer was not written in full: is there room in {small}?"),
        ):
            left = ' ; s=$?; rm -f "$T/small/x"; [ "$(ls "$T/small")" = filler ] || echo something is left; exit $s'
            room.write("full", f"{own} '{mount.format(size)} {line}{left}'")
            room.run(f"{command.name}: {name}", 'bash "$T/full"', 2, "", Last(f"{command.name}: {sentence}\n"))
