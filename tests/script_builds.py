"""Checks of building, in a copy of the commands with stand-ins for rt and cargo (stand_ins.py)."""
import os
import shutil
import signal
import time

from checking import ROOT, Last
from script_runs import usage, version
from stand_ins import CAN, RULES, Copy

PROVING = "{}: proving, 5 to 15 minutes, once (less if it was done before and little has changed since)\n"
SAID = "rt: on standard output\nrt: on standard error\n"
# Under `rt run` what comes on standard output is the program's, which is not shown.
RUN = "rt: on standard error\n"
CANNOT = "CANNOT\nUSED 1 2 3\n"


def run_of(crate):
    """How a program is built."""
    return f"rt run in crates/{crate}"


def check_builds(room):
    copy = Copy(room)
    for part in (check_once, check_old, check_failing, check_missing, check_answers, check_two, check_two_in_rust, check_interrupted, check_deaf, check_library,
                 check_rust):
        copy.clean()
        part(room, copy)


def check_once(room, copy):
    """The first run builds, the second does not; usage and mistakes build nothing."""
    for name, answer in (("fit", CAN), ("convert", RULES)):
        room.variables["C"] = name
        copy.run(f"{name}: --help builds nothing", '"$R/$C" --help', 0, usage(name), "", [])
        copy.run(f"{name}: --help behind a file", '"$R/$C" "$F" --help', 0, usage(name), "", [])
        copy.run(f"{name}: --version builds nothing", '"$R/$C" --version', 0, version(), "", [])
        copy.run(f"{name}: a wrong call builds nothing", '"$R/$C"', 2, "", None, [])
        copy.run(f"{name}: a missing file builds nothing", '"$R/$C" "$T/none"', 2, "", None, [])
        copy.run(f"{name}: first run", '"$R/$C" "$F"', 0, answer, PROVING.format(name) + RUN, [run_of(name)])
        copy.run(f"{name}: second run", '"$R/$C" "$F"', 0, answer, "", [])
        copy.clean()
        copy.run(f"{name}: builds with standard error closed", '"$R/$C" "$F" 2>&-', 0, answer, "", [run_of(name)])
        copy.clean()
        copy.run(f"{name}: builds with standard output closed", '"$R/$C" "$F" >&-', 2, "", None, [run_of(name)])
        copy.clean()
        copy.run(f"{name}: builds with standard input closed", '"$R/$C" "$F" <&-', 0, answer, None, [run_of(name)])
        copy.clean()
        copy.run(f"{name}: rt reads nothing", 'echo rest | { "$R/$C" "$F" >/dev/null; cat; }', 0, "rest\n", None, [run_of(name)])
        copy.clean()
        relative = 'cd "$T" && TMPDIR=temporary "$R/$C" file'
        copy.run(f"{name}: builds with a relative TMPDIR", relative, 0, answer, None, [run_of(name)])
        copy.clean()


def check_old(room, copy):
    """A program that is older than its sources is built anew."""
    room.variables["C"] = "fit"
    copy.run("fit: built", '"$R/fit" "$F"', 0, CAN, None, [run_of("fit")])
    crates = copy.root / "crates"
    source = crates / "fit" / "src" / "main.rt"
    for name, change in (
        ("a source is touched", lambda: os.utime(source)),
        ("a source is added", lambda: (crates / "fit" / "src" / "more.rt").write_text("")),
        ("a source is removed", lambda: (crates / "fit" / "src" / "more.rt").unlink()),
        ("a crate is added", lambda: (crates / "third").mkdir()),
        ("a crate is removed", lambda: (crates / "third").rmdir()),
        ("a source is renamed", lambda: source.rename(source.with_name("lib.rt"))),
        ("a folder of sources is added", lambda: (crates / "fit" / "specs").mkdir()),
        ("a folder of sources is renamed", lambda: (crates / "fit" / "specs").rename(crates / "fit" / "proofs")),
        ("a folder of sources is removed", lambda: (crates / "fit" / "proofs").rmdir()),
        ("a folder out of src is added", lambda: (crates / "fit" / "src" / "out").mkdir()),
        ("crates.txt has changed", lambda: (copy.root / "crates.txt").write_text("fit:\n")),
        ("the program is gone", lambda: (copy.root / "target" / "bin" / "fit").unlink()),
    ):
        change()
        copy.run(f"fit: {name}", '"$R/fit" "$F"', 0, CAN, PROVING.format("fit") + RUN, [run_of("fit")])
        copy.run(f"fit: {name}, then nothing", '"$R/fit" "$F"', 0, CAN, "", [])
    # rt puts the results of a crate into its out/, and `rt ci` takes that away.
    for name, change in (
        ("what is no source has changed", lambda: (copy.root / "scripts" / "x").write_text("")),
        ("rt's result is newer", lambda: os.utime(crates / "fit" / "out" / "fit")),
        ("a crate's out is added", lambda: (crates / "convert" / "out").mkdir()),
        ("all that rt made is gone", lambda: [shutil.rmtree(made) for made in crates.glob("*/out")]),
    ):
        change()
        copy.run(f"fit: {name}", '"$R/fit" "$F"', 0, CAN, "", [])


def check_failing(room, copy):
    """A build that fails gives 2, and is tried again."""
    failure = Last("fit: rt run in crates/fit failed: its last lines say why\n")
    for status in ("1", "2", "127"):
        room.write("rt fails", status)
        copy.run(f"fit: rt ends with {status}", '"$R/fit" "$F"', 2, "", failure, [run_of("fit")])
        copy.run(f"fit: rt ends with {status} again", '"$R/fit" "$F"', 2, "", failure, [run_of("fit")])
    room.write("rt fails", "0")
    copy.run("fit: rt makes no program", '"$R/fit" "$F"', 2, "", failure, [run_of("fit")])
    (room.folder / "rt fails").unlink()
    copy.run("fit: rt works again", '"$R/fit" "$F"', 0, CAN, None, [run_of("fit")])
    os.utime(copy.root / "crates.txt")
    room.write("rt fails", "1")
    copy.run("fit: an old program does not answer for a failed build", '"$R/fit" "$F"', 2, "", failure, [run_of("fit")])
    room.write("a copy, with spaces/crates/fit/out/fit", "an old one")
    room.write("rt fails", "0")
    copy.run("fit: nor does an old result of rt", '"$R/fit" "$F"', 2, "", failure, [run_of("fit")])
    (room.folder / "rt fails").unlink()
    (copy.root / "crates.txt").rename(copy.root / "away")
    for setting in ("", "POSIXLY_CORRECT=1 "):
        copy.run(f"fit: {setting}no crates.txt", f'{setting}"$R/fit" "$F"', 2, "", Last("fit: crates.txt can't be read\n"), [])
    (copy.root / "away").rename(copy.root / "crates.txt")
    shutil.rmtree(copy.root / "target")
    room.write("a copy, with spaces/target", "a file")
    copy.run("fit: target can't be written", '"$R/fit" "$F"', 2, "", Last("fit: target/ can't be written\n"), [])
    (copy.root / "target").unlink()


def check_missing(room, copy):
    """Without a tool the sentence says what to do, before anything is built."""
    tools = "bash env sh realpath mkdir rm head find flock cat cmp wc grep tail od touch mv cp sed sort cc ar ranlib sleep".split()
    toolchain = "the Rattle toolchain, rt, is not installed: README.md, Try it, says where it comes from\n"
    rust = "cargo is not installed: Rust 1.88 or later is needed, for instance from https://rustup.rs\n"
    for lacking, name, sentence in (
        ("rt", "fit", toolchain),
        ("rt", "library", toolchain),
        ("cargo", "catalogue", rust),
        ("cargo", "show", rust),
        ("flock", "convert", "flock is not installed: Debian's package util-linux has it\n"),
        ("cc", "library", "there is no C compiler cc, or no ar: Debian's package gcc has both\n"),
    ):
        folder = room.folder / f"tools without {lacking}"
        folder.mkdir(exist_ok=True)
        aims = {tool: shutil.which(tool) for tool in tools}
        aims.update(rt=str(room.folder / "bin" / "rt"), cargo=str(room.folder / "bin" / "cargo"))
        for tool, aim in aims.items():
            if tool != lacking and not (folder / tool).exists():
                os.symlink(aim, folder / tool)
        word = "" if name == "library" else '"$F"'
        more = {"env": {**room.variables, "PATH": str(folder)}, "executable": shutil.which("bash")}
        copy.run(f"{name}: no {lacking}", f'"$R/{name}" {word}', 2, "", f"{name}: {sentence}", [], **more)


def check_answers(room, copy):
    """Only a whole answer is handed over."""
    for command in ("fit", "convert"):
        copy.run(f"{command}: built", f'"$R/{command}" "$F"', 0, None, None, [run_of(command)])
    cut = f"{{}}: the answer was not written in full: is there room in {room.temporary}?\n"
    halves = [CAN[:length] for length in range(0, len(CAN), 3)] + [CANNOT[:length] for length in (3, 6, 7, 15, 17)]
    garbage = ["REFUSED", "REFUSED 5", "REFUSED \n", "REFUSED x\n", "REFUSED 5\n\n", "REFUSED 5\nREFUSED 5\n", " REFUSED 5\n", "refused 5\n", "CAN x y\n",
               "CAN 08 09\n", "CAN a[$(touch$IFS$T/made)] 0\n\n", "CAN 99999999999999999999 1\n", "CANNOT\nUSED 1 2\n", "CANNOT\nfish\n", CAN + "\n",
               CAN.replace("00ff", "00fx"), CAN.replace("L 0 3 1", "L 0 3"), CAN + "L 0 3 1\n", "CAN\n", b"CANNOT\0\nUSED 1 2 3\n", b"\xff\xfe\n", "\n\n"]
    for answer in halves + garbage:
        copy.answers(fit=answer)
        room.run(f"fit: the answer {answer!r}", '"$R/fit" "$F"', 2, "", cut.format("fit"))
    room.same("fit: no answer is taken for a command", (room.folder / "made").exists(), False)
    for answer in [RULES[:length] for length in range(len(RULES))] + [b"x" + RULES, RULES + b"\n", RULES + RULES, b"REFUSED 5\0\n", CAN]:
        copy.answers(convert=answer)
        room.run(f"convert: the answer {answer!r}", '"$R/convert" "$F"', 2, "", cut.format("convert"))
    for command in ("fit", "convert"):
        for how, status in (("exit 1", 1), ("exit 3", 3), ("kill -KILL $$", 137), ("kill -SEGV $$", 139), ("kill -PIPE $$", 141)):
            room.write(command, f"echo {CANNOT.split()[0]}; {how}\n")
            room.run(f"{command}: the program's {how}", f'"$R/{command}" "$F"', 2, "", Last(f"{command}: the program ended with status {status}\n"))
    copy.answers(fit=CAN, convert=RULES)


def holding(room, copy, name):
    """A first run that is held while it builds."""
    room.write("hold", "")
    process = room.start(f'exec "$R/{name}" "$F" >"$T/first" 2>"$T/first said"')
    log = room.folder / "calls"
    room.wait_for(f"{name}: it builds", lambda: log.exists() and log.read_text())
    return process


def check_two(room, copy):
    """Two at once: the second waits, and builds nothing more than it needs."""
    waits = "{}: another command is building here; waiting for it (5 to 15 minutes, if it began just now)\n"
    for second, answer, calls in (("fit", CAN, [run_of("fit")]), ("convert", RULES, [run_of("fit"), run_of("convert")])):
        copy.clean()
        first = holding(room, copy, "fit")
        other = room.start(f'exec "$R/{second}" "$F"')
        said = room.folder / "stderr"
        room.wait_for(f"fit and {second} at once: the second waits", lambda: said.read_text() == waits.format(second))
        (room.folder / "hold").unlink()
        room.same(f"fit and {second} at once: statuses", (room.ended(first), room.ended(other)), (0, 0))
        room.same(f"fit and {second} at once: the first answer", (room.folder / "first").read_text(), CAN)
        room.check(f"fit and {second} at once: the second answer", "" if (room.folder / "stdout").read_bytes() == answer_bytes(answer) else "another")
        room.same(f"fit and {second} at once: the first says", (room.folder / "first said").read_text(), PROVING.format("fit") + RUN)
        room.same(f"fit and {second} at once: the calls", copy.calls(), calls)
    room.same("two at once: nothing is left", list(room.temporary.iterdir()), [])


def check_two_in_rust(room, copy):
    """./show beside another, while cargo builds; and beside ./catalogue, while the library is proved: each thing is built once."""
    cargo = "cargo build --release --offline --quiet --target-dir {0}/rust/target -p prose --bin {1} in rust"
    show, catalogue = (cargo.format(copy.root, name) for name in ("show", "catalogue"))
    for name in ("show", "catalogue"):
        room.write(name, "echo done\n")
    for second, proved_first, calls in (("show", True, [show]), ("catalogue", False, ARCHIVES + [show, catalogue])):
        copy.clean()
        if proved_first:
            copy.run("two in Rust: the library first", '"$R/library"', 0, "", None, ARCHIVES)
        (room.folder / "calls").unlink(missing_ok=True)
        first = holding(room, copy, "show")
        other = room.start(f'exec "$R/{second}" "$F"')
        room.wait_for(f"show and {second} at once: the second waits", lambda: "waiting" in (room.folder / "stderr").read_text())
        (room.folder / "hold").unlink()
        room.same(f"show and {second} at once: statuses", (room.ended(first), room.ended(other)), (0, 0))
        room.same(f"show and {second} at once: answers", [(room.folder / name).read_text() for name in ("first", "stdout")], ["done\n"] * 2)
        room.same(f"show and {second} at once: the calls", sorted(copy.calls()), sorted(calls))


def answer_bytes(answer):
    return answer if isinstance(answer, bytes) else answer.encode()


def check_interrupted(room, copy):
    """A build that is interrupted is begun again; while what it started still runs, the next waits."""
    for name, number, send in (("SIGINT", signal.SIGINT, os.killpg), ("SIGTERM", signal.SIGTERM, os.killpg), ("SIGTERM alone", signal.SIGTERM, os.kill)):
        copy.clean()
        process = holding(room, copy, "fit")
        time.sleep(0.1)
        send(process.pid, number)
        room.same(f"building, {name}: the status", room.ended(process), -number)
        room.same(f"building, {name}: nothing is left", list(room.temporary.iterdir()), [])
        room.same(f"building, {name}: nothing is printed", (room.folder / "first").read_text(), "")
        if send is os.kill:
            following = room.start('exec "$R/fit" "$F"')
            room.wait_for(f"building, {name}: the next waits", lambda: "waiting" in (room.folder / "stderr").read_text())
            (room.folder / "hold").unlink()
            room.same(f"building, {name}: the next answers", (room.ended(following), (room.folder / "stdout").read_text()), (0, CAN))
            room.same(f"building, {name}: the calls", copy.calls(), [run_of("fit")] * 2)
        else:
            (room.folder / "hold").unlink()
            copy.run(f"building, {name}: the next", '"$R/fit" "$F"', 0, CAN, PROVING.format("fit") + RUN, [run_of("fit")] * 2)


def check_deaf(room, copy):
    """Ctrl-C ends a command also if rt, or another tool, ends as usual."""
    room.write("deaf", "")
    process = holding(room, copy, "fit")
    time.sleep(0.1)
    os.killpg(process.pid, signal.SIGINT)
    (room.folder / "hold").unlink()
    room.same("building, rt ignores SIGINT: the status", room.ended(process), -signal.SIGINT)
    room.same("building, rt ignores SIGINT: nothing is printed", (room.folder / "first").read_text(), "")
    (room.folder / "deaf").unlink()
    copy.run("building, rt ignores SIGINT: the next", '"$R/fit" "$F"', 0, CAN, None, [run_of("fit")] * 2)


ARCHIVES = ["rt lib in crates/gumbyra", "rt lib in crates/gumbyra_more"]
LAID_OUT = ["include/gumbyra.h", "lib/libgumbyra.a", "lib/libgumbyra.so", "lib/pkgconfig/gumbyra.pc"]


def check_library(room, copy):
    """./library, with a linker that works and archives that are stand-ins."""
    laid_out = copy.root / "target" / "library"
    copy.run("library: --help builds nothing", '"$R/library" --help', 0, usage("library"), "", [])
    (room.folder / "there" / "a b,c").mkdir(parents=True)
    for name, word, sentence in (
        ("that is there", '"$T/there"', f"{room.folder}/there is there already"),
        ("that is a file", '"$F"', f"{room.folder}/file is there already"),
        ("without a name", '""', "a folder with an empty name can't be made"),
    ):
        copy.run(f"library: a folder {name}", f'"$R/library" {word}', 2, "", f"library: {sentence}\n", [])
    copy.run("library: two folders", '"$R/library" a b', 2, "", None, [])
    copy.run("library: an option", '"$R/library" -x', 2, "", None, [])
    proving = PROVING.format("library") + SAID * 2
    copy.run("library: the first time", '"$R/library"', 0, "", proving, ARCHIVES)
    room.same("library: what is there", [name for name in LAID_OUT if not (laid_out / name).exists()], [])
    room.same("library: links, which rt ci refuses", [path.name for path in laid_out.rglob("*") if path.is_symlink()], [])
    copy.run("library: the second time", '"$R/library"', 0, "", "", [])
    copy.run("library: a folder", 'cd "$T" && "$R/library" "new folder"', 0, "", "", [])
    room.same("library: what is in the folder", [name for name in LAID_OUT if not (room.folder / "new folder" / name).exists()], [])
    copy.run("library: a folder with a dash", 'cd "$T" && "$R/library" -- -new', 0, "", "", [])
    copy.run("library: a folder in a missing one", '"$R/library" "$T/none/new"', 2, "", Last(f"library: {room.folder}/none/new can't be written\n"), [])
    before = (laid_out / "lib" / "libgumbyra.a").stat().st_mtime_ns
    os.utime(copy.root / "c" / "gumbyra.c")
    copy.run("library: the C file is touched", 'cd "$T/there" && TMPDIR="$T/there/a b,c" "$R/library"', 0, "", "", [])
    room.same("library: nothing is left", [path.name for path in (room.folder / "there").rglob("*")], ["a b,c"])
    room.check("library: it is laid out anew", "" if (laid_out / "lib" / "libgumbyra.a").stat().st_mtime_ns > before else "it is not")
    os.utime(copy.root / "crates.txt")
    copy.run("library: crates.txt is touched", '"$R/library" >&- 2>&-', 0, "", "", ARCHIVES)
    room.write("a copy, with spaces/c/gumbyra.c", "no C")
    copy.run("library: the C file is wrong", '"$R/library"', 2, "", Last(f"library: the library could not be laid out in {laid_out}\n"), [])
    copy.run("library: it stays wrong", '"$R/library"', 2, "", Last(f"library: the library could not be laid out in {laid_out}\n"), [])
    shutil.copy2(ROOT / "c" / "gumbyra.c", copy.root / "c" / "gumbyra.c")
    os.utime(copy.root / "c" / "gumbyra.c")
    copy.run("library: it is right again", '"$R/library"', 0, "", "", [])
    check_library_anew(room, copy)


def check_library_anew(room, copy):
    """What is missing is made anew, and so is what is older than an archive: a source may change while another archive is proved."""
    laid_out = copy.root / "target" / "library"
    for name in LAID_OUT:
        (laid_out / name).unlink()
        copy.run(f"library: {name} is gone", '"$R/library"', 0, "", "", [])
        room.check(f"library: {name} is back", "" if (laid_out / name).exists() else "it is not")
    before = (laid_out / "lib" / "libgumbyra.a").stat().st_mtime_ns
    os.utime(copy.root / "target" / "staticlib" / "libgumbyra.a")
    copy.run("library: an archive is newer", '"$R/library"', 0, "", "", [])
    room.check("library: it has the newer archive", "" if (laid_out / "lib" / "libgumbyra.a").stat().st_mtime_ns > before else "it has not")


def check_rust(room, copy):
    """./catalogue and ./show: the library first, then cargo, then the program with its words and its status."""
    cargo = "cargo build --release --offline --quiet --target-dir {0}/rust/target -p prose --bin {1} in rust"
    for name in ("catalogue", "show"):
        copy.clean()
        room.variables["C"] = name
        build = [cargo.format(copy.root, name)]
        room.write(name, 'printf "<%s>" "$@"; echo; pwd; echo told >&2; exit "${STATUS:-0}"\n')
        wrong = f"{name}: a file is to be named\n{usage(name)}"
        copy.run(f"{name}: --help builds nothing", '"$R/$C" --help', 0, usage(name), "", [])
        copy.run(f"{name}: --help behind a file", '"$R/$C" "$F" --help', 0, usage(name), "", [])
        copy.run(f"{name}: --version builds nothing", '"$R/$C" --version', 0, version(), "", [])
        copy.run(f"{name}: no word builds nothing", '"$R/$C"', 2, "", wrong, [])
        copy.run(f"{name}: --help to /dev/full", '"$R/$C" --help >/dev/full', 2, "", f"{name}: standard output can't be written\n", [])
        copy.run(f"{name}: standard output closed", '"$R/$C" x >&-', 2, "", f"{name}: standard output can't be written\n", [])
        there = f"\n{room.folder}\n"
        said = PROVING.format("library") + SAID * 2 + "told\n"
        copy.run(f"{name}: first run", 'cd "$T" && "$R/$C" x', 0, "<x>" + there, said, ARCHIVES + build)
        for words, seen in (
            ("'a  b' ''", "<a  b><>"),
            ("--fit -- -x", "<--fit><--><-x>"),
            ("-", "<->"),
            ("-- --help", "<--><--help>"),
            ("'*' $'\\n'", "<*><\n>"),
        ):
            copy.run(f"{name}: the words {words}", f'cd "$T" && "$R/$C" {words}', 0, seen + there, "told\n", [])
        for status, wanted in (("0", 0), ("1", 1), ("2", 2), ("3", 2), ("101", 2), ("255", 2)):
            err = "told\n" + (f"{name}: the program ended with status {status}\n" if int(status) > 2 else "")
            copy.run(f"{name}: status {status}", f'STATUS={status} "$R/$C" x', wanted, None, err, [])
            copy.run(f"{name}: status {status}, errexit", f'env SHELLOPTS=errexit STATUS={status} "$R/$C" x', wanted, None, err, [])
        check_rust_program(room, copy, name)
        check_rust_builds(room, copy, name, build)


def check_rust_program(room, copy, name):
    """The program's streams and signals."""
    # As a program in Rust, it takes a closed standard input for an empty one.
    room.write(name, "{ true 3<&0; } 2>/dev/null || exit 0; cat\n")
    copy.run(f"{name}: standard input", 'echo in | "$R/$C" -', 0, "in\n", "", [])
    copy.run(f"{name}: standard input closed", '"$R/$C" - <&-', 2, "", f"{name}: standard input can't be read\n", [])
    copy.run(f"{name}: a file, standard input closed", '"$R/$C" x <&-', 0, "", "", [])
    copy.run(f"{name}: standard error closed", 'echo in | "$R/$C" - 2>&-', 0, "in\n", "", [])
    for how, status in (("KILL", 137), ("SEGV", 139), ("ABRT", 134), ("PIPE", 141)):
        room.write(name, f"kill -{how} $$\n")
        copy.run(f"{name}: the program gets SIG{how}", '"$R/$C" x', 2, "", Last(f"{name}: the program ended with status {status}\n"), [])


def check_rust_builds(room, copy, name, build):
    """It is built anew when its sources or the library change, and a build that fails is tried again; else cargo need not be there."""
    room.write(name, "echo done\n")
    for changed in ("rust/prose/src/lib.rs", "rust/engine/src", "rust/Cargo.lock", "target/library/lib/libgumbyra.a"):
        os.utime(copy.root / changed)
        copy.run(f"{name}: {changed} is newer", '"$R/$C" x', 0, "done\n", "", build)
        copy.run(f"{name}: {changed} is not", '"$R/$C" x', 0, "done\n", "", [])
    os.utime(copy.root / "rust" / "Cargo.toml")
    room.write("cargo fails", "")
    failed = f"{name}: cargo could not build the program; Rust 1.88 or later is needed\n"
    for time_of in ("first", "second"):
        copy.run(f"{name}: cargo fails, the {time_of} time", '"$R/$C" x', 2, "", failed, build)
    (room.folder / "cargo fails").unlink()
    copy.run(f"{name}: cargo fails no more", '"$R/$C" x', 0, "done\n", "", build)
    os.utime(copy.root / "crates.txt")
    room.write("rt fails", "1")
    copy.run(f"{name}: rt fails", '"$R/$C" x', 2, "", Last("library: rt lib in crates/gumbyra failed: its last lines say why\n"), ARCHIVES[:1])
    (room.folder / "rt fails").unlink()
