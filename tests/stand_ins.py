"""Stand-ins for rt and cargo: they log how they are called and where, read what they are given to read, and write programs that do what a file
of the check says. A copy of the commands, in a folder with a space and a comma in its name, finds them in front of PATH."""
import os
import shutil
import subprocess

from checking import ROOT

COPIED = ("fit", "convert", "catalogue", "show", "library", "scripts", "c")
CAN = "CAN 2 1\nUSED 3 4 5\nE 0 0000000000000001\nE 1 00000000000000ff\nL 0 3 1\n"
# A rule file with the text "x", one row, no rule.
RULES = b"x\1\0\0\0\1\0\1\0\0FIT"

STAND_IN_RT = """#!/bin/sh
[ ! -e "$T/deaf" ] || trap "" INT
echo "rt $* in $(pwd)" >>"$T/calls"
cat >/dev/null
echo "rt: on standard output"
echo "rt: on standard error" >&2 || exit 1
sleep 0.02
while [ -e "$T/hold" ]; do sleep 0.02; done
[ ! -e "$T/rt fails" ] || exit "$(cat "$T/rt fails")"
mkdir -p out
case $1 in
  run) cp "$T/program" "out/${PWD##*/}" ;;
  lib) cp "$T/lib.a" "out/lib${PWD##*/}.a" ;;
esac
"""
STAND_IN_CARGO = """#!/bin/sh
echo "cargo $* in $(pwd)" >>"$T/calls"
cat >/dev/null
while [ -e "$T/hold" ]; do sleep 0.02; done
[ ! -e "$T/cargo fails" ] || exit 101
while [ "$#" -gt 0 ]; do
  case $1 in
    --bin) program=$2 ;;
    --target-dir) folder=$2 ;;
  esac
  shift
done
mkdir -p "$folder/release" && cp "$T/program" "$folder/release/$program"
"""
# Each program reads the check's file of its own name.
PROGRAM = """#!/bin/bash
. "$T/${0##*/}"
"""


class Copy:
    """The copy, and the stand-ins in front of PATH."""

    def __init__(self, room):
        self.room = room
        self.root = room.folder / "a copy, with spaces"
        self.root.mkdir()
        for name in COPIED:
            (shutil.copytree if (ROOT / name).is_dir() else shutil.copy2)(ROOT / name, self.root / name)
        room.write("a copy, with spaces/crates.txt", "fit:\nconvert:\n")
        for crate in ("fit/src/main.rt", "convert/src/main.rt", "gumbyra/src/lib.rt", "gumbyra_more/src/lib.rt"):
            room.write(f"a copy, with spaces/crates/{crate}", "fn main() {}\n")
        for name in ("Cargo.toml", "Cargo.lock", "engine/src/lib.rs", "prose/src/lib.rs"):
            room.write(f"a copy, with spaces/rust/{name}", "")
        self.program("bin/rt", STAND_IN_RT)
        self.program("bin/cargo", STAND_IN_CARGO)
        self.program("program", PROGRAM)
        self.archive()
        room.write("file", "a file\n")
        room.variables.update(R=str(self.root), F=str(room.folder / "file"), PATH=f"{room.folder}/bin:{os.environ['PATH']}")
        self.answers(fit=CAN, convert=RULES)

    def program(self, name, content):
        self.room.write(name, content).chmod(0o755)

    def archive(self):
        """An archive to link, in place of the proved ones."""
        self.room.write("empty.c", "static const char stand_in[] __attribute__((used)) = \"\";\n")
        commands = (["cc", "-fPIC", "-c", "empty.c", "-o", "empty.o"], ["ar", "rc", "lib.a", "empty.o"])
        for command in commands:
            subprocess.run(command, cwd=self.room.folder, check=True)

    def answers(self, **contents):
        """Lets the programs write these."""
        for name, content in contents.items():
            self.room.write(f"{name}.answer", content)
            self.room.write(name, f'cat >/dev/null; cat "$T/{name}.answer"\n')

    def calls(self):
        """How the stand-ins were called since the last look, and where in the copy."""
        log = self.room.folder / "calls"
        lines = log.read_text().splitlines() if log.exists() else []
        log.write_text("")
        return [line.replace(f" in {self.root}/", " in ") for line in lines]

    def clean(self):
        """Nothing is built."""
        for folder in (self.root / "target", self.root / "rust" / "target", *self.root.glob("crates/*/out")):
            shutil.rmtree(folder, ignore_errors=True)
        self.calls()

    def run(self, name, line, status, out, err, calls, **more):
        """One check of a run, and one of the calls that it makes."""
        self.room.run(name, line, status, out, err, **more)
        self.room.same(f"{name}: the calls", self.calls(), calls)
