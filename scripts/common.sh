# What the commands in the root of the repository share: ./fit, ./convert, ./catalogue, ./show and ./library begin by sourcing it.
#
# A command ends with 0 if it gives what was asked for, 1 with a refusal, 2 if reading, writing or building failed. A Rattle program says no
# more by its status than that it read and wrote; so input and output go through files, and are judged here.
#
# In order: the shell and its streams; messages; the words of a call; input; judging and handing over an output; building; programs in Rust.

# ---- the shell and its streams

# Each step is judged where it stands, so the shell is not to end by itself, whatever options the caller hands down by SHELLOPTS or
# POSIXLY_CORRECT: it would end with a status that says something else.
set +e +o posix
set -uo pipefail

root=${BASH_SOURCE[0]%/scripts/common.sh}
command_name=${0##*/}

# A reader that is gone is a failed write, told by the status of the write, and not the end of this shell.
trap : PIPE

# Ends by the signal, as a shell without traps does; what stands in the trap for EXIT is done before.
end_by() {
  trap - "$1"
  kill -"$1" "$$"
}

# Without this, bash forgets a Ctrl-C that comes while a tool ends as usual, and goes on.
trap 'end_by INT' INT

# A closed standard error would make rt and cargo fail for want of it; what only goes there is lost, so `can_tell` remembers. (In its place
# bash has opened the command's file, $here, and left it open, or it is still closed.)
can_tell=yes
if ! true >&2 || [ /dev/fd/2 -ef "$here" ]; then
  can_tell=no
  exec 2>/dev/null
fi

# rt and cargo are called in other folders.
[[ ${TMPDIR:-/} = /* ]] || TMPDIR=$PWD/$TMPDIR

# ---- messages

say() {
  printf '%s: %s\n' "$command_name" "$*" >&2
}

fail() {
  say "$@"
  exit 2
}

# What a refusal means is said once, in the list of them; a command that helps further is named. A caller may add something to that of 5.
explain_refusal() {
  local number help=''
  read -r _ number _ <"$work/output"
  case $number in
    5) help="; ./show tells which row${1-}" ;;
    6 | 7 | 8 | 16) help='; ./show tells which row' ;;
    11 | 13 | 14 | 15) help='; ./show --fit lends more' ;;
  esac
  say "refused: docs/USE.md, Refusals, says what the number means and what to do$help"
}

# ---- the words of a call

# `--help` prints the usage, `--version` the version; any other option is an error; `--` ends the options, and `-` is a name.
take_words() {
  words=()
  while [ "$#" -gt 0 ]; do
    case $1 in
      --help) print_line "$usage"; exit 0 ;;
      --version) print_version; exit 0 ;;
      --) shift; words+=("$@"); break ;;
      -?*) fail "there is no option $1"$'\n'"$usage" ;;
      *) words+=("$1"); shift ;;
    esac
  done
}

print_line() {
  { printf '%s\n' "$1"; } 2>/dev/null || fail "standard output can't be written"
}

# Its home is the header: 202 is version 0.2.2.
version_of_header() {
  local number
  number=$(sed -n 's/^#define GUMBYRA_VERSION \([0-9]*\).*/\1/p' "$root/c/include/gumbyra.h") && [ -n "$number" ] || return 1
  version=$((number / 10000)).$((number / 100 % 100)).$((number % 100))
}

print_version() {
  version_of_header || fail "c/include/gumbyra.h has no version"
  print_line "gumbyra $version"
}

# The one file that the call names.
take_file() {
  take_words "$@"
  [ "${#words[@]}" -eq 1 ] || fail "one file is to be named"$'\n'"$usage"
  file=${words[0]}
}

# ---- input

# A folder of its own, gone at the end. Its name is known before it is made, and signals wait until mkdir has ended, so that one in between
# leaves nothing. (mkdir takes no folder that is there already.)
make_work() {
  work=${TMPDIR:-/tmp}/gumbyra.$$.$RANDOM$RANDOM
  trap 'rm -rf -- "$work"' EXIT
  trap 'end_by TERM' TERM
  trap 'end_by HUP' HUP
  mkdir -m 700 -- "$work" || { trap - EXIT; fail "no temporary folder can be made in ${TMPDIR:-/tmp}"; }
  trap - TERM HUP
}

# Copies the file, or standard input for `-`, to $work/input. Of a longer one 1 MiB is enough to see that it is no rule file; what `head` reads
# beyond that is lost to whoever shares the input, which is no harm: a rule file ends where its input does.
read_input() {
  if [ "$file" = - ]; then
    head -c 1048576 >"$work/input" || fail "standard input can't be read, or not be copied to ${TMPDIR:-/tmp}"
    return
  fi
  [ -e "$file" ] || fail "there is no file $file"
  [ ! -d "$file" ] || fail "$file is a folder"
  head -c 1048576 -- "$file" >"$work/input" || fail "$file can't be read, or not be copied to ${TMPDIR:-/tmp}"
}

# ---- judging and handing over an output

# Is the file exactly one line `REFUSED ..`? A rule file may hold such a line, too.
is_refusal() {
  local -x LC_ALL=C
  local line=''
  IFS= read -r line <"$1"
  [[ $line =~ ^REFUSED(\ [0-9]+)+$ ]] && printf '%s\n' "$line" | cmp -s - "$1"
}

# Is it a whole verdict: as many lines as its first one tells of, each ended, and no other lines than a verdict has?
is_verdict() {
  local -x LC_ALL=C
  local line='' lines first='^(CANNOT|CAN ([0-9]{1,5}) ([0-9]{1,5}))$'
  local known='CANNOT|CAN [0-9]+ [0-9]+|USED( [0-9]+){3}|E [0-9]+ [0-9a-f]+|L( [0-9]+){3}'
  IFS= read -r line <"$1"
  [[ $line =~ $first ]] || return 1
  lines=$((2 + 10#${BASH_REMATCH[2]:-0} + 10#${BASH_REMATCH[3]:-0}))
  [ "$(wc -l <"$1")" -eq "$lines" ] && [ "$(grep -aEcx "$known" "$1")" -eq "$lines" ]
}

# Is it a whole rule file: a mark at its end, and the length that its trailer (place of the first row, rows, rules, wanted, mark) tells of?
is_rule_file() {
  local trailer
  read -r -a trailer <<<"$(tail -c 8 "$1" | od -An -v -tu1 -w8)"
  [ "${trailer[*]:5}" = '70 73 84' ] &&
    [ $((trailer[0] + 256 * trailer[1] + 4 * trailer[2] + trailer[3] + 8)) -eq "$(wc -c <"$1")" ]
}

# Runs the program on what was read; a whole output is a refusal or passes the test that is named. A program that can't write ends with 1;
# whether that is for want of room is tried with more than the longest answer.
run_program() {
  local status
  "$root/target/bin/$1" <"$work/input" >"$work/output"
  status=$?
  if [ "$status" -eq 0 ]; then
    is_refusal "$work/output" || "$2" "$work/output" && return
  elif [ "$status" -ne 1 ] || head -c 1048576 /dev/zero >"$work/room" 2>/dev/null; then
    fail "the program ended with status $status"
  fi
  fail "the answer was not written in full: is there room in ${TMPDIR:-/tmp}?"
}

# Copies the output.
hand_over() {
  cat -- "$work/output" || fail "$1 can't be written"
}

# ---- building

# The names in each crate's folder, but for out/, where rt has its work: it comes and goes, and the time of the folder with it.
names_in_crates() (
  cd -- "$root" && find crates -mindepth 2 -maxdepth 2 ! -name out | LC_ALL=C sort
)

# Was the result built after the last change of what it is made of (the crates, and the further files that are named)? Of a crate's own folder
# the names count, and not the time.
is_built() {
  local stamp=$1 result=$2 newer
  local out=(-path 'crates/*/out' ! -path 'crates/*/*/out') own=(-type d -path 'crates/*' ! -path 'crates/*/*')
  shift 2
  [ -e "$stamp" ] && [ -e "$result" ] || return 1
  newer=$(cd -- "$root" && find crates crates.txt "$@" \( "${out[@]}" -prune \) -o -newer "$stamp" ! \( "${own[@]}" \) -print -quit) &&
    [ -z "$newer" ] && [ "$(names_in_crates)" = "$(<"$stamp")" ]
}

# Begins what is_built looks at later: the stamp has the time before anything is read, and the names at that time.
begin() {
  mkdir -p -- "$root/target/built" && names_in_crates >|"$1.begun" || fail "target/ can't be written"
}

end() {
  mv -- "$1.begun" "$1" || fail "target/ can't be written"
}

# Holds the lock of this folder while a command builds: two at once would spoil each other's work.
lock() {
  command -v flock >/dev/null || fail "flock is not installed: Debian's package util-linux has it"
  exec 9<"$root/crates.txt" || fail "crates.txt can't be read"
  flock -n 9 && return
  say "another command is building here; waiting for it (5 to 15 minutes, if it began just now)"
  flock 9 || fail "there is no lock to be had on crates.txt"
}

unlock() {
  exec 9<&-
}

# Builds a result of a crate with `rt`, which proves it and all below it, unless that is done: prove CRATE RESULT COMMAND. The command is that
# of rt, lib or run. It leaves the result in the crate's out/, and is called there; here is a copy, since rt takes away what is there.
prove() {
  local crate=$1 result=$2 command=$3 stamp=$root/target/built/$1
  is_built "$stamp" "$result" && return
  command -v rt >/dev/null || fail "the Rattle toolchain, rt, is not installed: README.md, Try it, says where it comes from"
  lock
  if ! is_built "$stamp" "$result"; then
    [ -n "${announced-}" ] || say "proving, 5 to 15 minutes, once (less if it was done before and little has changed since)"
    announced=yes
    begin "$stamp"
    call_rt "$crate" "${result##*/}" "$command" || fail "rt $command in crates/$crate failed: its last lines say why"
    mkdir -p -- "${result%/*}" && cp -- "$root/crates/$crate/out/${result##*/}" "$stamp.new" && mv -- "$stamp.new" "$result" ||
      fail "target/ can't be written"
    end "$stamp"
  fi
  unlock
}

# Has rt make the file in the crate's out/ anew. What it says goes to standard error; `rt run` speaks there by itself, and also runs the
# program, on nothing: what that writes is thrown away.
call_rt() (
  cd -- "$root/crates/$1" && rm -f -- "out/$2" || exit 1
  export TMPDIR=$work
  case $3 in
    run) rt run </dev/null >/dev/null ;;
    *) rt "$3" </dev/null >&2 ;;
  esac && [ -e "out/$2" ]
)

# ---- programs in Rust

need_cargo() {
  command -v cargo >/dev/null || fail "cargo is not installed: Rust 1.88 or later is needed, for instance from https://rustup.rs"
}

is_rust_built() {
  is_built "$root/target/built/$1" "$root/rust/target/release/$1" "$root/target/library" "$root"/rust/{Cargo.toml,Cargo.lock,engine,prose}
}

# Builds a program of rust/ over the library, unless that is done. cargo and rustup go by the settings of the folder they are called in.
build_rust() {
  local program=$1 stamp=$root/target/built/$1
  is_rust_built "$program" && return
  need_cargo
  lock
  if ! is_rust_built "$program"; then
    begin "$stamp"
    (cd -- "$root/rust" && env -u CARGO_BUILD_TARGET cargo build --release --offline --quiet --target-dir "$root/rust/target" \
      -p prose --bin "$program") </dev/null >&2 || fail "cargo could not build the program; Rust 1.88 or later is needed"
    end "$stamp"
  fi
  unlock
}

# Runs a program of rust/ on the words that follow: 0, 1 and 2 are its own, anything else is a failure. A program in Rust takes a closed stream
# for /dev/null, so that is looked for here.
run_rust() {
  local program=$1 status word
  shift
  [ "$#" -gt 0 ] || fail "a file is to be named"$'\n'"$usage"
  for word in "$@"; do
    case $word in
      --) break ;;
      --help) print_line "$usage"; exit 0 ;;
      --version) print_version; exit 0 ;;
    esac
  done
  for word in "$@"; do
    [ "$word" != - ] || { true 3<&0; } 2>/dev/null || fail "standard input can't be read"
  done
  { true 3>&1; } 2>/dev/null || fail "standard output can't be written"
  # What is missing is better told before the library is proved.
  [ -e "$root/rust/target/release/$program" ] || need_cargo
  "$root/library" </dev/null >&2 || exit 2
  build_rust "$program"
  "$root/rust/target/release/$program" "$@"
  status=$?
  [ "$status" -le 2 ] || fail "the program ended with status $status"
  exit "$status"
}
