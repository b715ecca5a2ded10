# What the scripts of this folder share. They source it; by itself it does nothing.
# shellcheck shell=bash disable=SC2034
case "${1-}" in -h | --help) sed -n '2,/^[^#]/{/^# shellcheck/d;s/^# \{0,1\}//p}' "$0"; exit ;; esac
unset CDPATH
here="$(cd "$(dirname "${BASH_SOURCE[0]}")/.." && pwd)" || exit 1
work="$(mktemp -d)" || exit 1
trap 'rm -rf "$work"' EXIT

# proved CRATE [PROGRAM]: the path of its proved program, which .ci/run leaves, is then in program; or that of a PROGRAM that is
# to be timed in its place.
proved() {
  program="${2:-$here/crates/$1/out/$1}"
  if [ ! -x "$program" ]; then
    echo "$0: there is no program $program: .ci/run makes it, or rt run in crates/$1" >&2
    exit 1
  fi
  if [ "$program" = "$here/crates/rsvpd_cmd/out/rsvpd_cmd" ] && [ "$(cat "$program.sources" 2>/dev/null)" != "$("$here/tools/sources")" ]; then
    echo "$0: the program $program is not of these sources: .ci/run or tools/prove makes it anew" >&2
    exit 1
  fi
}

# plain FILE: builds a plain Rust program, of a file from the root on, to compare with, where rustc is installed, in PATH or where rustup puts it; its
# path is then in plain.
plain() {
  local rustc
  plain=""
  rustc="$(PATH="$PATH:${CARGO_HOME:-$HOME/.cargo}/bin" command -v rustc)" || return 0
  "$rustc" --edition 2024 -O -o "$work/plain" "$here/$1" || exit 1
  plain="$work/plain"
}

# best RUNS TEXT COMMAND..: the nanoseconds of the best of so many runs, each of which writes its text to the file TEXT.
best() {
  local runs="$1" text="$2" least="" start took
  shift 2
  for ((run = 0; run < runs; run++)); do
    start="$(date +%s%N)"
    "$@" >"$text" || exit 1
    took=$(($(date +%s%N) - start))
    if [ -z "$least" ] || [ "$took" -lt "$least" ]; then least="$took"; fi
  done
  echo "$least"
}

# best_user RUNS TEXT COMMAND..: likewise, the seconds of processor time.
best_user() {
  local runs="$1" text="$2" TIMEFORMAT=%U run
  shift 2
  : >"$work/times"
  for ((run = 0; run < runs; run++)); do
    { time "$@" >"$text" 2>"$work/error"; } 2>>"$work/times" || { cat "$work/error" >&2; exit 1; }
  done
  sort -n "$work/times" | head -n 1
}

# both RUNS OURS THEIRS ARG..: runs the functions OURS and THEIRS in turns, so many times, so that both meet the same machine. The
# best of each, in seconds of processor time, is then in ours and theirs, and their texts in the files text and other of the
# folder work. Where rustc is missing, THEIRS is left out, and theirs is empty.
both() {
  local runs="$1" mine="$2" other="$3" took
  shift 3
  ours="" theirs=""
  for ((turn = 0; turn < runs; turn++)); do
    took="$(best_user 1 "$work/text" "$mine" "$@")" || exit 1
    ours="$(least "$ours" "$took")"
    if [ -n "$plain" ]; then
      took="$(best_user 1 "$work/other" "$other" "$@")" || exit 1
      theirs="$(least "$theirs" "$took")"
    fi
  done
}

# least A B: the lesser of the two; B where A is empty.
least() { awk -v a="$1" -v b="$2" 'BEGIN { print (a == "" || b < a) ? b : a }'; }

# alike: stops where the texts of both are not the same.
alike() {
  [ -z "$plain" ] || cmp -s "$work/text" "$work/other" || { echo "$0: the two do not write the same text" >&2; exit 1; }
}

# tree NODES SESSIONS: a network in which node k hangs on node (k - 1) / 2; node 0 sends in each session, of which one after the
# other has the styles WF, FF and SE, and each other node wants its data.
tree() {
  awk -v nodes="$1" -v sessions="$2" 'BEGIN {
    for (k = 0; k < nodes; k++) print "node n" k
    for (k = 1; k < nodes; k++) {
      ends = ends sprintf("end d%d n%d 10.1.%d.1 70000000 1500\nend u%d n%d 10.1.%d.2 70000000 1500\n", k, int((k - 1) / 2), k, k, k, k)
      links = links sprintf("link d%d u%d\n", k, k)
      for (g = 1; g <= sessions; g++) hops = hops sprintf("hop 239.3.0.%d 10.1.1.1 d%d u%d\n", g, k, k)
    }
    printf "%s%s%s", ends, links, hops
    split("WF FF SE", style, " ")
    for (g = 1; g <= sessions; g++) print "send n0 239.3.0." g "/17/5004 10.1.1.1:5004 1000/1000/inf/64/1500"
    for (k = 1; k < nodes; k++)
      for (g = 1; g <= sessions; g++)
        print "want n" k " 239.3.0." g "/17/5004 " style[1 + (g - 1) % 3] " " (g % 3 == 1 ? "*" : "10.1.1.1:5004") " " 1000 + k "/1000/inf/64/1500"
  }'
}

# replay FILE, own FILE: the run of a script that is timed, by rsvpd and by the plain program. call ARG.., other ARG..: that of
# the program itself, and of the plain one.
replay() { "$program" replay <"$1"; }
own() { "$plain" <"$1"; }
call() { "$program" "$@"; }
other() { "$plain" "$@"; }

# ratio A B: how many times B is in A.
ratio() { awk -v a="$1" -v b="$2" 'BEGIN { if (b > 0) printf "%.2f", a / b; else printf "-" }'; }

# deliveries FILE [BEFORE]: how many datagrams are delivered in the run of a script, behind the lines of BEFORE, told by its trace:
# that of the plain program, which is faster, or of rsvpd where rustc is missing.
deliveries() {
  local run=own before=0
  [ -n "$plain" ] || run=replay
  if [ -n "$2" ]; then before="$(wc -l <"$2")"; fi
  awk -v before="$before" '(before ? NR > before : /^send /) && !on { print "trace on"; on = 1 } { print }' "$1" >"$work/traced"
  "$run" "$work/traced" | grep -c -E '^[a-z][a-z0-9_]* ([A-Z][A-Za-z]*|\?) (taken|dropped|answered)'
}

# seconds RUNS FILE [BEFORE]: the best of so many runs of a script in turns, in seconds of processor time, less that of BEFORE: of
# rsvpd in ours, of the plain program in theirs (empty where rustc is missing). Their texts must be equal.
seconds() {
  both "$1" replay own "$2"
  alike
  if [ -n "$3" ]; then
    local all="$ours" others="$theirs"
    seconds "$1" "$3"
    ours="$(less "$all" "$ours")"
    if [ -n "$plain" ]; then theirs="$(less "$others" "$theirs")"; fi
  fi
}

# less A B: A without B.
less() { awk -v a="$1" -v b="$2" 'BEGIN { printf "%.3f", a - b }'; }

# micro SECONDS TIMES: the microseconds of one.
micro() { awk -v s="$1" -v n="$2" 'BEGIN { printf "%.2f", s * 1000000 / n }'; }

# row RUNS NAME TIMES FILE [BEFORE]: a line of a table: what is done so many times in the script, behind the lines of BEFORE.
row() {
  seconds "$1" "$4" ${5:+"$5"}
  printf '%-34s %8d   rsvpd %7s s %7s us' "$2" "$3" "$ours" "$(micro "$ours" "$3")"
  if [ -n "$plain" ]; then
    printf '   plain %7s s %7s us   ratio %s' "$theirs" "$(micro "$theirs" "$3")" "$(ratio "$ours" "$theirs")"
  fi
  echo
}

# again TIMES LINE..: these lines, so many times.
again() { yes "$(printf '%s\n' "${@:2}")" | head -n $(($1 * ($# - 1))); }
