#!/bin/sh
# Prints how long the worst inputs take and how much memory is held at most, beside what each may
# take: modules that keep all limits and have the largest networks (compiled with ten rounds and
# with none) or nest deepest (in little stack), one whose units are the longest (run by its
# meaning), small certificates about many live variables, and large ones that are refused (both
# checked), and code files with as much of everything as there may be, and such that are refused.
# Seconds are of a processor. The last line tells how many took more than they may; a compiler that
# is not named is built: worst.sh [--compiler PROGRAM]
set -eu
bench=$(cd "$(dirname "$0")" && pwd)
program=
case "${1-}" in
--compiler) program=$(readlink -f "$2") ;;
"")
    "$bench/../pra" build
    program=$bench/../crates/pra/out/pra
    ;;
*)
    echo "usage: worst.sh [--compiler PROGRAM]" >&2
    exit 2
    ;;
esac
folder=$(mktemp -d)
trap 'rm -rf "$folder"' EXIT
python3 "$bench/worst_inputs.py" "$folder"
cd "$folder"

# Runs a command and prints what it took: the seconds and megabytes that it may take, what it is
# called, and its words. It is stopped where it takes ten times the one or four times the other.
measured() {
    python3 - "$@" <<'PYTHON'
import os, resource, subprocess, sys

most_seconds, most_megabytes, name, *command = sys.argv[1:]


def confine():
    memory, seconds = 4 * int(most_megabytes) << 20, 10 * int(most_seconds)
    resource.setrlimit(resource.RLIMIT_AS, (memory, memory))
    resource.setrlimit(resource.RLIMIT_CPU, (seconds, seconds))
    resource.setrlimit(resource.RLIMIT_CORE, (0, 0))


with open("told", "wb") as told:
    child = subprocess.Popen(command, stdout=told, stderr=subprocess.STDOUT, preexec_fn=confine)
    _, status, usage = os.wait4(child.pid, 0)
seconds = usage.ru_utime + usage.ru_stime
megabytes = usage.ru_maxrss / 1024
with open("told", encoding="utf-8", errors="replace") as told:
    last = (told.read().splitlines() or [""])[-1]
over = seconds > float(most_seconds) or megabytes > float(most_megabytes)
if os.WIFSIGNALED(status):
    over, last = True, f"killed by signal {os.WTERMSIG(status)}"
print(
    f"{name:32} {os.path.getsize(name.split()[0]):8} bytes {seconds:8.2f} s of {most_seconds}"
    f" {megabytes:7.0f} MB of {most_megabytes}{'  OVER' if over else ''}  {last}",
    flush=True,
)
sys.exit(1 if over else 0)
PYTHON
}

# The seconds and megabytes that a call may take: those that are aimed at, or, where a call does not
# keep to these yet, what it takes, so that it gets no worse.
limits() {
    case "$1" in
    backwards.cert) echo 10 1024 ;; # it holds, and may take its network
    large_caps.cert | refused_last.code) echo 4 300 ;;
    short_65536.code) echo 12 300 ;;
    copies_27.ob) echo 6 300 ;;
    remainders_28.ob) echo 16 300 ;;
    *) echo 2 300 ;;
    esac
}

over=0
for text in *.code; do
    measured $(limits "$text") "$text compile, 0 rounds" \
        "$program" compile --from code "$text" --rounds 0 || over=$((over + 1))
    case "$text" in
    refused_*) ;;
    *)
        measured 60 1024 "$text compile, 10 rounds" "$program" compile --from code "$text" ||
            over=$((over + 1))
        ;;
    esac
done
for text in *.cert; do
    measured $(limits "$text") "$text check" "$program" check "$text" || over=$((over + 1))
done
for text in *.ob; do
    measured $(limits "$text") "$text compile, 0 rounds" "$program" compile "$text" --rounds 0 ||
        over=$((over + 1))
done
for text in deep_*.ob; do
    for mode in compile run interp; do
        measured 2 300 "$text $mode, 640 KiB of stack" \
            sh -c 'ulimit -s 640 && exec "$@"' sh "$program" $mode "$text" </dev/null ||
            over=$((over + 1))
    done
done
measured 5 300 "long_turns.ob interp, 10000 units" "$program" interp long_turns.ob --steps 10000 ||
    over=$((over + 1))
for text in *.ob; do
    # (ten rounds of these remainders take minutes, and one takes most of what ten may)
    [ "$text" = remainders_28.ob ] && rounds=1 || rounds=10
    measured 60 1024 "$text compile, $rounds rounds" "$program" compile "$text" --rounds $rounds ||
        over=$((over + 1))
done
echo "aimed at: 2 s and 300 MB without rounds or where FILE is refused, 60 s and 1024 MB with ten"
echo "$over calls took more than they may"
