#!/usr/bin/env bash
# Time views of mt_publish beside a plain C program, in which a reader takes a pointer out of its slot by
# an atomic swap and puts it back by another (`swap`), one in which readers share a reader-writer lock
# (`lock`), and one in which they load a pointer that nobody ever changes (`load`). One viewer alone and
# three side by side; then three beside a publisher that publishes all the time; then one beside a
# publish that waits for a reader, which holds its view until the other's are done.
# Prints for one viewer and for three the millions of views a second of each, and how many times a view
# of the plain program's by swap a view of mint's takes: 3 is what it should not pass. Beside the
# publisher it prints the nanoseconds of a view and of a publish, and the share of views that answered
# None; beside the publish that waits the nanoseconds of a view, and how many times a view of three
# alone that is: no more than 1 but for what differs from run to run. All are medians of 5 runs in turn.
# Ends with status 1 if a program cannot be built or ends otherwise than it should, or if the publish
# did not wait.
# PROGRAM names a program that bench/program.sh made of bench/publish_views.rattle, in place of proving
# and building it here; RUNS is how many runs, 5 else; CC a compiler.
cd "$(dirname "$0")/.." || exit 1

for compiler in ${CC:-cc gcc clang} ''; do
    command -v "$compiler" >/dev/null 2>&1 && break
done
if [ -z "$compiler" ]; then
    echo "no C compiler here: nothing compared"
    exit 0
fi
work=$(mktemp -d) || exit 1
trap 'rm -rf "$work"' EXIT
trap 'exit 130' INT TERM HUP
"$compiler" -O2 -pthread -o "$work/plain" bench/plain_publish.c || exit 1
program=${PROGRAM:-$(bench/program.sh "$work" publish_views mt_publish crossbeam_utils)}
[ -n "$program" ] || exit 1

python3 - "$program" "$work/plain" "${RUNS:-5}" <<'PYTHON'
import statistics, subprocess, sys

program, plain, runs = sys.argv[1], sys.argv[2], int(sys.argv[3])
commands = {
    "mint": [program],
    "swap": [plain, "swap"],
    "lock": [plain, "lock"],
    "load": [plain, "load"],
}
LAPS = {"one", "three", "beside", "publishes", "waiting"}


def laps_of(words):
    """What a run did: for each lap how many times, how many views were not given, the nanoseconds."""
    ended = subprocess.run(words, stdin=subprocess.DEVNULL, stdout=subprocess.PIPE, text=True)
    lines = [line.split() for line in ended.stdout.splitlines()]
    if ended.returncode != 0 or any(len(line) != 4 or line[0] not in LAPS for line in lines):
        sys.exit(f"{' '.join(words)}: status {ended.returncode}, {ended.stdout!r}")
    return {line[0]: [int(word) for word in line[1:]] for line in lines}


laps = {name: [] for name in commands}
for _ in range(runs):
    for name, words in commands.items():
        laps[name].append(laps_of(words))


def median(name, lap, measure):
    return statistics.median(measure(*run[lap]) for run in laps[name])


def nanos(name, lap, threads=1):
    """The nanoseconds of one view, or publish, where so many threads ran side by side."""
    return median(name, lap, lambda done, missed, nanos: threads * nanos / done)


def millions(name, lap):
    """The millions of views a second of all threads."""
    return median(name, lap, lambda done, missed, nanos: (done - missed) * 1000 / nanos)


def missed(name):
    return median(name, "beside", lambda done, missed, nanos: missed / done)


for lap, threads, label in ("one", 1, "1 viewer"), ("three", 3, "3 viewers"):
    rates = ", ".join(f"{name} {millions(name, lap):.1f}" for name in commands)
    ratios = ", ".join(
        f"{name} {nanos('mint', lap, threads) / nanos(name, lap, threads):.2f}"
        for name in ("swap", "lock", "load")
    )
    print(f"{label}: millions of views a second: {rates}; a view of mint's to one by {ratios}")
for name in "mint", "swap", "lock":
    print(
        f"3 viewers beside a publisher, {name}: a view {nanos(name, 'beside', 3):.0f} ns,"
        f" none {missed(name):.4%}, a publish {nanos(name, 'publishes'):.0f} ns"
    )
waiting, alone = nanos("mint", "waiting"), nanos("mint", "three", 3)
print(
    f"a viewer beside a publish that waits: a view {waiting:.1f} ns,"
    f" to one of 3 viewers alone {waiting / alone:.2f}"
)
PYTHON
