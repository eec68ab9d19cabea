#!/usr/bin/env bash
# Time each form of a command at bounds 4,8 and 16,32, and say what part of it is the table; then an
# import on a store of 1,000 records, beside one on an empty store and a question over these records,
# and an import of a text that is as long and has nearly as many choices as a text may.
# A command's table is made for it and kept for no other, so `value` is little more than its table:
# its time is what the times of the others are compared with.
# Prints for each command the milliseconds (median of 5 runs in turn, the start of the process
# included) and the part of `value` in them, or that it makes no table. Of the import over records it
# prints the ratio of its time to the sum of the two others; 2 is what it should not pass. Each of its
# runs has a copy of the store, whose records sqlite3's library wrote. Ends with status 1 if a command
# ends with another status than it should.
# MINT names another program to run, from the top of the repository.
cd "$(dirname "$0")/.." || exit 1
mint=${MINT:-./mint}
"$mint" :memory: - 1,1 export >/dev/null || exit 1

exec python3 - "$mint" <<'PYTHON'
import os, shutil, sqlite3, statistics, subprocess, sys, tempfile, time

def run(words, text):
    """The status and the milliseconds of a run."""
    start = time.perf_counter()
    ended = subprocess.run(words, input=text, stdout=subprocess.DEVNULL)
    return ended.returncode, (time.perf_counter() - start) * 1000

mint = sys.argv[1]
with open("examples/niederreiter.txt", "rb") as file:
    claim = file.read()
# words, whether they need a table, and their input
forms = {
    "4,8": [
        ("value net 2 4 7", True, b""),
        ("tree net 2 4 7", True, b""),
        ("matrix net 2 4 7", True, b""),
        ("table 2 4", True, b""),
        ("export", True, b""),
        ("niederreiter 9 4 8", False, b""),
        ("check", False, b"ooa 2 2 1 1 2 one\n10\n"),
    ],
    "16,32": [
        ("value net 2 10 4", True, b""),
        ("tree net 2 10 4", True, b""),
        ("matrix net 2 16 32", True, b""),
        ("table 2 16", True, b""),
        ("export", True, b""),
        ("niederreiter 9 16 32", False, b""),
        ("check", False, claim),
    ],
}
result = 0
for bounds, commands in forms.items():
    times = {words: [] for words, _, _ in commands}
    for _ in range(5):
        for words, _, text in commands:
            status, elapsed = run([mint, ":memory:", "-", bounds] + words.split(), text)
            times[words].append(elapsed)
            if status != 0:
                print(f"{bounds} {words}: status {status}")
                result = 1
    median = {words: sorted(found)[2] for words, found in times.items()}
    table = median[commands[0][0]]
    for words, needs_table, _ in commands:
        part = f"table {min(1, table / median[words]):.0%}" if needs_table else "no table"
        print(f"{bounds} {words}: {median[words]:.1f} ms, {part}")


def small_text(number):
    """An import text that holds, of a name with this number."""
    return f"ooa 2 2 1 1 2 n{number}\n10\n".encode()


def make_store(path, count):
    """Make a store with so many records."""
    connection = sqlite3.connect(path)
    connection.execute(
        "CREATE TABLE imports (number INTEGER PRIMARY KEY, text BLOB NOT NULL) STRICT"
    )
    records = [(number, small_text(number)) for number in range(1, count + 1)]
    connection.executemany("INSERT INTO imports (number, text) VALUES (?, ?)", records)
    connection.commit()
    connection.close()


def median_over(store, bounds, words, text):
    """The median milliseconds of 5 runs, each over a copy of the store."""
    global result
    times = []
    with tempfile.TemporaryDirectory() as folder:
        for run_number in range(5):
            copy = os.path.join(folder, f"{run_number}.db")
            shutil.copyfile(store, copy)
            status, elapsed = run([mint, copy, "-", bounds] + words.split(), text)
            times.append(elapsed)
            if status != 0:
                print(f"{bounds} {words} on a store: status {status}")
                result = 1
    return statistics.median(times)


question = "value net 2 10 4"
made = subprocess.run(
    [sys.executable, "bench/make_text.py", "array", "9"], capture_output=True, check=True
)
largest = made.stdout.ljust(65536)
with tempfile.TemporaryDirectory() as folder:
    empty, full = os.path.join(folder, "empty.db"), os.path.join(folder, "full.db")
    make_store(empty, 0)
    make_store(full, 1000)
    alone = median_over(empty, "16,32", "import", small_text(1001))
    opening = median_over(full, "16,32", question, b"")
    over = median_over(full, "16,32", "import", small_text(1001))
    long = median_over(empty, "20,48", "import", largest)
print(f"16,32 import on an empty store: {alone:.1f} ms")
print(f"16,32 {question} over 1,000 records: {opening:.1f} ms")
print(f"16,32 import over 1,000 records: {over:.1f} ms, to both {over / (alone + opening):.2f}")
print(f"20,48 import of {len(largest)} bytes with 3,838,380 choices: {long:.1f} ms")
sys.exit(result)
PYTHON
