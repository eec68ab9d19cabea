#!/usr/bin/env bash
# Time mint's answer to `value net 2 10 4` at bounds 16,32 and 20,48, for which it computes the whole
# table, beside a plain C program that computes the same greatest values, and compare their answers and
# the values of all cells, as mint exports them.
# Prints for each bounds the milliseconds (median of 5 runs in turn, the start of the process included)
# and, where /usr/bin/time is there, the kilobytes of memory of both, the number of conclusions that the
# plain one draws, and the ratio of the times.
# Then it times 100 imports of examples/ at 16,32, applied one after the other: five claims of each text
# that holds, each of more strength than the one before, of which the last 100 are taken. Mint has them
# as records of a store, which sqlite3's library wrote, opens it, which checks them too, and answers the
# question; its time is what that takes longer than over an empty store. The same claims stand under
# other names behind them in another store, where they raise no value: what is still longer there is
# told beside it. The plain program applies what the texts claim, and tells its time for that itself.
# Prints the milliseconds of the processor (least of 15 runs in turn), the kilobytes of both, and the
# ratio of the times.
# Ends with status 1 if the answers or the values of the cells differ.
# MINT names another program to run, from the top of the repository; CC a compiler.
cd "$(dirname "$0")/.." || exit 1
mint=${MINT:-./mint}

for compiler in ${CC:-cc gcc clang} ''; do
    command -v "$compiler" >/dev/null 2>&1 && break
done
if [ -z "$compiler" ]; then
    echo "no C compiler here: nothing compared"
    exit 0
fi
work=$(mktemp -d) || exit 1
trap 'rm -rf "$work"' EXIT
"$compiler" -O2 -o "$work/plain" bench/plain_table.c || exit 1
"$mint" :memory: - 16,32 value net 2 10 4 >/dev/null || exit 1

python3 - "$mint" "$work/plain" <<'PYTHON'
import os, resource, sqlite3, subprocess, sys, tempfile, time

def run(words, text=""):
    """What the program prints, its milliseconds, its errors."""
    start = time.perf_counter()
    ended = subprocess.run(words, input=text, capture_output=True, text=True)
    return ended.stdout, (time.perf_counter() - start) * 1000, ended.stderr

def run_counted(words):
    """The same with the milliseconds of the processor."""
    used = lambda: sum(resource.getrusage(resource.RUSAGE_CHILDREN)[:2]) * 1000
    before = used()
    answer, _, errors = run(words)
    return answer, used() - before, errors

def size(words):
    """The greatest size of the program in kilobytes: that of a process that no larger one starts."""
    if not os.access("/usr/bin/time", os.X_OK):
        return "?"
    timed = ["/usr/bin/time", "-f", "%M"] + words
    ended = subprocess.run(timed, stdin=subprocess.DEVNULL, capture_output=True, text=True)
    return ended.stderr.split()[-1]

mint, plain = sys.argv[1:]
question = ["net", "2", "10", "4"]
for m, s in ("16", "32"), ("20", "48"):
    commands = {
        "mint": [mint, ":memory:", "-", f"{m},{s}", "value"] + question,
        "plain": [plain, m, s] + question[1:],
    }
    runs = {name: [] for name in commands}
    for _ in range(5):
        for name, words in commands.items():
            runs[name].append(run(words))
    answers = {name: found[0][0] for name, found in runs.items()}
    if answers["mint"] != answers["plain"]:
        print(f"{m},{s}: the answers differ: mint {answers['mint']!r}, plain {answers['plain']!r}")
        sys.exit(1)
    exports = [run([mint, ":memory:", "-", f"{m},{s}", "export"])[0], run([plain, m, s])[0]]
    if exports[0] != exports[1]:
        print(f"{m},{s}: the values of the cells differ")
        sys.exit(1)
    times = {name: sorted(run[1] for run in found)[2] for name, found in runs.items()}
    sizes = {name: size(words) for name, words in commands.items()}
    conclusions = int(runs["plain"][0][2].split()[0])
    print(
        f"table {m},{s}: mint {times['mint']:.1f} ms and {sizes['mint']} kB,"
        f" plain {times['plain']:.1f} ms and {sizes['plain']} kB for {conclusions} conclusions,"
        f" ratio {times['mint'] / times['plain']:.2f}"
    )


def holding():
    """The words of the headers and the rows of the texts of examples/ that hold."""
    with open("examples/expected.txt") as file:
        lines = [line.split("\t") for line in file]
    for name, status, _ in lines:
        if status == "0":
            with open(f"examples/{name}") as file:
                header, *rows = file.read().splitlines()
            yield header.split(), rows


def weaker(words, rows, less, mark):
    """The text with a strength that is so much less, and what it claims as the plain program's line."""
    kind, q, m, s, *numbers, name = words
    if kind == "ooa":
        depth, k = int(numbers[0]), max(0, int(numbers[1]) - less)
        claimed = [depth, k]
    else:
        depth, k = int(m), max(0, int(m) - int(numbers[0]) - less)
        claimed = [int(m) - k]
    header = " ".join([kind, q, m, s, *map(str, claimed), f"{name}-{mark}-{less}"])
    cell = "seq" if kind == "seq" else "ooa"
    return "\n".join([header, *rows, ""]), f"{cell} {q} {m} {s} {depth} {k}\n"


def pairs(mark):
    """100 texts, whose names have the mark, with the plain program's lines."""
    examples = list(holding())
    found = [weaker(words, rows, less, mark) for less in (4, 3, 2, 1, 0) for words, rows in examples]
    return found[-100:]


def make_store(path, texts):
    """Makes a store with these records."""
    connection = sqlite3.connect(path)
    connection.execute(
        "CREATE TABLE imports (number INTEGER PRIMARY KEY, text BLOB NOT NULL) STRICT"
    )
    records = [(number, text.encode()) for number, text in enumerate(texts, 1)]
    connection.executemany("INSERT INTO imports (number, text) VALUES (?, ?)", records)
    connection.commit()
    connection.close()


def measure_imports(folder):
    first, again = pairs("less"), pairs("again")
    texts = [text for text, _ in first]
    empty, full, twice, lines = (os.path.join(folder, name) for name in ("empty", "full", "twice", "lines"))
    make_store(empty, [])
    make_store(full, texts)
    make_store(twice, texts + [text for text, _ in again])
    with open(lines, "w") as file:
        file.writelines(line for _, line in first)
    value = ["-", "16,32", "value"] + question
    commands = {
        "empty": [mint, empty] + value,
        "full": [mint, full] + value,
        "twice": [mint, twice] + value,
        "plain": [plain, "16", "32"] + question[1:] + [lines],
    }
    runs = {name: [] for name in commands}
    for _ in range(15):
        for name, words in commands.items():
            runs[name].append(run_counted(words))
    exports = [run([mint, full, "-", "16,32", "export"])[0], run([plain, "16", "32", lines])[0]]
    if runs["full"][0][0] != runs["plain"][0][0]:
        sys.exit(f"imports: the answers differ: {runs['full'][0]}, {runs['plain'][0]}")
    if exports[0] != exports[1]:
        sys.exit("imports: the values of the cells differ")
    times = {name: min(run[1] for run in found) for name, found in runs.items()}
    of_mint, nothing = times["full"] - times["empty"], times["twice"] - times["full"]
    of_plain = min(int(run[2].split()[1]) for run in runs["plain"]) / 1e6
    print(
        f"{len(texts)} imports 16,32: mint {of_mint:.1f} ms and {size(commands['full'])} kB, where they raise"
        f" nothing {nothing:.1f} ms, plain {of_plain:.2f} ms and {size(commands['plain'])} kB,"
        f" ratio {of_mint / of_plain:.2f}"
    )


with tempfile.TemporaryDirectory() as folder:
    measure_imports(folder)
PYTHON
