#!/usr/bin/env bash
# Kill the program at random moments of imports into one store, and see what the store holds.
# An import is a process, which is ended by SIGKILL after a random time, or ends before that.
# After each a copy of the store's two files is read by sqlite3's library: `PRAGMA integrity_check`
# is ok, and the records are those from before, and behind them the text that was sent, or nothing.
# A text that was answered as accepted is there, under the number of the answer.
# Prints how many were killed, accepted, and kept with no answer; ends with status 1 where one of
# this does not hold, or where none was killed or none was accepted.
# MINT names another program to run, from the top of the repository; IMPORTS is how many, 200 else;
# SEED is where the random times begin.
cd "$(dirname "$0")/.." || exit 1
mint=${MINT:-./mint}
"$mint" :memory: - 1,1 export >/dev/null || exit 1

exec python3 - "$mint" "${IMPORTS:-200}" "${SEED:-1}" <<'PYTHON'
import os, random, re, shutil, signal, sqlite3, statistics, subprocess, sys, tempfile, time

mint, imports, seed = sys.argv[1], int(sys.argv[2]), int(sys.argv[3])
chance = random.Random(seed)


def text_of(name):
    """An import text that holds, and that no other name has."""
    return f"ooa 2 2 1 1 2 {name}\n10\n".encode()


def start(store):
    return subprocess.Popen(
        [mint, store, "-", "16,32", "import"],
        stdin=subprocess.PIPE,
        stdout=subprocess.PIPE,
        start_new_session=True,
    )


def import_killed(store, name, after):
    """What an import answered that is killed after so many seconds, and its status."""
    process = start(store)
    try:
        return process.communicate(text_of(name), timeout=after)[0], process.returncode
    except subprocess.TimeoutExpired:
        os.killpg(process.pid, signal.SIGKILL)
        return process.communicate()[0], process.returncode


def seconds_of_imports(folder):
    """The median time of an import that is left to end."""
    times = []
    for number in range(1, 8):
        begin = time.perf_counter()
        answer, status = import_killed(os.path.join(folder, "timed.db"), f"n{number}", None)
        times.append(time.perf_counter() - begin)
        if status != 0 or accepted_number(answer, f"n{number}") != number:
            sys.exit(f"an import that was not killed: status {status}, {answer}")
    return statistics.median(times)


def accepted_number(answer, name):
    """The number of the import in an answer that accepts it, or None."""
    line = re.fullmatch(rb"accepted ([0-9]+) (\S+): raised [0-9]+\n", answer)
    return int(line[1]) if line and line[2] == name.encode() else None


def records_of(store, folder):
    """The records of a copy of the store's files, as texts by their numbers, from 1."""
    copy = os.path.join(folder, "copy.db")
    for end in ("", "-wal", "-shm"):
        if os.path.exists(copy + end):
            os.remove(copy + end)
    for end in ("", "-wal"):
        if os.path.exists(store + end):
            shutil.copyfile(store + end, copy + end)
    if not os.path.exists(copy):
        return []
    connection = sqlite3.connect(copy)
    try:
        sound = connection.execute("PRAGMA integrity_check").fetchall()
        if sound != [("ok",)]:
            raise ValueError(f"integrity_check: {sound}")
        tables = connection.execute("SELECT name FROM sqlite_schema").fetchall()
        if ("imports",) not in tables:
            return []
        rows = connection.execute("SELECT number, text FROM imports ORDER BY number").fetchall()
    finally:
        connection.close()
    if [number for number, _ in rows] != list(range(1, len(rows) + 1)):
        raise ValueError(f"numbers {[number for number, _ in rows]}")
    return [bytes(text) for _, text in rows]


def wrong(before, after, name, answer, status):
    """What is wrong with the records after an import, or None."""
    number = accepted_number(answer, name)
    longer = before + [text_of(name)]
    if after != before and after != longer:
        return f"{len(before)} records before, {len(after)} after, and no front of one another"
    if number is not None and (after != longer or number != len(longer)):
        return f"accepted as {number}, and there are {len(after)} records"
    if status not in (0, -signal.SIGKILL):
        return f"status {status}, {answer}"
    if status == 0 and number is None:
        return f"status 0, {answer}"
    return None


def moment(usual):
    """A random time of an import that usually takes so many seconds: half of them are near its end."""
    return usual * chance.choice([chance.uniform(0, 1.2), chance.uniform(0.85, 1.15)])


def main(folder):
    usual = seconds_of_imports(folder)
    store = os.path.join(folder, "store.db")
    records, killed, accepted, kept = [], 0, 0, 0
    for number in range(1, imports + 1):
        name = f"n{number}"
        answer, status = import_killed(store, name, moment(usual))
        try:
            after = records_of(store, folder)
        except (ValueError, sqlite3.Error) as error:
            return f"{name}: {error}"
        found = wrong(records, after, name, answer, status)
        if found:
            return f"{name}: {found}"
        is_accepted = accepted_number(answer, name) is not None
        killed += status != 0
        accepted += is_accepted
        kept += len(after) > len(records) and not is_accepted
        records = after
    answer, status = import_killed(store, "last", None)
    found = wrong(records, records_of(store, folder), "last", answer, status)
    if found:
        return f"the last one, not killed: {found}"
    print(f"{imports} imports, seed {seed}: {killed} killed, {accepted} accepted, {kept} kept with no answer")
    if killed == 0 or accepted == 0:
        return "none was killed, or none was accepted"
    return None


with tempfile.TemporaryDirectory() as folder:
    sys.exit(main(folder))
PYTHON
