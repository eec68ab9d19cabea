#!/usr/bin/env bash
# Time mt_http's `read_request` and `response_bytes` beside a plain C program that reads the same requests
# from memory and makes the same responses, and compare their bytes: short GETs as of a measuring client,
# GETs with the fields of a browser, and imports by POST, each request whole at one read as from a client
# that waits for its answer; then all three in turn in pieces of 8,192 bytes, as from one that does not.
# Prints for each stream the requests a second of both (median of 5 runs in turn; the reading of the
# stream is not counted) and the ratio of mint's to the plain program's; ends with status 1 if a program
# cannot be built or the responses differ.
# PROGRAM names a program that bench/program.sh made of bench/http_requests.rattle, in place of proving
# and building it here; REQUESTS is how many requests a stream has, 100,000 else; CC a compiler.
cd "$(dirname "$0")/.." || exit 1

for compiler in ${CC:-cc gcc clang} ''; do
    command -v "$compiler" >/dev/null 2>&1 && break
done
if [ -z "$compiler" ]; then
    echo "no C compiler here: nothing compared"
    exit 0
fi
work=$(mktemp -d) || exit 1
trap 'rm -rf "$work"' EXIT
trap 'exit 130' INT TERM HUP
"$compiler" -O2 -o "$work/plain" bench/plain_http.c || exit 1
program=${PROGRAM:-$(bench/program.sh "$work" http_requests mt_http mt_io)}
[ -n "$program" ] || exit 1

python3 - "$program" "$work/plain" "${REQUESTS:-100000}" <<'PYTHON'
import statistics, subprocess, sys

program, plain, count = sys.argv[1], sys.argv[2], int(sys.argv[3])
commands = {"mint": program, "plain": plain}
with open("examples/golay.txt", "rb") as file:
    claim = file.read()


def request(line, fields, body=b""):
    head = [line] + [f"{name}: {value}" for name, value in fields]
    return "\r\n".join(head).encode() + b"\r\n\r\n" + body


host = ("Host", "127.0.0.1:8080")
short = request("GET /net/2/10/4 HTTP/1.1", [host])
browser = request(
    "GET /sequence/9/16/31?at_least=12 HTTP/1.1",
    [
        host,
        ("User-Agent", "Mozilla/5.0 (X11; Linux x86_64; rv:128.0) Gecko/20100101 Firefox/128.0"),
        ("Accept", "text/html,application/xhtml+xml,application/xml;q=0.9,*/*;q=0.8"),
        ("Accept-Language", "en-US,en;q=0.5"),
        ("Accept-Encoding", "gzip, deflate, br"),
        ("Connection", "keep-alive"),
        ("Upgrade-Insecure-Requests", "1"),
        ("Sec-Fetch-Mode", "navigate"),
    ],
)
post = request(
    "POST /import HTTP/1.1",
    [host, ("User-Agent", "curl/8.5.0"), ("Accept", "*/*"), ("Content-Length", len(claim))],
    claim,
)
# names, requests, how often they come, and the bytes at a read
streams = [
    ("short GETs", [short], count, len(short)),
    ("GETs of a browser", [browser], count, len(browser)),
    ("imports", [post], count, len(post)),
    ("all three in pieces", [short, browser, post], count // 3, 8192),
]


def run(words, stream):
    ended = subprocess.run(words, input=stream, stdout=subprocess.PIPE)
    if ended.returncode != 0:
        sys.exit(f"{' '.join(words)}: status {ended.returncode}")
    return ended.stdout


for name, requests, turns, piece in streams:
    stream = b"".join(requests) * turns
    # of the first bytes the responses are compared, where the last request may be cut off
    texts = [run([command, str(piece), "write"], stream[:1_000_000]) for command in commands.values()]
    if texts[0] != texts[1] or len(texts[0]) == 0:
        sys.exit(f"{name}: the responses differ")
    rates, sums = {command: [] for command in commands}, set()
    for _ in range(5):
        for label, command in commands.items():
            answered, total, nanos = map(int, run([command, str(piece)], stream).split())
            sums.add((answered, total))
            rates[label].append(answered * 1e9 / nanos)
    if len(sums) != 1 or sums.pop()[0] != len(requests) * turns:
        sys.exit(f"{name}: not all requests were answered in one way")
    median = {label: statistics.median(found) for label, found in rates.items()}
    print(
        f"{name}: mint {median['mint']:,.0f} requests a second, plain {median['plain']:,.0f},"
        f" ratio {median['mint'] / median['plain']:.2f}"
    )
PYTHON
