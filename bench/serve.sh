#!/usr/bin/env bash
# Measure the requests a second of `serve` over loopback, beside nginx: GET /net/2/10/4 at bounds 16,32 by
# `wrk -t2 -c4`, of mint with 4 workers over a new store in a file, and of nginx with 4 workers, a file
# of the same bytes at the same path, no log, and 1,000 requests a connection, as mint has; and then of
# mint again while a client imports texts by POST /import all the time, one after the other.
# Prints the requests a second of both (median of 3 rounds, in each round all three in turn) and the ratio
# of mint's to nginx's, 1 or more being the goal; and the same while texts are imported, with how many
# were accepted and how many were answered otherwise, half of nginx's or more being the goal. Each worker
# has one connection at a time, so the client waits for one of wrk's to end before it is served. Each
# round has a store of its own, which is full after 2,048 imports.
# Ends with status 1 if a server does not come up, or if an answer had another status than 200 or a
# connection failed. The servers listen on free ports of 127.0.0.1 and are ended by their numbers.
# MINT names another program to run, from the top of the repository; DURATION is for how many seconds wrk
# runs each time, 5 else; ROUNDS is how many rounds, 3 else.
cd "$(dirname "$0")/.." || exit 1
mint=${MINT:-./mint}

PATH=$PATH:/usr/sbin:/usr/local/sbin
for needed in wrk nginx; do
    if ! command -v "$needed" >/dev/null; then
        echo "no $needed here: nothing measured"
        exit 0
    fi
done
"$mint" :memory: - 1,1 export >/dev/null || exit 1

exec python3 - "$mint" "${DURATION:-5}" "${ROUNDS:-3}" <<'PYTHON'
import contextlib, http.client, os, re, signal, socket, statistics, subprocess, sys, tempfile, threading, time

mint, duration, rounds = sys.argv[1], int(sys.argv[2]), int(sys.argv[3])
QUESTION = "/net/2/10/4"
NGINX = """daemon off;
{user}worker_processes 4;
pid {folder}/nginx.pid;
error_log {folder}/error.log;
events {{ worker_connections 64; }}
http {{
    access_log off;
    keepalive_requests 1000;
    default_type application/json;
    client_body_temp_path {folder}/body;
    proxy_temp_path {folder}/proxy;
    fastcgi_temp_path {folder}/fastcgi;
    uwsgi_temp_path {folder}/uwsgi;
    scgi_temp_path {folder}/scgi;
    server {{
        listen 127.0.0.1:{port};
        root {folder}/files;
    }}
}}
"""


def free_port():
    with socket.socket() as taken:
        taken.bind(("127.0.0.1", 0))
        return taken.getsockname()[1]


def answer_of(port):
    """The status and the body of one GET."""
    connection = http.client.HTTPConnection("127.0.0.1", port, timeout=10)
    with contextlib.closing(connection):
        connection.request("GET", QUESTION, headers={"Connection": "close"})
        response = connection.getresponse()
        return response.status, response.read()


@contextlib.contextmanager
def server(name, words, port):
    """Starts a server, waits until it answers, and ends it at last."""
    process = subprocess.Popen(words, stdin=subprocess.DEVNULL, stdout=subprocess.DEVNULL)
    try:
        for _ in range(600):
            if process.poll() is not None:
                sys.exit(f"{name}: it ended with status {process.returncode}")
            try:
                status, body = answer_of(port)
                break
            except (OSError, http.client.HTTPException):
                time.sleep(0.1)
        else:
            sys.exit(f"{name}: no answer in a minute")
        if status != 200:
            sys.exit(f"{name}: status {status} for {QUESTION}, {body!r}")
        yield body
        if process.poll() is not None:
            sys.exit(f"{name}: it ended with status {process.returncode}")
    finally:
        process.terminate()
        try:
            process.wait(10)
        except subprocess.TimeoutExpired:
            process.kill()
            process.wait()


def requests_a_second(name, port):
    """The requests a second, and how many of them waited for two seconds or longer."""
    words = ["wrk", "-t2", "-c4", f"-d{duration}s", f"http://127.0.0.1:{port}{QUESTION}"]
    ended = subprocess.run(words, stdin=subprocess.DEVNULL, capture_output=True, text=True)
    rate = re.search(r"^Requests/sec: *([0-9.]+)$", ended.stdout, re.M)
    errors = re.search(
        r"Socket errors: connect ([0-9]+), read ([0-9]+), write ([0-9]+), timeout ([0-9]+)", ended.stdout
    )
    counts = [int(count) for count in errors.groups()] if errors else [0]
    if ended.returncode != 0 or not rate or any(counts[:-1]) or "Non-2xx" in ended.stdout:
        sys.exit(f"{name}: wrk ended with status {ended.returncode}\n{ended.stdout}{ended.stderr}")
    return float(rate[1]), counts[-1]


class Importer(threading.Thread):
    """Posts texts, each of another name, until it is told to end. It counts the answers of each status."""

    names = 0

    def __init__(self, port):
        super().__init__(daemon=True)
        self.port, self.is_over, self.statuses, self.failed = port, threading.Event(), {}, 0

    def run(self):
        connection = http.client.HTTPConnection("127.0.0.1", self.port, timeout=30)
        while not self.is_over.is_set():
            Importer.names += 1
            text = f"ooa 2 2 1 1 2 n{Importer.names}\n10\n".encode()
            try:
                connection.request("POST", "/import", text)
                response = connection.getresponse()
                response.read()
                self.statuses[response.status] = self.statuses.get(response.status, 0) + 1
            except (OSError, http.client.HTTPException):
                # the connection is made anew
                connection.close()
                self.failed += 1
        connection.close()


def beside_imports(port):
    """The same while texts are imported, and the importer."""
    importer = Importer(port)
    importer.start()
    rate, late = requests_a_second("mint beside imports", port)
    importer.is_over.set()
    importer.join(60)
    return rate, late, importer


def start_nginx(folder, port, body):
    """The words that start nginx over a file of these bytes, and its configuration."""
    file = f"{folder}/files{QUESTION}"
    os.makedirs(os.path.dirname(file))
    with open(file, "wb") as it:
        it.write(body)
    with open(f"{folder}/nginx.conf", "w") as it:
        user = "user root;\n" if os.geteuid() == 0 else ""
        it.write(NGINX.format(folder=folder, port=port, user=user))
    return ["nginx", "-p", folder, "-c", f"{folder}/nginx.conf", "-e", f"{folder}/error.log"]


def start_mint(folder, port):
    """The words that start mint over a store that is not there yet."""
    store = os.path.join(tempfile.mkdtemp(dir=folder), "store.db")
    return [mint, store, "-", "16,32", "serve", str(port), "4", "1000000"]


def measure(folder):
    rates, statuses = {"mint": [], "nginx": [], "imports": []}, {}
    failed, late = 0, {"mint": 0, "nginx": 0, "imports": 0}
    for number in range(rounds):
        ports = free_port(), free_port()
        site = os.path.join(folder, f"nginx-{number}")
        with server("mint", start_mint(folder, ports[0]), ports[0]) as body:
            found = [requests_a_second("mint", ports[0])]
            with server("nginx", start_nginx(site, ports[1], body), ports[1]) as served:
                if served != body:
                    sys.exit("nginx: another body")
                found.append(requests_a_second("nginx", ports[1]))
            *beside, importer = beside_imports(ports[0])
        for name, (rate, count) in zip(rates, [*found, beside]):
            rates[name].append(rate)
            late[name] += count
        failed += importer.failed
        for status, count in importer.statuses.items():
            statuses[status] = statuses.get(status, 0) + count
    median = {name: statistics.median(found) for name, found in rates.items()}
    print(
        f"GET {QUESTION}, {len(body)} bytes: mint {median['mint']:,.0f} requests a second,"
        f" nginx {median['nginx']:,.0f}, ratio {median['mint'] / median['nginx']:.2f}"
    )
    for name, count in late.items():
        if count > 0:
            print(f"{name}: {count} requests were not answered within 2 seconds")
    others = ", ".join(f"{count} of status {status}" for status, count in statuses.items() if status != 200)
    print(
        f"while texts are imported: mint {median['imports']:,.0f}, ratio to nginx"
        f" {median['imports'] / median['nginx']:.2f}; {statuses.get(200, 0)} imports accepted"
        f" in {rounds * duration} seconds, {others or 'no other answers'}, {failed} connections made anew"
    )
    return 0 if statuses.get(200, 0) > 0 else 1


signal.signal(signal.SIGTERM, lambda number, frame: sys.exit(128 + number))
with tempfile.TemporaryDirectory() as folder:
    sys.exit(measure(folder))
PYTHON
