#!/usr/bin/env python3
"""A unit is looked at by `sfu page` while two clients send and while the page is attacked.

    bench/page/run.py SFU FOLDER [PAGE_PORT]

SFU is the built program. With PAGE_PORT a page that runs already is looked at, and the unit's control is at FOLDER/control for it. What is
seen: the paths, methods and statuses; that the page's policy has the digests of its style and script; that `/metrics` is what `sfu ask PATH
metrics` says; that the counts of octets grow as is sent; that half requests, visitors who read nothing, a thousand connections, `..` in paths
and a head of a megabyte neither stop the page nor cost the unit a datagram; and that `/state.json` has 503 once the unit is gone.

Where chromium is installed, it has the page open all the while: what it shows is compared with what is sent, pictures of it go to FOLDER,
light and dark, 400 and 1600 pixels wide, and its policy may forbid nothing of it. A state that has markup in place of each word and number
is shown as text. Ends with status 1 at the first thing that isn't so. By hand: nothing of it is proved.
"""

import base64
import hashlib
import http.client
import http.server
import json
import os
import re
import select
import shutil
import socket
import struct
import subprocess
import sys
import tempfile
import threading
import time

# As long a name as there may be.
LONG = "the-camera-in-the-great-hall.top"
SETTINGS = """workers = 1
ring = 64
history = 1024
timeout_ms = 60000
report_ms = 5000
pli_gap_ms = 0
unit_ssrc = 9
cname = "sfu"
listen = "127.0.0.1:{unit}"

[[endpoint]]
ssrc = 16
name = "{long}"
address = "127.0.0.1:{first}"

[[endpoint]]
ssrc = 17
cname = "ben@192.0.2.8"
address = "127.0.0.1:{second}"

[[endpoint]]
ssrc = 18
address = "127.0.0.1:{absent}"

[[leg]]
publisher = 0
subscriber = 1
out_ssrc = 257

[[leg]]
publisher = 1
subscriber = 0
out_ssrc = 258

[[leg]]
publisher = 0
subscriber = 2
out_ssrc = 259
on = false
"""
PACKETS_A_SECOND = 50
# A packet has 212 bytes.
BITS_A_SECOND = 8 * 212 * PACKETS_A_SECOND


def fail(text):
    sys.exit(f"not so: {text}")


def free_port(kind):
    with socket.socket(socket.AF_INET, kind) as it:
        it.bind(("127.0.0.1", 0))
        return it.getsockname()[1]


class Clients(threading.Thread):
    """Two clients that send to each other, and count what comes."""

    def __init__(self, unit, first, second):
        super().__init__(daemon=True)
        self.unit, self.ends, self.sent, self.received = unit, False, 0, 0
        self.sockets = []
        for port in (first, second):
            it = socket.socket(socket.AF_INET, socket.SOCK_DGRAM)
            it.bind(("127.0.0.1", port))
            it.setblocking(False)
            self.sockets.append(it)

    def run(self):
        number = 0
        due = time.monotonic()
        while not self.ends:
            for ssrc, it in zip((16, 17), self.sockets):
                packet = struct.pack(">BBHII", 0x80, 96, number & 0xFFFF, number * 3000 & 0xFFFFFFFF, ssrc) + bytes(200)
                it.sendto(packet, ("127.0.0.1", self.unit))
                self.sent += 1
            number += 1
            self.read()
            due += 1 / PACKETS_A_SECOND
            time.sleep(max(0, due - time.monotonic()))
        time.sleep(0.5)
        self.read()

    def read(self):
        for it in self.sockets:
            try:
                while True:
                    datagram = it.recv(2048)
                    if not 192 <= datagram[1] <= 223:
                        self.received += 1
            except BlockingIOError:
                pass


def get(port, path, method="GET"):
    it = http.client.HTTPConnection("127.0.0.1", port, timeout=5)
    it.putrequest(method, path)
    it.endheaders()
    answer = it.getresponse()
    body = answer.read()
    it.close()
    return answer.status, answer.getheaders(), body


def under(port, host):
    """The status for a client that calls the page by this name."""
    it = http.client.HTTPConnection("127.0.0.1", port, timeout=5)
    it.putrequest("GET", "/", skip_host=True)
    it.putheader("Host", host)
    it.endheaders()
    status = it.getresponse().status
    it.close()
    return status


def hosts(port):
    """Under which names it is looked at."""
    for host in ("127.0.0.1", f"127.0.0.1:{port}", "localhost", f"localhost:{port}", "[::1]", "10.0.0.1"):
        if under(port, host) not in (200, 503):
            fail(f"{host} isn't known")
    for host in ("evil.example", f"evil.example:{port}", "localhost.evil.example", "127.0.0.1.evil.example"):
        if under(port, host) != 421:
            fail(f"{host} is known")


def check_metrics(port):
    """What promtool says of the metrics, if it is there."""
    promtool = shutil.which("promtool")
    if promtool is None:
        print("no promtool: the metrics aren't checked")
        return
    it = subprocess.run([promtool, "check", "metrics"], input=expect(port, "/metrics", 200), capture_output=True, timeout=20)
    if it.returncode or it.stdout or it.stderr:
        fail(f"promtool says {it.stdout} {it.stderr}")
    print("promtool finds nothing")


def expect(port, path, status, method="GET", within=None):
    given, _, body = get(port, path, method)
    if given != status:
        fail(f"{method} {path} gives {given}, not {status}")
    if within is not None and within not in body:
        fail(f"{method} {path} lacks {within}")
    return body


def wait_for(what, seconds=15):
    end = time.monotonic() + seconds
    while time.monotonic() < end:
        try:
            if what():
                return
        except OSError:
            pass
        time.sleep(0.1)
    fail("it never came so far")


def packets(port):
    state = json.loads(expect(port, "/state.json", 200))
    return sum(leg["packets"] for leg in state["legs"])


def moved(port):
    """Whether what comes from both senders, and goes to them, is counted, between two questions, by what is sent."""
    first = json.loads(expect(port, "/state.json", 200))
    wait_for(lambda: json.loads(expect(port, "/state.json", 200))["moment_ms"] > first["moment_ms"])
    then = json.loads(expect(port, "/state.json", 200))
    elapsed = then["moment_ms"] - first["moment_ms"]
    rates = [8000 * (now[way] - before[way]) / elapsed
             for before, now in list(zip(first["endpoints"], then["endpoints"]))[:2] for way in ("heard_octets", "sent_octets")]
    return all(BITS_A_SECOND / 2 < rate < 2 * BITS_A_SECOND for rate in rates)


def digest(page, part):
    """The digest of what stands between a tag and its end, as a policy has it."""
    text = re.search(rb"<%s>(.*?)</%s>" % (part, part), page, re.DOTALL)[1]
    return f"'sha256-{base64.b64encode(hashlib.sha256(text).digest()).decode()}'"


def policy(port):
    """The page is the same whatever the unit says, and its policy lets its own style and script alone do something."""
    status, fields, page = get(port, "/")
    wanted = ("default-src 'none'; style-src {}; script-src {}; connect-src 'self'; img-src 'self'; base-uri 'none'; form-action 'none'; "
              "frame-ancestors 'none'").format(digest(page, b"style"), digest(page, b"script"))
    if status != 200 or dict(fields)["content-security-policy"] != wanted:
        fail(f"the policy is {fields}, not {wanted}")
    if b"style=" in page or re.search(rb"\son[a-z]+=", page) or b"innerHTML" in page:
        fail("the page has styles or scripts in its tags, or reads texts as markup")
    return page


def ask(program, path, word):
    return subprocess.run([program, "ask", path, word], capture_output=True, timeout=20).stdout


def look(port, program, control):
    """The paths, the methods, and what they give."""
    state = json.loads(expect(port, "/state.json", 200))
    if [e["ssrc"] for e in state["endpoints"]] != [16, 17, 18] or [e["present"] for e in state["endpoints"]] != [True, True, False]:
        fail(f"endpoints are {state['endpoints']}")
    if [leg["on"] for leg in state["legs"]] != [True, True, False]:
        fail(f"legs are {state['legs']}")
    if state["counts"]["strangers"] or state["counts"]["lost"]:
        fail(f"counts are {state['counts']}")
    told = {line.split(b" ")[0] for line in expect(port, "/metrics", 200).splitlines()}
    if told != {line.split(b" ")[0] for line in ask(program, control, "metrics").splitlines()}:
        fail("the metrics are others")
    policy(port)
    for path in ("/index.html", "/../etc/passwd", "/..", "//", "/%2e%2e/state.json", "/state.json/", "/publishers", "/metrics%00"):
        expect(port, path, 404)
    for method in ("POST", "PUT", "DELETE", "OPTIONS", "PATCH"):
        expect(port, "/metrics", 405, method)
    status, fields, body = get(port, "/state.json", "HEAD")
    if status != 200 or body or int(dict(fields)["content-length"]) < 100:
        fail("HEAD isn't as GET without its body")
    for number in (0, 1):
        expect(port, f"/publishers/{number}.svg", 200, within=f"Asked of media sender {16 + number}<".encode())
    for number in ("3", "65536", "x", ""):
        expect(port, f"/publishers/{number}.svg", 404)
    hosts(port)
    check_metrics(port)
    wait_for(lambda: moved(port))
    before = packets(port)
    wait_for(lambda: packets(port) > before)


class Browser:
    """Chromium without a window, steered over pipes by the DevTools protocol: a page that is open."""

    def __init__(self, program, url):
        (theirs, self.to), (self.back, ours) = os.pipe(), os.pipe()
        self.folder = tempfile.mkdtemp(prefix="sfu-page-")
        words = [program, "--headless", "--no-sandbox", "--disable-gpu", "--hide-scrollbars", "--remote-debugging-pipe",
                 f"--user-data-dir={self.folder}"]
        # (it reads from 3 and writes to 4)
        self.process = subprocess.Popen(["bash", "-c", f'exec "$@" 3<&{theirs} 4>&{ours}', "bash", *words], pass_fds=(theirs, ours),
                                        stdout=subprocess.DEVNULL, stderr=subprocess.DEVNULL)
        os.close(theirs)
        os.close(ours)
        self.number, self.rest, self.session, self.complaints = 0, b"", {}, []
        target = self.call("Target.createTarget", url="about:blank")["targetId"]
        self.session = {"sessionId": self.call("Target.attachToTarget", targetId=target, flatten=True)["sessionId"]}
        for domain in ("Page", "Runtime", "Log"):
            self.call(f"{domain}.enable")
        self.call("Page.navigate", url=url)

    def read(self, end):
        """The next message; `None` if none comes by then."""
        while b"\0" not in self.rest:
            if not select.select([self.back], [], [], max(0, end - time.monotonic()))[0]:
                return None
            self.rest += os.read(self.back, 1 << 20)
        text, self.rest = self.rest.split(b"\0", 1)
        it = json.loads(text)
        said = str(it.get("params"))
        if it.get("method") == "Runtime.exceptionThrown" or "Content Security Policy" in said:
            self.complaints.append(said)
        return it

    def call(self, method, **params):
        self.number += 1
        os.write(self.to, json.dumps({"id": self.number, "method": method, "params": params, **self.session}).encode() + b"\0")
        end = time.monotonic() + 60
        while True:
            it = self.read(end)
            if it is None or "error" in it:
                fail(f"the browser says {it} to {method}")
            if it.get("id") == self.number:
                return it["result"]

    def value(self, script):
        return self.call("Runtime.evaluate", expression=script, returnByValue=True)["result"].get("value")

    def says(self, script, wanted):
        """The script comes to this within some seconds."""
        end = time.monotonic() + 20
        while (given := self.value(script)) != wanted:
            if time.monotonic() > end:
                fail(f"{script} is {given!r}, not {wanted!r}")
            self.read(time.monotonic() + 0.2)

    def picture(self, path, width, scheme):
        """A picture of all of the page, which fits into the width."""
        self.call("Emulation.setDeviceMetricsOverride", width=width, height=900, deviceScaleFactor=1, mobile=False)
        self.call("Emulation.setEmulatedMedia", features=[{"name": "prefers-color-scheme", "value": scheme}])
        if self.value("document.documentElement.scrollWidth") != width:
            fail(f"the page is wider than {width} pixels")
        if cut := self.value("[...document.querySelectorAll('td, dd')].filter(it => it.scrollWidth > it.clientWidth).map(it => it.textContent).join()"):
            fail(f"at {width} pixels {cut} is cut off")
        label = "getComputedStyle(it, '::before')"
        if broken := self.value(f"[...document.querySelectorAll('.cards td')].filter(it => parseFloat({label}.height) > "
                                f"2 * parseFloat({label}.fontSize)).map(it => it.dataset.name).join()"):
            fail(f"at {width} pixels the label {broken} is broken")
        with open(path, "wb") as it:
            it.write(base64.b64decode(self.call("Page.captureScreenshot", format="png", captureBeyondViewport=True)["data"]))

    def close(self):
        self.process.kill()
        self.process.wait()
        shutil.rmtree(self.folder, ignore_errors=True)


def cells(table, column):
    return f"[...document.querySelectorAll('#{table} tbody tr > :nth-child({column})')].map(it => it.textContent).join('|')"


def shown(browser, folder):
    """What people see of what is sent, and pictures of it."""
    browser.says("document.getElementById('news').textContent", "The unit answers")
    browser.says(cells("endpoints", 2), "present|present|absent")
    browser.says(cells("endpoints", 9).replace("it.textContent", "it.textContent.replace(/^[0-9.]+ s ago$/, 'seconds ago')"),
                 "seconds ago|seconds ago|never")
    browser.says(cells("endpoints", 11), "16|17|18")
    browser.says(cells("legs", 2), "on|on|off")
    browser.says("[...document.querySelectorAll('#matrix tbody tr')].map(it => [...it.children].map(cell => cell.textContent || "
                 "(cell.firstElementChild ? cell.firstElementChild.getAttribute('aria-label') : '-')).join(' ')).join('|')",
                 f"{LONG} (0) - on|ben@192.0.2.8 (1) on -|2 off -")
    browser.says(cells("endpoints", 1), f"{LONG} (0)|ben@192.0.2.8 (1)|2")
    browser.says(cells("legs", 3), f"{LONG} (0)|ben@192.0.2.8 (1)|{LONG} (0)")
    browser.says("[...document.querySelectorAll('#gallery img')].map(it => it.naturalWidth > 0 && new URL(it.src).pathname).join('|')",
                 "/publishers/0.svg|/publishers/1.svg")
    # Of each endpoint a curve of at least three dots, the rate of both that send.
    browser.says("[...document.querySelectorAll('#endpoints .in polyline, #endpoints polyline.in')].map(it => "
                 "it.getAttribute('points').split(' ').length > 2).join('|')", "true|true|true")
    for column in (3, 4):
        browser.says(f"[...document.querySelectorAll('#endpoints tbody tr > :nth-child({column})')].slice(0, 2).map(it => "
                     f"/^[0-9.]+\\u00a0kbit\\/s$/.test(it.textContent) && parseFloat(it.textContent) > {BITS_A_SECOND / 2000} "
                     f"&& parseFloat(it.textContent) < {BITS_A_SECOND / 500}).join('|')", "true|true")
    for scheme in ("light", "dark"):
        for width in (400, 1600):
            browser.picture(f"{folder}/{scheme}-{width}.png", width, scheme)


MARKUP = "<img src=x onerror=hit()><script>hit()</script>"


def hostile(program, page, fields):
    """The page, under its own policy, of a state that has markup in place of all: each is shown as text, or the state isn't read."""
    leg = dict.fromkeys(("leg", "subscriber", "on", "stay", "publisher_name", "subscriber_name", "packets", "octets", "resent", "missed", "next",
                         "fraction_lost", "jitter", "round_trip_ms", "reported_ago_ms"), MARKUP)
    endpoint = dict.fromkeys(("number", "ssrc", "address", "present", "heard_ago_ms", "name", "refused", "heard_octets", "sent_octets",
                              "fraction_lost", "jitter", "reported_ago_ms"), MARKUP)
    counts = dict.fromkeys(("present", "heard", "sent", "failed", "lost", "dropped", "strangers", "unread"), MARKUP)
    state = {"moment_ms": MARKUP, "endpoints": [endpoint], "legs": [{**leg, "publisher": MARKUP}], "counts": counts}

    class Answers(http.server.BaseHTTPRequestHandler):
        def do_GET(self):
            body = page if self.path == "/" else json.dumps(state).encode() if self.path == "/state.json" else b"<svg/>"
            self.send_response(200)
            for name in ("content-type", "content-security-policy", "x-content-type-options"):
                self.send_header(name, fields[name] if self.path == "/" else "application/json" if name == "content-type" else fields[name])
            self.end_headers()
            self.wfile.write(body)

        def log_message(self, *_):
            pass

    server = http.server.ThreadingHTTPServer(("127.0.0.1", 0), Answers)
    threading.Thread(target=server.serve_forever, daemon=True).start()
    browser = Browser(program, f"http://127.0.0.1:{server.server_port}/")
    browser.says("document.getElementById('news').textContent", "The unit answers")
    browser.says(cells("endpoints", 12), MARKUP)
    browser.says("document.querySelectorAll('img[src=x], main script, [onerror]').length", 0)
    if browser.complaints:
        fail(f"of a hostile state the browser says {browser.complaints}")
    browser.close()
    server.shutdown()


def raw(port, text, reads):
    it = socket.create_connection(("127.0.0.1", port), timeout=5)
    try:
        it.sendall(text)
        answer = b""
        while reads and len(answer) < 4096:
            piece = it.recv(4096)
            if not piece:
                break
            answer += piece
        return answer
    except OSError:
        return answer if reads else b""
    finally:
        it.close()


def attack(port):
    """Everything that a visitor may do wrong; after each the page still answers."""
    held = []
    for text in (b"", b"GET /metr", b"GET / HTTP/1.1\r\nHost: localhost\r\nX: "):
        for _ in range(40):
            it = socket.create_connection(("127.0.0.1", port), timeout=5)
            it.sendall(text)
            held.append(it)
        expect(port, "/state.json", 200)
    for it in held:
        it.close()
    deaf = []
    for _ in range(64):
        it = socket.socket(socket.AF_INET, socket.SOCK_STREAM)
        it.setsockopt(socket.SOL_SOCKET, socket.SO_RCVBUF, 1024)
        it.connect(("127.0.0.1", port))
        it.sendall(b"GET / HTTP/1.1\r\nHost: localhost\r\n\r\n")
        deaf.append(it)
    expect(port, "/state.json", 200)
    for it in deaf:
        it.close()
    many = []
    for _ in range(1000):
        it = socket.socket(socket.AF_INET, socket.SOCK_STREAM)
        it.setblocking(False)
        try:
            it.connect(("127.0.0.1", port))
        except BlockingIOError:
            pass
        many.append(it)
    wait_for(lambda: get(port, "/state.json")[0] == 200)
    for it in many:
        it.close()
    answer = raw(port, b"GET / HTTP/1.1\r\nHost: localhost\r\nX: " + b"y" * 1_000_000 + b"\r\n\r\n", True)
    if answer and b" 431 " not in answer.split(b"\r\n")[0]:
        fail(f"a head of a megabyte gives {answer[:80]}")
    for text, status in (
        (b"\x00\xff\xfe nonsense\r\n\r\n", b" 400 "),
        (b"GET /metrics\r\n\r\n", b" 400 "),
        (b"GET / HTTP/1.1\r\n\r\n", b" 400 "),
        (b"GET / HTTP/1.1\r\nHost: localhost\r\nTransfer-Encoding: gzip\r\n\r\n", b" "),
        (b"POST / HTTP/1.1\r\nHost: localhost\r\nContent-Length: 99999999\r\n\r\n", b" 413 "),
    ):
        answer = raw(port, text, True)
        if status not in answer.split(b"\r\n")[0]:
            fail(f"{text[:40]} gives {answer[:80]}")
    expect(port, "/", 200)


def memory(pid):
    with open(f"/proc/{pid}/status", encoding="ascii") as it:
        return next(int(line.split()[1]) for line in it if line.startswith("VmRSS"))


def main():
    program, folder = sys.argv[1], sys.argv[2]
    os.makedirs(folder, exist_ok=True)
    ports = {name: free_port(socket.SOCK_DGRAM) for name in ("unit", "first", "second", "absent")}
    control, settings = f"{folder}/control", f"{folder}/room.toml"
    with open(settings, "w", encoding="ascii") as it:
        it.write(SETTINGS.format(**ports, long=LONG))
    page, browser = None, None
    if len(sys.argv) > 3:
        port = int(sys.argv[3])
    else:
        port = free_port(socket.SOCK_STREAM)
        refused = subprocess.run([program, "page", control, f"0.0.0.0:{port}"], capture_output=True, timeout=20)
        if refused.returncode != 2 or refused.stdout or b"loopback" not in refused.stderr:
            fail(f"an address of everybody gives {refused}")
        page = subprocess.Popen([program, "page", control, f"127.0.0.1:{port}"], stderr=subprocess.PIPE)
        if page.stderr.readline() != f"page 127.0.0.1:{port}\n".encode():
            fail("the page doesn't say where it is")
    wait_for(lambda: get(port, "/state.json")[0] == 503)
    policy(port)
    for path in ("/metrics", "/state.json", "/publishers/0.svg"):
        expect(port, path, 503)
    unit = subprocess.Popen([program, "serve", settings, "--control", control],
                            stdout=subprocess.DEVNULL, stderr=subprocess.PIPE)
    try:
        unit.stderr.readline()
        clients = Clients(ports["unit"], ports["first"], ports["second"])
        clients.start()
        wait_for(lambda: get(port, "/state.json")[0] == 200 and packets(port) > 50)
        look(port, program, control)
        chromium = shutil.which("chromium")
        browser = chromium and Browser(chromium, f"http://127.0.0.1:{port}/")
        if browser:
            shown(browser, folder)
            hostile(chromium, policy(port), dict(get(port, "/")[1]))
        else:
            print("no chromium: what people see isn't looked at")
        start = time.monotonic()
        attack(port)
        print(f"attacked for {time.monotonic() - start:.1f} s" + (f"; the page has {memory(page.pid)} KB" if page else ""))
        look(port, program, control)
        clients.ends = True
        clients.join()
        # The first packet of each comes before the other is present.
        print(f"sent {clients.sent}, received {clients.received}")
        if clients.sent - clients.received > 2:
            fail("the unit lost datagrams")
        subprocess.run([program, "ask", control, "stop"], check=True, timeout=20)
        unit.wait(20)
        wait_for(lambda: get(port, "/state.json")[0] == 503)
        policy(port)
        if browser:
            browser.says("document.getElementById('news').textContent", "The unit does not answer. What is below is old")
            if page:
                page.kill()
                browser.says("document.getElementById('news').textContent", "The program sfu page does not answer. What is below is old")
            if browser.complaints:
                fail(f"the browser says {browser.complaints}")
        print("all so")
    finally:
        unit.kill()
        if browser:
            browser.close()
        if page:
            page.kill()


main()
