"""Cases of the page of the master: GET /, GET /state, and POST /fault."""
import json
import re
import shutil
import subprocess
import tempfile

from faults import expect_names, failure
from messages import launch, message, offer, offers, records, task
from runs import Framework, Skipped, case, expect, expect_within
from wire import LIMIT, request, text_of

MEMBERS = ["framework", "stream", "time", "calls", "events", "faults", "suppressed", "offers", "tasks", "launched", "unacknowledged", "log"]
NO_STREAM = {"framework": "F1", "stream": None, "calls": 0, "events": 0, "faults": 0, "suppressed": False}
# The browsers that show the page, by the names that Debian and others give them.
BROWSERS = ("chromium", "chromium-browser", "google-chrome")


def get(path, *fields, host="127.0.0.1", version="HTTP/1.1", method="GET"):
    lines = [f"{method} {path} {version}", *([f"Host: {host}"] if host else []), *fields]
    return "".join(line + "\r\n" for line in lines).encode() + b"\r\n"


def demand(event, *fields, **how):
    """Returns the bytes of a POST of an event."""
    return request(event, None, *fields, path="/fault", **how)


def read(connection, path="/state"):
    connection.send(get(path))
    response = connection.read_response()
    expect(f"the status of GET {path}", "200", response.status)
    return response


def state_of(master):
    """Returns the state of a master, whose text must be in canonical form."""
    connection = master.connect()
    response = read(connection)
    connection.close()
    expect("the media type", "application/json", response.fields.get("content-type"))
    text = response.body.decode()
    state = json.loads(text)
    expect("the text of the state", json.dumps(state, separators=(",", ":"), ensure_ascii=False), text)
    expect("the members of the state", MEMBERS, list(state))
    return state


def picked(state, *names):
    return {name: state[name] for name in names}


def offer_states(state):
    return [(it["offer"]["id"]["value"], it["state"], it["tasks"]) for it in state["offers"]]


def task_states(state):
    return [(it["task_id"], it["agent_id"], it["state"], it["acknowledged"], it["killed"]) for it in state["tasks"]]


@case("GET /state of a new master: no stream, nothing counted, the offers of the input free")
def new(run):
    master = run.master(events=offers(offer("O1"), offer("O2", agent="A2")))
    state = state_of(master)
    expect("the state", NO_STREAM, picked(state, *NO_STREAM))
    expect("the offers", [("O1", "FREE", 0), ("O2", "FREE", 0)], offer_states(state))
    expect("the offer", offer("O2", agent="A2"), state["offers"][1]["offer"])
    expect("the rest", ([], [], [], []), tuple(state[it] for it in ("tasks", "launched", "unacknowledged", "log")))


@case("GET /state after an ACCEPT: the stream, what was counted, the task, its update, and the last events and calls")
def running(run):
    master, framework = run.framework(events=offers(offer("O1"), offer("O2")))
    framework.read_offers("O1", "O2")
    framework.do("ACCEPT", launch(["O1"], task("T1")))
    status = framework.read_update("T1", "TASK_STARTING")
    state = state_of(master)
    expect("the counts", (framework.stream.id, 2, 3), (state["stream"], state["calls"], state["events"]))
    expect("the offers", [("O1", "USED", 1), ("O2", "OUTSTANDING", 0)], offer_states(state))
    expect("the tasks", [("T1", "A1", "TASK_STARTING", False, False)], task_states(state))
    expect("the launched tasks", ["T1"], state["launched"])
    update = {"agent_id": "A1", "task_id": "T1", "uuid": status["uuid"]}
    expect("the unacknowledged updates", [update], [picked(it, *update) for it in state["unacknowledged"]])
    log = [{"event": "SUBSCRIBED"}, {"event": "OFFERS"}, {"call": "SUBSCRIBE", "status": 200}, {"event": "UPDATE"}, {"call": "ACCEPT", "status": 202}]
    expect("the log", log, state["log"])


@case("GET /state: an acknowledged update is gone, a killed task is marked, and a task that is over is only in the list of launched tasks")
def ending(run):
    master, framework = run.framework(events=offers(offer("O1")))
    framework.read_offers("O1")
    framework.run_tasks(["O1"], task("T1"))
    expect("the tasks", [("T1", "A1", "TASK_RUNNING", True, False)], task_states(state_of(master)))
    framework.do("KILL", {"task_id": {"value": "T1"}})
    status = framework.read_update("T1", "TASK_KILLED")
    expect("the tasks", [("T1", "A1", "TASK_KILLED", False, True)], task_states(state_of(master)))
    framework.acknowledge(status)
    state = state_of(master)
    expect("the rest", ([], ["T1"], []), (state["tasks"], state["launched"], state["unacknowledged"]))


@case("GET /state after DECLINE, SUPPRESS, REVIVE and RESCIND: when offers are free again")
def stock(run):
    master, framework = run.framework(events=offers(offer("O1")), stdin="pipe")
    framework.read_offers("O1")
    framework.do("DECLINE", {"offer_ids": [{"value": "O1"}], "filters": {"refuse_seconds": 1000.0}})
    state = state_of(master)
    [free] = state["offers"]
    expect("the state of the offer", "FREE", free["state"])
    expect("the time from which it is free", True, 999_000 <= free["from"] - state["time"] <= 1_000_000 or free["from"])
    framework.do("SUPPRESS")
    expect("whether offers are suppressed", True, state_of(master)["suppressed"])
    framework.do("REVIVE")
    framework.read_offers("O1-2")
    expect("the offers", [("O1-2", "OUTSTANDING", 0)], offer_states(state_of(master)))
    master.feed(records({"type": "RESCIND", "rescind": {"offer_id": {"value": "O1-2"}}}))
    expect("the event", "RESCIND", framework.next()["type"])
    expect("the offers", [("O1-2", "WITHDRAWN", 0)], offer_states(state_of(master)))


@case("GET /state counts the planned faults that happened, and lists the 64 last events and calls")
def counted(run):
    master, framework = run.framework("--fault", "lose:2", "--fault", "busy:3", events=records(failure("a"), failure("b")))
    expect_names(framework, "b")
    framework.do("REVIVE")
    expect("the status of the third call", "503", framework.ask("REVIVE"))
    expect("the faults", 2, state_of(master)["faults"])
    for number in range(40):
        framework.do("MESSAGE", message(number))
    last = [{"event": "MESSAGE"}, {"call": "MESSAGE", "status": 202}] * 32
    expect("the log", last, state_of(master)["log"])


@case("GET / shows the page, and the connection stays open for other requests of both kinds")
def page(run):
    master = run.master()
    connection = master.connect()
    response = read(connection, "/")
    expect("the media type", "text/html; charset=utf-8", response.fields.get("content-type"))
    expect("the fields for browsers", ("no-store", "frame-ancestors 'none'", "nosniff"), tuple(response.fields.get(it) for it in ("cache-control", "content-security-policy", "x-content-type-options")))
    expect("the ends of the page", (b"<!DOCTYPE html>\n", b"</html>\n"), (response.body[:16], response.body[-8:]))
    expect("the same page", response, read(connection, "/"))
    expect("the status of a call", "403", connection.ask(request({"type": "REVIVE", "framework_id": {"value": "F1"}})))
    expect("the calls", 1, json.loads(read(connection).body)["calls"])
    connection.send(get("/", "Connection: close"))
    expect("the field Connection", "close", connection.read_response().fields.get("connection"))
    expect("what follows", (b"", "end"), connection.read_rest())


@case("requests for pages and calls in one write: one response each, in order")
def pipelined(run):
    master = run.master()
    connection = master.connect()
    revive = request({"type": "REVIVE", "framework_id": {"value": "F1"}})
    connection.send(get("/state") + revive + get("/") + demand({"type": "BUSY"}) + revive + get("/state"))
    got = [connection.read_response() for _ in range(6)]
    expect("the statuses", ["200", "403", "200", "202", "503", "200"], [it.status for it in got])
    expect("the calls", [0, 2], [json.loads(got[it].body)["calls"] for it in (0, 5)])


@case("POST /fault takes the events of standard input: faults, offers, and others")
def demanded(run):
    master, framework = run.framework()
    for event in ({"type": "LOSE"}, failure("lost"), failure("sent"), {"type": "TWICE"}, failure("twice")):
        expect(f"the status of {event['type']}", "202", master.ask(demand(event)))
    expect_names(framework, "sent", "twice", "twice")
    expect("the status of OFFERS", "202", master.ask(demand({"type": "OFFERS", "offers": {"offers": [offer("O1")]}})))
    framework.read_offers("O1")
    expect("the status of MUTE", "202", master.ask(demand({"type": "MUTE"})))
    master.ask(demand(failure("muted")))
    expect("the status of SPEAK", "202", master.ask(demand({"type": "SPEAK"})))
    master.ask(demand(failure("spoken")))
    expect_names(framework, "spoken")
    expect("the status of BREAK", "202", master.ask(demand({"type": "BREAK"})))
    expect("how the stream ended", (b"", "end"), framework.stream.read_rest())
    Framework(master.port).do("REVIVE")
    expect("the lines of these requests", 11, master.lines.count("202 -"))


@case("POST /fault byte by byte")
def in_pieces(run):
    master, framework = run.framework()
    connection = master.connect()
    for byte in demand(failure("a")):
        connection.send(bytes([byte]))
    expect("the status", "202", connection.read_response().status)
    expect_names(framework, "a")


@case("POST /fault with a body that is no event: 400, the connection is closed, and nothing is changed")
def no_event(run):
    master = run.master()
    for body in (b"{}", b"", b"{", b'{"type":"OFFERS"}', b"BREAK", b"\xff"):
        connection = master.connect()
        expect(f"the status of {body}", "400", connection.ask(demand(body)))
        expect("what follows", (b"", "end"), connection.read_rest())
    expect("the state", NO_STREAM, picked(state_of(master), *NO_STREAM))


def refusals():
    """Yields requests for pages with the status that they must get."""
    for host in ("example.org", "127.0.0.1.example.org", "localhost.example.org", "127.0.0.2", "127.0.0.1:", "127.0.0.1:123456", "127.0.0.1:80a", "[::2]:1", "user@localhost"):
        yield "403", get("/state", host=host)
        yield "403", demand({"type": "BREAK"}).replace(b"Host: 127.0.0.1", b"Host: " + host.encode())
    yield "403", get("/state", host=None)
    yield "403", get("/state", "Host: 127.0.0.1")
    for origin in ("http://example.org", "null", "https://127.0.0.1", "http://127.0.0.1:5051", "http://127.0.0.1/", "127.0.0.1", ""):
        yield "403", demand({"type": "BREAK"}, f"Origin: {origin}")
        yield "403", get("/", f"Origin: {origin}")
    yield "403", demand({"type": "BREAK"}, "Origin: http://127.0.0.1", "Origin: http://127.0.0.1")
    for method in ("POST", "PUT", "HEAD", "get", "OPTIONS"):
        yield "405", get("/", method=method)
        yield "405", get("/state", method=method, host="example.org")
    yield "405", get("/fault")
    yield "400", get("/", "Content-Length: 1") + b"x"
    yield "400", get("/state", "Transfer-Encoding: chunked")
    yield "400", demand({"type": "BREAK"}).replace(b"application/json", b"text/plain")
    yield "400", get("/fault", "Content-Type: application/json", method="POST")
    yield "400", demand({"type": "BREAK"}, "Transfer-Encoding: chunked")
    yield "400", demand(b"", length=1_048_577)
    for path in ("/State", "/state/", "/state?x", "//", "/index.html", "/favicon.ico", "http://127.0.0.1/state"):
        yield "404", get(path)


@case("requests for pages that are refused: a foreign Host or Origin, another method, a body where none may be, another path")
def refused(run):
    master, framework = run.framework()
    for status, data in refusals():
        connection = master.connect()
        expect(f"the status of {data}", status, connection.ask(data))
        expect("what follows", (b"", "end"), connection.read_rest())
    framework.do("REVIVE")
    expect("the stream", framework.stream.id, state_of(master)["stream"])


@case("requests for pages with a Host and an Origin of this machine")
def accepted(run):
    master = run.master()
    for host in ("127.0.0.1", f"127.0.0.1:{master.port}", "localhost", "LocalHost:5050", "[::1]:5050", "127.0.0.1:1"):
        connection = master.connect()
        for data in (get("/", host=host), get("/state", f"origin: http://{host}", host=host)):
            expect(f"the status of {data}", "200", connection.ask(data))
        own = demand({"type": "SPEAK"}, f"ORIGIN: HTTP://{host}").replace(b"Host: 127.0.0.1", b"Host: " + host.encode())
        expect(f"the status of {own}", "202", connection.ask(own))
    expect("the status with the length 0", "200", connection.ask(get("/state", "Content-Length: 0")))


@case("a planned reset waits for a call: requests for pages are answered before it")
def before_a_reset(run):
    master, framework = run.framework("--fault", "reset:2")
    expect("the calls", 1, state_of(master)["calls"])
    expect("the status", "202", master.ask(demand({"type": "SPEAK"})))
    connection = master.connect()
    connection.send(framework.bytes_of("REVIVE"))
    expect("what comes", (b"", "reset"), connection.read_rest())
    expect("the calls", (2, 1), (state_of(master)["calls"], state_of(master)["faults"]))
    framework.do("REVIVE")


@case("64 connections that ask for the state at once, while a stream goes on")
def many(run):
    master, framework = run.framework(events=offers(*(offer(f"O{it}") for it in range(200))))
    framework.read_offers(*(f"O{it}" for it in range(200)))
    connections = [master.connect() for _ in range(62)]
    for connection in connections:
        connection.send(get("/state") * 5)
    for connection in connections:
        for _ in range(5):
            expect("the offers", 200, len(json.loads(connection.read_response().body)["offers"]))
    framework.do("REVIVE")


@case("3,000 requests for the state take no memory that is not freed")
def memory(run):
    master, framework = run.framework(events=offers(*(offer(f"O{it}") for it in range(50))))
    connection = master.connect()
    for _ in range(100):
        read(connection)
    before = master.memory()
    for _ in range(3000):
        read(connection)
    expect_within("the memory in KiB", before - 1024, before + 1024, master.memory())
    framework.do("REVIVE")


def browser():
    found = next(filter(None, map(shutil.which, BROWSERS)), None)
    if not found:
        raise Skipped("no chromium is installed")
    return found


def shown(master, width):
    """Returns the page as a browser of this width shows it after some seconds, in HTML."""
    with tempfile.TemporaryDirectory() as folder:
        words = [browser(), "--headless=new", "--no-sandbox", "--disable-gpu", f"--user-data-dir={folder}", f"--window-size={width},900", "--virtual-time-budget=3000", "--dump-dom"]
        ran = subprocess.run([*words, f"http://127.0.0.1:{master.port}/"], capture_output=True, text=True, timeout=LIMIT, check=False)
    return ran.stdout


@case("a browser shows the page at two widths: the stream, the offers, the tasks, the updates and the log")
def in_a_browser(run):
    master, framework = run.framework(events=offers(offer("O1"), offer("O2")))
    framework.read_offers("O1", "O2")
    framework.do("ACCEPT", launch(["O1"], task("<b>T1</b>")))
    framework.read_update("<b>T1</b>", "TASK_STARTING")
    for width in (1200, 420):
        html = shown(master, width)
        cells = re.findall(r"<td>([^<]*)</td>", html)
        wanted = ["O1", "USED by 1", "A1", "cpus 1, mem 100", "O2", "OUTSTANDING", "&lt;b&gt;T1&lt;/b&gt;", "TASK_STARTING", "update unacknowledged"]
        expect(f"the cells at a width of {width}", [], [it for it in wanted if it not in cells])
        expect("the last lines of the log", ["← ACCEPT 202", "→ UPDATE"], re.findall(r"<li[^>]*>([^<]*)</li>", html)[:2])
        expect("the stream", True, framework.stream.id in html)


@case("the texts of the examples: the state as jq reads it, and a fault by curl")
def by_curl(run):
    if not shutil.which("curl"):
        raise Skipped("no curl is installed")
    master, framework = run.framework()
    url = f"http://127.0.0.1:{master.port}"
    words = ["curl", "-s", "--noproxy", "*", "-H", "Content-Type: application/json"]
    ran = subprocess.run([*words, "-d", text_of({"type": "BREAK"}), "-w", "%{http_code}", url + "/fault"], capture_output=True, text=True, timeout=LIMIT, check=False)
    expect("the status", "202", ran.stdout)
    expect("how the stream ended", (b"", "end"), framework.stream.read_rest())
    ran = subprocess.run(["curl", "-s", "--noproxy", "*", url + "/state"], capture_output=True, text=True, timeout=LIMIT, check=False)
    expect("the stream", None, json.loads(ran.stdout)["stream"])
