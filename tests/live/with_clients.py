"""Cases of real clients, each skipped if it is not there: curl, http.client, requests, aiohttp, h11, node, nginx between, mesos-go."""
import functools
import json
import os
import re
import shutil
import subprocess
import sys
import tempfile
import time

from messages import SUBSCRIBE, call, launch, message, named, offer, offers, task
from runs import Framework, Skipped, case, expect
from support import TOP, free_port
from wire import LIMIT, PATH, request, text_of

FOLDER = os.path.join(os.path.dirname(os.path.abspath(__file__)), "clients")
ONE_OFFER = offers(offer("O1"))
# What the schedulers of clients/ print: ACCEPT, 3 of ACKNOWLEDGE, 200 of REVIVE, KILL and TEARDOWN.
PRINTED = "TASK_STARTING TASK_RUNNING TASK_KILLED\n206 202\nconnections %s\n"
JSON = ["-H", "Content-Type: application/json"]
# Where Debian's packages of Go have their sources.
GO_PATH = "/usr/share/gocode"
MESOS_GO = f"{GO_PATH}/src/github.com/mesos/mesos-go/api/v1/lib/extras/scheduler/controller"
NGINX = """
daemon off;
worker_processes 1;
pid %(folder)s/pid;
error_log %(folder)s/error_log;
events { worker_connections 256; }
http {
  access_log off;
  client_body_temp_path %(folder)s/a;
  proxy_temp_path %(folder)s/b;
  fastcgi_temp_path %(folder)s/c;
  uwsgi_temp_path %(folder)s/d;
  scgi_temp_path %(folder)s/e;
  upstream master { server 127.0.0.1:%(master)d; keepalive 8; }
  server {
    listen 127.0.0.1:%(port)d;
    location / { proxy_pass http://master; proxy_http_version 1.1; proxy_set_header Connection ""; proxy_buffering off; }
  }
}
"""


def run_words(words, **how):
    """Returns what was printed on both outputs, and the exit status."""
    ran = subprocess.run(words, stdin=subprocess.DEVNULL, capture_output=True, timeout=2 * LIMIT, check=False, **how)
    return ran.stdout.decode(), ran.stderr.decode(), ran.returncode


def program_of(*names):
    """Returns the path of the first of these programs that is there."""
    for name in names:
        if path := shutil.which(name):
            return path
    raise Skipped(f"{names[0]} is not installed")


@functools.cache
def python_with(module):
    """Returns a Python that has this module."""
    for python in (sys.executable, "/usr/bin/python3"):
        if os.path.exists(python) and run_words([python, "-c", f"import {module}"])[2] == 0:
            return python
    raise Skipped(f"no Python has {module}")


def run_scheduler(run, connections, *words):
    """Runs a scheduler of clients/ against a master with one offer."""
    master = run.master(events=ONE_OFFER)
    got = run_words([words[0], os.path.join(FOLDER, words[1]), str(master.port), *words[2:]], env=os.environ | {"PYTHONDONTWRITEBYTECODE": "1"})
    expect("what it prints", (PRINTED % connections, "", 0), got)


@case("a scheduler over http.client makes 206 calls on one connection while its stream is open")
def with_http_client(run):
    run_scheduler(run, 1, sys.executable, "with_http_client.py")


@case("a scheduler over requests.Session makes 206 calls on one connection while its stream is open")
def with_requests(run):
    run_scheduler(run, 1, python_with("requests"), "with_requests.py")


@case("a scheduler over h11 makes 206 calls on one connection while its stream is open")
def with_h11(run):
    run_scheduler(run, 1, python_with("h11"), "with_h11.py")


@case("a scheduler over aiohttp makes 206 calls, 60 at once, on a pool while its stream is open")
def with_aiohttp(run):
    # The stream has one of 64 places.
    run_scheduler(run, "at most 60", python_with("aiohttp"), "with_aiohttp.py")


@case("a scheduler over node's agent makes 206 calls on one connection while its stream is open")
def with_node(run):
    run_scheduler(run, 1, program_of("node", "nodejs"), "with_node.js")


@case("a scheduler over node's fetch makes 206 calls while its stream is open")
def with_node_fetch(run):
    node = program_of("node", "nodejs")
    if run_words([node, "-e", "fetch"])[2]:
        raise Skipped("this node has no fetch")
    run_scheduler(run, "kept", node, "with_node.js", "fetch")


def curl(*words):
    """Returns what curl prints, and its exit status."""
    out, _, status = run_words([program_of("curl"), "-s", "-m", str(LIMIT), "--noproxy", "*", *words])
    return out, status


@case("curl makes calls on one connection, kept from one --next to the other")
def with_curl(run):
    master, framework = run.framework()
    url, one = f"http://127.0.0.1:{master.port}{PATH}", []
    for _ in range(5):
        one += ["--next"] if one else []
        fields = [*JSON, "-H", f"Mesos-Stream-Id: {framework.stream.id}", "-d", text_of(call("REVIVE", framework.id))]
        one += ["-s", "-m", str(LIMIT), "-o", "/dev/null", "-w", "%{http_code} %{num_connects}\n", *fields, url]
    expect("the statuses and the new connections", ("202 1\n" + 4 * "202 0\n", 0), curl(*one))
    expect("HTTP/1.0", ("202", 0), curl("-0", "-o", "/dev/null", "-w", "%{http_code}", *fields, url))


@case("curl prints the events of a stream as they come, until TEARDOWN ends it")
def curl_subscribes(run):
    master = run.master(events=ONE_OFFER)
    url = f"http://127.0.0.1:{master.port}{PATH}"
    words = [program_of("curl"), "-s", "-m", str(LIMIT), "--noproxy", "*", "--no-buffer", "-D", "/dev/stderr", *JSON, "-d", text_of(SUBSCRIBE), url]
    running = subprocess.Popen(words, stdin=subprocess.DEVNULL, stdout=subprocess.PIPE, stderr=subprocess.PIPE)
    try:
        head = b""
        while not head.endswith(b"\r\n\r\n"):
            head += running.stderr.readline() or b"\r\n\r\n"
        stream = head.lower().split(b"mesos-stream-id:")[1].split()[0].decode()
        got = [read_record(running.stdout) for _ in range(3)]
        expect("the first events", ["SUBSCRIBED", "HEARTBEAT", "OFFERS"], [it["type"] for it in got])
        framework = got[0]["subscribed"]["framework_id"]["value"]
        expect("a TEARDOWN", ("202", 0), curl("-w", "%{http_code}", *JSON, "-H", f"Mesos-Stream-Id: {stream}", "-d", text_of(call("TEARDOWN", framework)), url))
        expect("what follows, and its exit status", (b"", 0), (running.stdout.read(), running.wait(LIMIT)))
    finally:
        running.kill()
        running.communicate()


def read_record(file):
    return json.loads(file.read(int(file.readline())))


@case("curl with a body above 1 MiB, for which it expects 100-continue, gets the 400")
def curl_expects(run):
    master = run.master()
    with tempfile.NamedTemporaryFile() as file:
        file.write(b" " * 1_100_000)
        file.flush()
        words = ["-o", "/dev/null", "-w", "%{http_code}", *JSON, "--data-binary", f"@{file.name}", f"http://127.0.0.1:{master.port}{PATH}"]
        expect("the status", ("400", 0), curl(*words))


@case("`mesosev subscribe` prints the events of a stream, until TEARDOWN ends it")
def with_subscribe(run):
    master = run.master(events=ONE_OFFER)
    words = [run.program, "subscribe", "--to", f"127.0.0.1:{master.port}", "--user", "u", "--name", "n"]
    running = subprocess.Popen(words, stdin=subprocess.DEVNULL, stdout=subprocess.PIPE, bufsize=0)
    try:
        got = b""
        while got.count(b"\n") < 4:
            got += running.stdout.read(1) or b"\n\n\n\n"
        expect("the first lines", ['1 SUBSCRIBED "F1" 15.0', "2 HEARTBEAT", "3 OFFERS 1", '  "O1" "A1" "h" 2'], got.decode().splitlines())
    finally:
        running.kill()
        running.communicate()
    framework = Framework(master.port)
    framework.do("TEARDOWN")
    expect("the event after it", "OFFERS", framework.stream.next()["type"])


@case("nginx between: a stream, calls on connections that it keeps, a take-over and TEARDOWN")
def with_nginx(run):
    nginx = program_of("nginx", "/usr/sbin/nginx")
    master = run.master(events=ONE_OFFER)
    with tempfile.TemporaryDirectory(prefix="mesosev-nginx-") as folder:
        values = {"folder": folder, "master": master.port, "port": free_port()}
        with open(os.path.join(folder, "conf"), "w", encoding="ascii") as file:
            file.write(NGINX % values)
        words = [nginx, "-p", folder, "-c", os.path.join(folder, "conf"), "-e", os.path.join(folder, "error_log")]
        running = subprocess.Popen(words, stdin=subprocess.DEVNULL, stdout=subprocess.DEVNULL, stderr=subprocess.DEVNULL)
        try:
            use_proxy(values["port"])
        finally:
            running.terminate()
            running.wait(LIMIT)


def use_proxy(port):
    """Runs a task through a proxy at this port."""
    first = connect_to(port)
    first.read_offers("O1")
    second = Framework(port)
    expect("the last event of the first", "Framework failed over", first.next()["error"]["message"])
    expect("its end", None, first.next())
    second.read_offers("O1-2")
    second.run_tasks(["O1-2"], task("T1"))
    for number in range(50):
        second.do("MESSAGE", message(number))
        expect("an echo", message(number), second.next()["message"])
    second.do("KILL", {"task_id": named("T1")})
    second.step("T1", "TASK_KILLED")
    second.read_offers("O1-3")
    second.do("TEARDOWN")
    expect("the end of the second", None, second.next())


def connect_to(port):
    """Returns a framework that subscribes through a proxy, once it listens."""
    for _ in range(500):
        try:
            return Framework(port)
        except ConnectionRefusedError:
            time.sleep(0.02)
    raise Skipped("nginx does not run here")


@case("a scheduler over mesos-go's controller: subscribes, launches two tasks, acknowledges, kills, reconciles, tears down")
def with_mesos_go(run):
    go = program_of("go")
    if not os.path.isdir(MESOS_GO):
        raise Skipped("the package golang-github-mesos-mesos-go-dev is not installed")
    master = run.master(events=offers(offer("O1"), offer("O2", "A2")))
    with tempfile.TemporaryDirectory(prefix="mesosev-go-") as folder:
        environment = os.environ | {"GO111MODULE": "off", "GOPATH": GO_PATH, "GOFLAGS": "", "GOCACHE": os.path.join(folder, "cache")}
        built = os.path.join(folder, "scheduler")
        ran = subprocess.run([go, "build", "-o", built, os.path.join(FOLDER, "scheduler.go")], env=environment, capture_output=True, timeout=600, check=False)
        expect("the build", ("", 0), (ran.stderr.decode(), ran.returncode))
        out, err, status = run_words([built, f"http://127.0.0.1:{master.port}{PATH}"])
    expect("its errors and its status", ("", 0), (err, status))
    expect_go_lines(out.splitlines())


def expect_go_lines(lines):
    """Expects the lines of the scheduler in Go: those of two tasks may come in any order."""
    of_task = {name: [line.split()[2] for line in lines if line.startswith(f"UPDATE {name} ")] for name in ("T1", "T2")}
    expect("the states of T1", ["TASK_STARTING", "TASK_RUNNING", "TASK_KILLED"], of_task["T1"])
    expect("the states of T2, the last one reconciled", ["TASK_STARTING", "TASK_RUNNING", "TASK_RUNNING"], of_task["T2"])
    expect("the first lines", ["SUBSCRIBED", "OFFERS 2"], lines[:2])
    expect("the last lines", ["stream ended: <nil>", "end: <nil>"], lines[-2:])


@case("the scheduler of examples/scheduler_loop.py runs a task on the first offer, and ends with its stream")
def with_the_example(run):
    with open(os.path.join(TOP, "examples/offers.recordio"), encoding="ascii") as file:
        master = run.master("--once", events=file.read())
    got = run_words([sys.executable, os.path.join(TOP, "examples/scheduler_loop.py"), f"127.0.0.1:{master.port}"])
    expect("what it prints, its errors and its status", ("task-O1 TASK_STARTING\ntask-O1 TASK_RUNNING\n", "", 0), got)
    expect("the exit status of the master", 0, master.wait(15))
    calls = ["200 SUBSCRIBE", "202 ACCEPT", "202 DECLINE", "202 ACKNOWLEDGE", "202 ACKNOWLEDGE", "202 TEARDOWN"]
    expect("the last line comes", True, master.wait_for_line(lambda line: line.endswith(" ended teardown"), 10))
    expect("the calls", calls, [line for line in master.lines if re.match(r"\d", line)])
