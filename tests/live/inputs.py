"""Cases of standard input and output: files, pipes that stay open, readers that stop, and what is printed."""
import os
import re
import signal
import subprocess
import tempfile
import time

from messages import call, event, launch, message, named, offer, offers, records, states, task
from runs import Failed, Framework, case, expect
from wire import LIMIT, Broken, Connection, request

REVIVE = request(call("REVIVE"), "s1")
UUID = "AAECAwQFBgcICQoLDA0ODw=="
STATUS = {"task_id": named("T7"), "state": "TASK_RUNNING", "agent_id": named("A7"), "uuid": UUID}


@case("standard input may be a file, a pipe that stays open, a pipe that ended, /dev/null, or closed")
def kinds_of_input(run):
    for kind, has_offer in (("file", True), ("pipe", True), ("null", False), ("closed", False)):
        _, framework = run.framework(events=offers(offer("O1")), stdin=kind)
        if has_offer:
            framework.read_offers("O1")
        else:
            framework.expect_nothing(0.5)
        framework.do("REVIVE")


@case("standard input may be a terminal")
def terminal(run):
    ours, theirs = os.openpty()
    try:
        _, framework = run.framework(stdin=theirs)
        framework.do("REVIVE")
    finally:
        os.close(ours)
        os.close(theirs)


@case("when a pipe of the input ends the master goes on")
def pipe_that_ends(run):
    master, framework = run.framework(events=offers(offer("O1")), stdin="pipe")
    master.running.stdin.close()
    framework.read_offers("O1")
    framework.run_tasks(["O1"], task("T1"))


@case("events of a pipe go out on the current stream while the master runs: MESSAGE, FAILURE, ERROR, UPDATE, and of an unknown type")
def events_while_it_runs(run):
    master, framework = run.framework(stdin="pipe")
    given = [
        event("MESSAGE", **message(1)),
        event("FAILURE", agent_id=named("A1")),
        event("ERROR", message="m"),
        event("UPDATE", status=STATUS),
        event("UPDATE", status={"task_id": named("T8"), "state": "TASK_LOST"}),
        event("INVERSE_OFFERS"),
    ]
    for it in given:
        master.feed(records(it))
        expect("the event", it, framework.next(15))
    framework.do("REVIVE")


@case("a record of the input is taken in any pieces")
def input_in_pieces(run):
    master, framework = run.framework(stdin="pipe")
    text = records(event("MESSAGE", **message(1)), event("MESSAGE", **message(2)))
    for byte in text:
        master.feed(byte)
        time.sleep(0.002)
    expect("the events", [message(1), message(2)], [framework.next()["message"] for _ in range(2)])


@case("events of the input that come without a stream go out on the next one, in order")
def events_between_streams(run):
    master, framework = run.framework("--heartbeat", "1", stdin="pipe")
    revive = framework.bytes_of("REVIVE")
    framework.stream.reset()
    expect("the stream is gone", "403", master.wait_for_status(revive, "403", 5))
    given = [event("MESSAGE", **message(number)) for number in range(5)]
    master.feed(records(*given))
    time.sleep(0.3)
    second = Framework(master.port)
    expect("the events", given, [second.next() for _ in given])
    third = Framework(master.port)
    third.expect_nothing(0.5)


@case("a fault of the input ends the run: the events before it go out, its line is printed, and the status is 1")
def fault_of_the_input(run):
    for _ in range(8):
        master, framework = run.framework(stdin="pipe")
        before, text = event("ERROR", message="m"), records(event("ERROR", message="m"))
        master.feed(text + "2\n{}" + records(event("ERROR", message="n")))
        expect("the event before the fault", before, framework.next())
        expect("the exit status", 1, master.wait(15))
        line = f"fault F12 Field record 2 type Missing after {len(text) + 4}"
        expect("its line", True, master.wait_for_line(lambda it: it == line, 5) or master.lines)


@case("a fault of a file as the input is the only line, and the status is 1")
def fault_of_a_file(run):
    with tempfile.TemporaryFile() as file:
        file.write(b"0\n")
        file.seek(0)
        ran = subprocess.run([run.program, "master", "--port", "0"], stdin=file, capture_output=True, timeout=LIMIT, check=False)
    expect("what is printed", (b"fault F11 Text record 1 byte 0 End after 2\n", b"", 1), (ran.stdout, ran.stderr, ran.returncode))


@case("an UPDATE of the input that requires an acknowledgement comes again on a new stream, until it is acknowledged")
def update_of_the_input(run):
    update = event("UPDATE", status=STATUS)
    master, framework = run.framework("--resend", "0", events=records(update))
    expect("the event", update, framework.next())
    second = Framework(master.port)
    expect("the event on a new stream", update, second.next())
    second.do("RECONCILE", {"tasks": [{"task_id": named("T7")}]})
    expect("what RECONCILE says of it", [("T7", "TASK_RUNNING")], states([second.next()]))
    second.acknowledge(STATUS)
    Framework(master.port).expect_nothing(0.5)


@case("an UPDATE of the input that requires an acknowledgement is sent again after --resend seconds")
def update_of_the_input_again(run):
    update = event("UPDATE", status=STATUS)
    _, framework = run.framework("--resend", "1", events=records(update))
    expect("the events", 3 * [update], [framework.next() for _ in range(3)])
    framework.acknowledge(STATUS)


@case("an input of 20 MB, of a file or of a pipe that stays open, goes out whole and in order")
def large_input(run):
    given = [event("MESSAGE", agent_id=named(f"A{number}"), executor_id=named("E1"), data=100_000 * "AAAA") for number in range(50)]
    for kind in ("file", "pipe"):
        _, framework = run.framework(events=records(*given), stdin=kind)
        for it in given:
            expect(f"a message of a {kind}", it, framework.next())


@case("the first line says the port, and a connection is accepted from then on")
def first_line(run):
    for _ in range(5):
        expect("the status of a call", "403", run.master().ask(REVIVE))


@case("--port P listens on that port, and a port that is held is reported")
def given_port(run):
    master = run.master()
    words = [run.program, "master", "--port", str(master.port)]
    ran = subprocess.run(words, stdin=subprocess.DEVNULL, capture_output=True, timeout=LIMIT, check=False)
    expect("what is printed", ("net bind failed\n", "", 1), (ran.stdout.decode(), ran.stderr.decode(), ran.returncode))
    port = master.port
    master.end()
    running = subprocess.Popen([*words], stdin=subprocess.DEVNULL, stdout=subprocess.PIPE)
    try:
        expect("the first line", f"listening on 127.0.0.1:{port}\n", running.stdout.readline().decode())
        expect("the status of a call", "403", Connection(port).ask(REVIVE))
    finally:
        running.kill()
        running.communicate()


@case("each call that gets a response has a line: its status and its type")
def lines_of_calls(run):
    master, framework = run.framework()
    framework.do("REVIVE")
    master.ask(request(call("SUPPRESS", framework.id), "s1"))
    master.ask(request(call("SUPPRESS", "F9"), framework.stream.id))
    master.ask(request(b"{}"))
    master.ask(request(b"", path="/x"))
    master.ask(request(b"", method="GET"))
    framework.do("KILL", {"task_id": named("T9")})
    wanted = ["200 SUBSCRIBE", "202 REVIVE", "400 SUPPRESS", "403 SUPPRESS", "400 -", "404 -", "405 -", "202 KILL"]
    master.wait_for_line(lambda line: line.startswith("202 KILL"))
    got = [line for line in master.lines if re.match(r"[\d-]+ [A-Z-]+", line)]
    expect("the lines of the calls", wanted, [" ".join(line.split(" ")[:2]) for line in got])


@case("a reader of the lines that stops does not stop the connections; the lines that were dropped are counted")
def reader_that_stops(run):
    master = run.master(is_read=False)
    connection, batch, count = master.connect(), 200, 40_000
    for _ in range(0, count, batch):
        connection.send(batch * REVIVE)
        expect("the statuses", batch * ["403"], [connection.read_response().status for _ in range(batch)])
    text, line = b"", b""
    os.set_blocking(master.running.stdout.fileno(), False)
    until = time.monotonic() + 5
    while time.monotonic() < until and not re.search(rb"(?m)^.*dropped.*\n", text):
        text += master.running.stdout.read(1 << 16) or b""
        expect("a call", "403", connection.ask(REVIVE))
        count += 1
    while time.monotonic() < until and (more := master.running.stdout.read(1 << 16)):
        text += more
    lines = text.decode().splitlines()
    counts = [line for line in lines if "dropped" in line]
    expect("a line has the count", True, bool(counts) or lines[-5:])
    dropped = sum(int(re.search(r"\d+", line)[0]) for line in counts)
    calls = sum(line == "403 REVIVE" for line in lines)
    expect("the lines of calls and those that were dropped", count, calls + dropped)
    expect("no line is cut", [], [line for line in lines if line != "403 REVIVE" and "dropped" not in line])


@case("a terminal that is not read does not stop the connections")
def terminal_that_is_not_read(run):
    reader, writer = os.openpty()
    running = subprocess.Popen([run.program, "master", "--port", "0"], stdin=subprocess.DEVNULL, stdout=writer)
    try:
        os.close(writer)
        line = b""
        while not line.endswith(b"\n"):
            line += os.read(reader, 1)
        connection, batch = Connection(int(re.search(rb":(\d+)", line)[1])), 200
        for _ in range(0, 20_000, batch):
            connection.send(batch * REVIVE)
            expect("the statuses", batch * ["403"], [connection.read_response().status for _ in range(batch)])
    finally:
        running.kill()
        running.wait()
        os.close(reader)


@case("a reader of the lines that has gone does not stop the connections")
def reader_that_has_gone(run):
    master = run.master(is_read=False)
    master.running.stdout.close()
    framework = Framework(master.port)
    for _ in range(100):
        framework.do("REVIVE")


@case("lines that can't be written, to a device without room, do not stop the connections")
def lines_to_a_full_device(run):
    # The port is found by trying, since the first line can't be written.
    with open("/dev/full", "wb") as full:
        port = run.master().port
        run.masters[0].end()
        words = [run.program, "master", "--port", str(port)]
        running = subprocess.Popen(words, stdin=subprocess.DEVNULL, stdout=full, stderr=subprocess.PIPE)
        try:
            until = time.monotonic() + LIMIT
            while True:
                try:
                    connection = Connection(port)
                    break
                except ConnectionRefusedError as error:
                    if time.monotonic() > until or running.poll() is not None:
                        raise Failed(f"it does not listen, status {running.poll()}") from error
                    time.sleep(0.02)
            expect("the statuses", 100 * ["403"], [connection.ask(REVIVE) for _ in range(100)])
        finally:
            running.kill()
            running.communicate()


@case("--seconds S: it ends after S seconds with status 0")
def seconds(run):
    begun = time.monotonic()
    master, framework = run.framework("--seconds", "2")
    expect("the exit status", 0, master.wait())
    expect("it ran for 2 s and ended then", True, 1.9 <= time.monotonic() - begun <= 20)
    expect("how its stream ends", True, framework.stream.read_rest()[1] in ("end", "reset"))


@case("--seconds S: it ends with connections that are busy, too")
def seconds_when_busy(run):
    begun = time.monotonic()
    master, framework = run.framework("--seconds", "2")
    try:
        while time.monotonic() - begun < 25:
            framework.do("REVIVE")
    except (OSError, Broken):
        pass
    expect("the exit status", 0, master.wait(15))
    expect("it ran for 2 s and ended then", True, 1.9 <= time.monotonic() - begun <= 20)


@case("--once: TEARDOWN gets 202, its stream the last chunk, and the master ends with status 0")
def once(run):
    master, framework = run.framework("--once", events=offers(offer("O1")))
    framework.read_offers("O1")
    framework.do("ACCEPT", launch(["O1"], task("T1")))
    framework.read_update("T1", "TASK_STARTING")
    framework.do("TEARDOWN")
    expect("the end of the stream", None, framework.next())
    expect("the exit status", 0, master.wait(15))


@case("without --once the master goes on after TEARDOWN")
def not_once(run):
    master, framework = run.framework()
    framework.do("TEARDOWN")
    time.sleep(1)
    expect("a call", "403", master.ask(framework.bytes_of("REVIVE")))
    expect("the exit status", None, master.running.poll())


@case("--once: a TEARDOWN that is refused does not end it")
def refused_teardown(run):
    master, framework = run.framework("--once")
    expect("a TEARDOWN on another stream", "400", master.ask(request(call("TEARDOWN", framework.id), "s1")))
    expect("a TEARDOWN of another framework", "403", master.ask(request(call("TEARDOWN", "F9"), framework.stream.id)))
    time.sleep(0.5)
    framework.do("REVIVE")


@case("SIGTERM and SIGINT end it at once")
def signals(run):
    for number in (signal.SIGTERM, signal.SIGINT):
        master, framework = run.framework(stdin="pipe")
        framework.do("REVIVE")
        master.running.send_signal(number)
        expect(f"the exit status after {number}", True, master.wait(5) in (-number, 128 + number, 0))


@case("a usage error: status 2, and a text on standard error alone that begins with 'error: '")
def usage_errors(run):
    rows = [
        "", "--port", "--port x", "--port -1", "--port 65536", "--port 0 --port 0", "--port 0 x", "--count 1",
        "--port 0 --count 1", "--port 0 --stream s", "--port 0 --chunked", "--port 0 --limit 1", "--port 0 --once=1", "--port 0 --once --once",
        *(f"--port 0 --{name} {value}" for name in ("heartbeat", "resend", "finish-after", "seconds", "most", "faults", "seed") for value in ("", "x", "-1", "1.5", 2**64)),
        "--port 0 --heartbeat 0", "--port 0 --most 0", "--port 0 --most 16777217", "--port 0 --heartbeat 1 --heartbeat 1",
    ]
    for row in rows:
        words = [run.program, "master", *row.split()]
        ran = subprocess.run(words, stdin=subprocess.DEVNULL, capture_output=True, timeout=LIMIT, check=False)
        got = ran.stdout.decode(), ran.stderr.decode()[:7], ran.returncode
        expect(f"master {row}", ("", "error: ", 2), got)


@case("master --help has each option, and --version the version")
def help_and_version(run):
    names = ["port", "heartbeat", "resend", "finish-after", "seconds", "most", "fault", "faults", "seed", "once", "help", "version"]
    ran = subprocess.run([run.program, "master", "--help"], stdin=subprocess.DEVNULL, capture_output=True, timeout=LIMIT, check=False)
    found = sorted(re.findall(r"^ +(?:-\w, )?--([a-z-]+)", ran.stdout.decode(), re.MULTILINE))
    expect("the options and the status", (sorted(names), 0), (found, ran.returncode))
    ran = subprocess.run([run.program, "master", "--version"], stdin=subprocess.DEVNULL, capture_output=True, timeout=LIMIT, check=False)
    expect("the version", (b"mesosev-master 0.1.0\n", b"", 0), (ran.stdout, ran.stderr, ran.returncode))
