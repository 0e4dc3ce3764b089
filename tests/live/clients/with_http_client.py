"""A scheduler over `http.client`, with one connection for its calls: with_http_client.py PORT."""
import http.client
import json
import sys

from common import PATH, SUBSCRIBE, Scheduler

JSON = {"Content-Type": "application/json"}
opened = 0


class Counted(http.client.HTTPConnection):
    def connect(self):
        global opened
        opened += 1
        super().connect()


def post(connection, call, fields):
    connection.request("POST", PATH, json.dumps(call), JSON | fields)
    return connection.getresponse()


def send(call):
    response = post(calls, call, fields)
    response.read()
    return response.status


first, calls = (Counted("127.0.0.1", int(sys.argv[1]), timeout=20) for _ in range(2))
stream = post(first, SUBSCRIBE, {})
fields = {"Mesos-Stream-Id": stream.getheader("Mesos-Stream-Id")}
scheduler = Scheduler()
scheduler.run(iter(lambda: stream.read1(), b""), send)
scheduler.print_end(opened - 1)
