"""A scheduler over `requests.Session`, whose pool keeps connections: with_requests.py PORT."""
import sys

import requests
import urllib3.connection
from common import PATH, SUBSCRIBE, Scheduler

connect = urllib3.connection.HTTPConnection.connect
opened = 0


def counted(connection):
    global opened
    opened += 1
    return connect(connection)


urllib3.connection.HTTPConnection.connect = counted
url = f"http://127.0.0.1:{sys.argv[1]}{PATH}"
session = requests.Session()
session.trust_env = False
stream = session.post(url, json=SUBSCRIBE, stream=True, timeout=20)
fields = {"Mesos-Stream-Id": stream.headers["Mesos-Stream-Id"]}
scheduler = Scheduler()
scheduler.run(stream.iter_content(None), lambda call: session.post(url, json=call, headers=fields, timeout=20).status_code)
scheduler.print_end(opened - 1)
