"""Generates seeded streams of events, formatted as a Mesos master formats them.

A set is a kind of stream. A size is the least number of bytes of its records with their size lines.
The same set, size and seed give the same bytes. The first 8 MB are generated; a longer stream
repeats those records.
"""

import base64
import json
import random
import string

SETS = {
    "heartbeats": "HEARTBEAT, and now and then an update or an offer",
    "offers": "OFFERS of 1 to 50 offers each",
    "updates": "UPDATE with uuid, data and members that are dropped",
    "large": "records near 4 MB: thousands of offers, or one MESSAGE",
    "tiny": "records of 20 to 150 bytes",
    "texts": "escapes and texts that are not ASCII",
}

# The size of a chunk in bytes; None is RecordIO without chunks.
FRAMINGS = {"plain": None, "chunks-1": 1, "chunks-4096": 4_096, "chunks-65536": 65_536}

FRESH_BYTES = 8_000_000
LIMIT = 4_194_304
HEARTBEAT = {"type": "HEARTBEAT"}
UTF_8 = json.JSONEncoder(separators=(",", ":"), ensure_ascii=False)
ASCII = json.JSONEncoder(separators=(",", ":"), ensure_ascii=True)

STATES = ["TASK_RUNNING"] * 10 + ["TASK_STARTING"] * 4 + ["TASK_STAGING"] * 3 + ["TASK_FINISHED"] * 3 + [
    "TASK_FAILED", "TASK_KILLED", "TASK_KILLING", "TASK_LOST", "TASK_UNREACHABLE", "TASK_GONE"]
MESSAGES = ["Command exited with status 0", "Command terminated with signal Killed", "Container exited with status 137",
            "Reconciliation: Latest task state",
            "Memory limit exceeded: Requested: 512MB Maximum Used: 512MB\n\nMEMORY STATISTICS:\ncache 4096\nrss 536866816\n"]
WORDS = ["agent", "lost", "exit=137", "ok", "/var/lib/mesos", "C:\\logs", "\"quoted\"", "tab\there", "line\nfeed", "bell\u0007",
         "Größe", "naïve", "Ελλάδα", "файл", "не найден", "مهمة", "容器", "启动失败", "コンテナ", "🙂", "👩\u200d💻", "\u2028"]


class Cluster:
    """A framework, its agents, and the events that their master sends."""

    def __init__(self, seed):
        self.random = random.Random(seed)
        self.master = self.uuid()
        self.framework = {"value": self.uuid() + "-0001"}
        self.agents = []
        for number in range(300):
            address = "10.%d.%d.%d" % tuple(self.random.randrange(1, 255) for _ in range(3))
            host = "node-%03d.rack%02d.example.internal" % (number, number % 24)
            self.agents.append(({"value": "%s-S%d" % (self.master, number)}, host, address))
        self.offers_made = 0
        self.clock = 1_750_000_000.0

    def uuid(self):
        digits = "%032x" % self.random.getrandbits(128)
        return "-".join((digits[:8], digits[8:12], digits[12:16], digits[16:20], digits[20:]))

    def bytes(self, count):
        return base64.b64encode(self.random.randbytes(count)).decode()

    def word(self, length):
        return "".join(self.random.choices(string.ascii_lowercase, k=length))

    def often(self, share):
        return self.random.random() < share

    def subscribed(self):
        return {"type": "SUBSCRIBED", "subscribed": {
            "framework_id": self.framework, "heartbeat_interval_seconds": 15.0,
            "master_info": {"id": self.master, "hostname": "master-1", "ip": 16777343, "port": 5050,
                            "address": {"hostname": "master-1", "ip": "127.0.0.1", "port": 5050}}}}

    def offers(self, count):
        return {"type": "OFFERS", "offers": {"offers": [self.offer() for _ in range(count)]}}

    def offer(self):
        agent, host, address = self.random.choice(self.agents)
        self.offers_made += 1
        role = {"role": self.random.choice(("*", "web", "batch"))}
        offer = {"id": {"value": "%s-O%d" % (self.master, self.offers_made)}, "framework_id": self.framework,
                 "agent_id": agent, "hostname": host,
                 "url": {"scheme": "http", "path": "/slave(1)", "query": [],
                         "address": {"hostname": host, "ip": address, "port": 5051}},
                 "domain": {"fault_domain": {"region": {"name": "north"}, "zone": {"name": "north-2"}}},
                 "resources": self.resources(role), "allocation_info": role}
        if self.often(0.8):
            offer["attributes"] = self.attributes()
        if self.often(0.2):
            offer["executor_ids"] = [{"value": "executor-" + self.word(8)} for _ in range(self.random.randrange(1, 4))]
        if self.often(0.05):
            offer["unavailability"] = {"start": {"nanoseconds": 1_750_003_600_000_000_000}}
        return offer

    def resources(self, role):
        scalars = (("cpus", self.random.randrange(1, 640) / 10), ("mem", float(self.random.randrange(64, 262_144))),
                   ("disk", self.random.randrange(1_024, 4_000_000) / 4))
        resources = [self.scalar(name, value, role) for name, value in scalars]
        ranges, begin = [], 31_000
        for _ in range(self.random.randrange(1, 8)):
            begin += self.random.randrange(2, 60)
            end = begin + self.random.randrange(0, 80)
            ranges.append({"begin": begin, "end": end})
            begin = end
        resources.append({"name": "ports", "type": "RANGES", "ranges": {"range": ranges}, "role": "*", "allocation_info": role})
        if self.often(0.3):
            resources += self.reserved(role)
        if self.often(0.1):
            items = ["gpu-" + self.word(4) for _ in range(self.random.randrange(1, 5))]
            resources.append({"name": "devices", "type": "SET", "set": {"item": items}, "role": "*", "allocation_info": role})
        if self.often(0.1):
            resources.append(self.scalar("cpus", 0.5, role) | {"revocable": {}})
        return resources

    def scalar(self, name, value, role):
        return {"name": name, "type": "SCALAR", "scalar": {"value": value}, "role": "*", "allocation_info": role}

    def reserved(self, role):
        principal = self.random.choice(("web", "kafka", "cassandra")) + "-principal"
        labels = {"labels": [{"key": "resource_id", "value": self.uuid()}, {"key": "pod", "value": self.word(12)}]}
        more = {"reservations": [{"type": "DYNAMIC", "role": "web", "principal": principal, "labels": labels}]}
        disk = {"persistence": {"id": self.uuid(), "principal": principal}, "volume": {"mode": "RW", "container_path": "data"},
                "source": {"type": "MOUNT", "mount": {"root": "/mnt/disk%d" % self.random.randrange(8)}}}
        return [self.scalar("cpus", self.random.randrange(1, 40) / 4, role) | more,
                self.scalar("disk", float(self.random.randrange(1_024, 99_999)), role) | more | {"disk": disk}]

    def attributes(self):
        attributes = [{"name": "rack", "type": "TEXT", "text": {"value": "rack%02d" % self.random.randrange(24)}},
                      {"name": "generation", "type": "SCALAR", "scalar": {"value": float(self.random.randrange(1, 9))}}]
        if self.often(0.3):
            attributes.append({"name": "numa", "type": "RANGES", "ranges": {"range": [{"begin": 0, "end": 3}]}})
        return attributes

    def update(self):
        agent, _, address = self.random.choice(self.agents)
        task = "%s.%s" % (self.random.choice(("cart", "search", "mail", "ledger")), self.uuid())
        self.clock += self.random.randrange(1, 2_000_000) / 1e6
        status = {"task_id": {"value": task}, "state": self.random.choice(STATES), "source": "SOURCE_EXECUTOR",
                  "agent_id": agent, "executor_id": {"value": task}, "timestamp": round(self.clock, 6)}
        if self.often(0.4):
            status["message"] = self.random.choice(MESSAGES)
        if self.often(0.3):
            status["reason"] = self.random.choice(("REASON_RECONCILIATION", "REASON_CONTAINER_LIMITATION_MEMORY"))
        if self.often(0.4):
            status["data"] = self.bytes(self.random.choice((30, 120, 700)))
        if self.often(0.9):
            status["uuid"] = self.bytes(16)
        if self.often(0.3):
            status["healthy"] = self.often(0.9)
        if self.often(0.7):
            ports = [{"host_port": self.random.randrange(31_000, 32_000), "container_port": 8080, "protocol": "tcp"}]
            status["container_status"] = {
                "container_id": {"value": self.uuid()}, "executor_pid": self.random.randrange(300, 65_000),
                "network_infos": [{"ip_addresses": [{"protocol": "IPv4", "ip_address": address}], "port_mappings": ports}]}
        return {"type": "UPDATE", "update": {"status": status}}

    def rescind(self):
        number = self.random.randrange(1, 100_000)
        return {"type": "RESCIND", "rescind": {"offer_id": {"value": "%s-O%d" % (self.master, number)}}}

    def message(self, count):
        agent = self.random.choice(self.agents)[0]
        return {"type": "MESSAGE", "message": {"agent_id": agent, "executor_id": {"value": "executor-" + self.word(8)},
                                               "data": self.bytes(count)}}

    def failure(self):
        failure = {"agent_id": self.random.choice(self.agents)[0]}
        if self.often(0.5):
            failure |= {"executor_id": {"value": "executor-" + self.word(8)}, "status": self.random.choice((0, 9, 256, -1))}
        return {"type": "FAILURE", "failure": failure}

    def error(self, count):
        return {"type": "ERROR", "error": {"message": " ".join(self.random.choices(WORDS, k=count))}}

    def with_text(self):
        if self.often(0.4):
            return self.error(self.random.choice((5, 30, 200)))
        event = self.update()
        event["update"]["status"]["message"] = " ".join(self.random.choices(WORDS, k=self.random.choice((5, 60, 400))))
        return event

    def many_offers(self, limit):
        """Returns the text of an OFFERS of at most `limit` bytes, and not much less."""
        texts, length = [], 41
        while True:
            text = json_text(self.offer())
            if texts and length + len(text) + 1 > limit:
                return b'{"type":"OFFERS","offers":{"offers":[' + b",".join(texts) + b"]}}"
            texts.append(text)
            length += len(text) + 1


def json_text(event, encoder=UTF_8):
    """Returns the event as a JSON text. A master escapes the solidus."""
    return encoder.encode(event).replace("/", "\\/").encode()


def one_record(cluster, name, number, room):
    """Returns the record with this number (from 0) of a set; `room` bytes are left to fill."""
    chance = cluster.random.random()
    if name == "heartbeats":
        return json_text(HEARTBEAT if chance < 0.98 else cluster.update() if chance < 0.99 else cluster.offers(1))
    if name == "offers":
        return json_text(cluster.offers(cluster.random.randrange(1, 51)))
    if name == "updates":
        return json_text(cluster.update())
    if name == "large":
        limit = min(LIMIT, max(room, 20_000))
        # Base64 with escaped solidi turns 7 bytes into about 9.5.
        return json_text(cluster.message(limit * 7 // 10)) if number % 2 else cluster.many_offers(limit)
    if name == "tiny":
        return json_text(HEARTBEAT if chance < 0.5 else cluster.rescind() if chance < 0.75 else cluster.failure() if chance < 0.9
                     else cluster.error(1))
    return json_text(cluster.with_text(), ASCII if chance < 0.4 else UTF_8)


def framed_records(name, size, seed):
    """Yields records of a set with their size lines, of at least `size` bytes in total."""
    cluster = Cluster("%s %d" % (name, seed))
    kept, kept_bytes, made, number = [], 0, 0, 0
    while made < size:
        if kept_bytes < FRESH_BYTES:
            begins = number == 0 and name != "large"
            record = json_text(cluster.subscribed()) if begins else one_record(cluster, name, number, size - made)
            kept.append(b"%d\n" % len(record) + record)
            kept_bytes += len(kept[-1])
        framed = kept[number % len(kept)]
        made += len(framed)
        number += 1
        yield framed


class Framer:
    """Writes a body to a file, in chunks of `chunk` bytes, or without chunks for None."""

    def __init__(self, file, chunk):
        self.file, self.chunk, self.held = file, chunk, bytearray()

    def write(self, data):
        self.held += data
        if len(self.held) > 1 << 20:
            self.flush(len(self.held) // self.chunk * self.chunk if self.chunk else len(self.held))

    def flush(self, count):
        body = self.held[:count]
        del self.held[:count]
        if self.chunk is None:
            self.file.write(body)
        elif self.chunk == 1:
            chunks = bytearray(b"1\r\n.\r\n" * len(body))
            chunks[3::6] = body
            self.file.write(chunks)
        else:
            for start in range(0, len(body), self.chunk):
                data = body[start:start + self.chunk]
                self.file.write(b"%x\r\n" % len(data) + data + b"\r\n")

    def close(self):
        self.flush(len(self.held))
        if self.chunk is not None:
            self.file.write(b"0\r\n\r\n")


def write_stream(file, name, size, framing, seed):
    """Writes a stream. Returns the number of events, and of bytes of its records."""
    framer = Framer(file, FRAMINGS[framing])
    events = body = 0
    for framed in framed_records(name, size, seed):
        framer.write(framed)
        events += 1
        body += len(framed)
    framer.close()
    return events, body
