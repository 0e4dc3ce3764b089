"""Messages of each type for tests/lines.py: a text of one line, the value of its canonical text, and what `show` prints.

The texts have unknown members, members in any order, escapes, white space and numbers in other spellings. The values have
their members in the order of the tables of docs/FORMAT.md.
"""


def named(name):
    return {"value": name}


def scalar(name, value, **more):
    return {"name": name, "type": "SCALAR", "scalar": {"value": value}, **more}


UUID = "AAECAwQFBgcICQoLDA0ODw=="
HYPHENATED = "00010203-0405-0607-0809-0a0b0c0d0e0f"
A1, E1, F1, O1, T1 = (named(name) for name in ("A1", "E1", "F1", "O1", "T1"))


def framed(kind, body=None, framework=F1):
    """Returns a call of the framework with this body, if there is one."""
    return {"type": kind, **({"framework_id": framework} if framework else {}), **({kind.lower(): body} if body is not None else {})}


# For each type: the text, its value, and the printed lines without the number of the first.
EVENTS = [
    (
        '{"subscribed":{"heartbeat_interval_seconds":15,"x":[1,{"y":null}],"framework_id":{"value":"F1"}},"type":"SUBSCRIBED"}',
        {"type": "SUBSCRIBED", "subscribed": {"framework_id": F1, "heartbeat_interval_seconds": 15.0}},
        'SUBSCRIBED "F1" 15.0\n',
    ),
    # An absent member, which may be null. Seconds are rounded to the nearest microsecond, a half upwards.
    (
        '{"type":"SUBSCRIBED","subscribed":{"framework_id":{"value":"F1"},"heartbeat_interval_seconds":null}}',
        {"type": "SUBSCRIBED", "subscribed": {"framework_id": F1}},
        'SUBSCRIBED "F1" -\n',
    ),
    (
        '{"type":"SUBSCRIBED","subscribed":{"framework_id":{"value":""},"heartbeat_interval_seconds":1.0000005}}',
        {"type": "SUBSCRIBED", "subscribed": {"framework_id": named(""), "heartbeat_interval_seconds": 1.000001}},
        'SUBSCRIBED "" 1.000001\n',
    ),
    # An array of offers, and all kinds of resources and attributes in its object.
    ('{"type":"OFFERS","offers":[]}', {"type": "OFFERS", "offers": {}}, "OFFERS 0\n"),
    (
        '{"type":"OFFERS","offers":[{"hostname":"h","agent_id":{"value":"A1"},"framework_id":{"value":"F1"},"id":{"value":"O1"}}]}',
        {"type": "OFFERS", "offers": {"offers": [{"id": O1, "framework_id": F1, "agent_id": A1, "hostname": "h"}]}},
        'OFFERS 1\n  "O1" "A1" "h" 0\n',
    ),
    (
        '{"type":"OFFERS","offers":{"offers":[{"id":{"value":"O1"},"framework_id":{"value":"F1"},"agent_id":{"value":"A1"},"hostname":"h",'
        '"executor_ids":[{"value":"E1"}],"allocation_info":{"role":"web"},'
        '"attributes":[{"name":"rack","type":"TEXT","text":{"value":"r1"}},{"name":"zones","type":"SET","set":{"item":["z"]}}],'
        '"resources":[{"name":"cpus","type":"SCALAR","scalar":{"value":0.0005},"role":"*"},'
        '{"name":"mem","type":"SCALAR","scalar":{"value":25E-1},"revocable":{"x":1},"shared":null},'
        '{"name":"ports","type":"RANGES","ranges":{"range":[{"begin":3.0,"end":4e0}]},"scalar":"no member of RANGES"},'
        '{"name":"disk","type":"SCALAR","scalar":{"value":1e2},"disk":{"b" : 1.50,"a":[ ]},"provider_id":{"value":"P1"}}]},'
        '{"id":{"value":"O2"},"framework_id":{"value":"F1"},"agent_id":{"value":"A2"},"hostname":"i","resources":[]}]}}',
        {
            "type": "OFFERS",
            "offers": {
                "offers": [
                    {
                        "id": O1,
                        "framework_id": F1,
                        "agent_id": A1,
                        "hostname": "h",
                        "resources": [
                            scalar("cpus", 0.001, role="*"),
                            scalar("mem", 2.5, revocable={}),
                            {"name": "ports", "type": "RANGES", "ranges": {"range": [{"begin": 3, "end": 4}]}},
                            scalar("disk", 100.0, disk={"b": "1.50 as it is written", "a": []}, provider_id=named("P1")),
                        ],
                        "attributes": [
                            {"name": "rack", "type": "TEXT", "text": {"value": "r1"}},
                            {"name": "zones", "type": "SET", "set": {"item": ["z"]}},
                        ],
                        "executor_ids": [E1],
                        "allocation_info": {"role": "web"},
                    },
                    {"id": named("O2"), "framework_id": F1, "agent_id": named("A2"), "hostname": "i"},
                ]
            },
        },
        'OFFERS 2\n  "O1" "A1" "h" 4\n  "O2" "A2" "i" 0\n',
    ),
    (
        '{"type":"RESCIND","rescind":{"offer_id":{"value":"O1"},"framework_id":{"value":"F1"}}}',
        {"type": "RESCIND", "rescind": {"offer_id": O1}},
        'RESCIND "O1"\n',
    ),
    # All members of a status, and those that are required.
    (
        '{"type":"UPDATE","update":{"status":{"unreachable_time":{"nanoseconds":18446744073709551615},"labels":{"labels":[{"key":"k"}]},"healthy":false,'
        f'"uuid":"{UUID}","timestamp":1763856000.25,"executor_id":{{"value":"E1"}},"agent_id":{{"value":"A1"}},"data":"","reason":"R","source":"S",'
        '"message":"m","state":"TASK_UNREACHABLE","task_id":{"value":"T1"}}}}',
        {
            "type": "UPDATE",
            "update": {
                "status": {
                    "task_id": T1,
                    "state": "TASK_UNREACHABLE",
                    "message": "m",
                    "source": "S",
                    "reason": "R",
                    "data": "",
                    "agent_id": A1,
                    "executor_id": E1,
                    "timestamp": 1763856000.25,
                    "uuid": UUID,
                    "healthy": False,
                    "labels": {"labels": [{"key": "k"}]},
                    "unreachable_time": {"nanoseconds": 18446744073709551615},
                }
            },
        },
        f'UPDATE "T1" TASK_UNREACHABLE {HYPHENATED}\n',
    ),
    (
        '{"type":"UPDATE","update":{"status":{"task_id":{"value":"T1"},"state":"TASK_LOST"}}}',
        {"type": "UPDATE", "update": {"status": {"task_id": T1, "state": "TASK_LOST"}}},
        'UPDATE "T1" TASK_LOST -\n',
    ),
    (
        '{"type":"UPDATE","update":{"status":{"task_id":{"value":"T1"},"state":"TASK_GONE_BY_OPERATOR","uuid":"AP+A"}}}',
        {"type": "UPDATE", "update": {"status": {"task_id": T1, "state": "TASK_GONE_BY_OPERATOR", "uuid": "AP+A"}}},
        'UPDATE "T1" TASK_GONE_BY_OPERATOR hex:00ff80\n',
    ),
    (
        '{"type":"MESSAGE","message":{"data":"AAEC","executor_id":{"value":"E1"},"agent_id":{"value":"A1"}}}',
        {"type": "MESSAGE", "message": {"agent_id": A1, "executor_id": E1, "data": "AAEC"}},
        'MESSAGE "A1" "E1" 3\n',
    ),
    (
        '{"type":"FAILURE","failure":{"status":-2.56e2,"executor_id":{"value":"E1"},"agent_id":{"value":"A1"}}}',
        {"type": "FAILURE", "failure": {"agent_id": A1, "executor_id": E1, "status": -256}},
        'FAILURE "A1" "E1" -256\n',
    ),
    ('{"type":"FAILURE","failure":{"x":{}}}', {"type": "FAILURE", "failure": {}}, "FAILURE - - -\n"),
    # Each kind of escape, and characters of two, three and four bytes.
    (
        r'{"type":"ERROR","error":{"message":"\"\\\/\b\f\n\r\t\u0000\u001F\u007f\u00e9\ud834\udd1e é“\u2028"}}',
        {"type": "ERROR", "error": {"message": '"\\/\b\f\n\r\t\0\x1f\x7fé\U0001d11e é“\u2028'}},
        r'ERROR "\"\\/\b\f\n\r\t\u0000\u001f' + '\x7fé\U0001d11e é“\u2028"\n',
    ),
    (' { "type"\t:\r"\\u0048EARTBEAT" , "x" : [ 1 , { } ] } ', {"type": "HEARTBEAT"}, "HEARTBEAT\n"),
    # Of an event of another type only the name is stored.
    ('{"type":"INVERSE_OFFERS","inverse_offers":{"x":1}}', {"type": "INVERSE_OFFERS"}, 'OTHER "INVERSE_OFFERS"\n'),
    ('{"type":"ACCEPT","accept":1}', {"type": "ACCEPT"}, 'OTHER "ACCEPT"\n'),
]

TASK = {"name": "t", "task_id": T1, "agent_id": A1}
CALLS = [
    (
        '{"subscribe":{"framework_info":{"name":"n","user":"u","x":1}},"type":"SUBSCRIBE"}',
        framed("SUBSCRIBE", {"framework_info": {"user": "u", "name": "n"}}, None),
        "SUBSCRIBE -\n",
    ),
    # The printed framework is that of the call.
    (
        '{"type":"SUBSCRIBE","subscribe":{"framework_info":{"user":"u","name":"n","id":{"value":"F9"}}}}',
        framed("SUBSCRIBE", {"framework_info": {"user": "u", "name": "n", "id": named("F9")}}, None),
        "SUBSCRIBE -\n",
    ),
    (
        '{"type":"SUBSCRIBE","framework_id":{"value":"F1"},"subscribe":{"framework_info":{"capabilities":[{"type":"PARTITION_AWARE"},{}],"principal":"p",'
        '"hostname":"h","roles":["a","b"],"checkpoint":true,"failover_timeout":1E+3,"id":{"value":"F1"},"name":"n","user":"u"}}}',
        framed("SUBSCRIBE", {
            "framework_info": {
                "user": "u",
                "name": "n",
                "id": F1,
                "failover_timeout": 1000.0,
                "checkpoint": True,
                "roles": ["a", "b"],
                "hostname": "h",
                "principal": "p",
                "capabilities": [{"type": "PARTITION_AWARE"}, {}],
            }
        }),
        'SUBSCRIBE "F1"\n',
    ),
    (
        '{"type":"ACCEPT","framework_id":{"value":"F1"},"accept":{"filters":{"refuse_seconds":5},"operations":[{"launch":{"task_infos":[{"name":"t",'
        '"task_id":{"value":"T1"},"agent_id":{"value":"A1"},"command":{"value":"sleep","shell":true,"arguments":["1"],"uris":[]},"executor":{"b":1.50,"a":{}},'
        '"resources":[{"name":"cpus","type":"SCALAR","scalar":{"value":0.1}}]},{"name":"t","task_id":{"value":"T1"},"agent_id":{"value":"A1"}}]},"type":"LAUNCH"},'
        '{"type":"LAUNCH","launch":{}}],"offer_ids":[{"value":"O1"}]}}',
        framed("ACCEPT", {
            "offer_ids": [O1],
            "operations": [
                {
                    "type": "LAUNCH",
                    "launch": {
                        "task_infos": [
                            {
                                **TASK,
                                "resources": [scalar("cpus", 0.1)],
                                "command": {"value": "sleep", "shell": True, "arguments": ["1"]},
                                "executor": {"b": "1.50 as it is written", "a": {}},
                            },
                            TASK,
                        ]
                    },
                },
                {"type": "LAUNCH", "launch": {}},
            ],
            "filters": {"refuse_seconds": 5.0},
        }),
        "ACCEPT 1 2\n",
    ),
    ('{"type":"ACCEPT","framework_id":{"value":"F1"},"accept":{"operations":[],"offer_ids":null}}', framed("ACCEPT", {}), "ACCEPT 0 0\n"),
    (
        '{"type":"DECLINE","framework_id":{"value":"F1"},"decline":{"filters":{"refuse_seconds":0.25},"offer_ids":[{"value":"O1"},{"value":"O1"},{"value":"O2"}]}}',
        framed("DECLINE", {"offer_ids": [O1, O1, named("O2")], "filters": {"refuse_seconds": 0.25}}),
        "DECLINE 3\n",
    ),
    ('{"type":"REVIVE","framework_id":{"value":"F1"},"revive":null,"x":[]}', framed("REVIVE"), "REVIVE\n"),
    (
        '{"type":"KILL","framework_id":{"value":"F1"},"kill":{"agent_id":{"value":"A1"},"task_id":{"value":"a \\"task\\"\\u0020\\u00e9"}}}',
        framed("KILL", {"task_id": named('a "task" é'), "agent_id": A1}),
        'KILL "a \\"task\\" é"\n',
    ),
    ('{"kill":{"task_id":{"value":"T1"}},"framework_id":{"value":"F1"},"type":"KILL"}', framed("KILL", {"task_id": T1}), 'KILL "T1"\n'),
    (
        f'{{"type":"ACKNOWLEDGE","framework_id":{{"value":"F1"}},"acknowledge":{{"uuid":"{UUID}","task_id":{{"value":"T1"}},"agent_id":{{"value":"A1"}}}}}}',
        framed("ACKNOWLEDGE", {"agent_id": A1, "task_id": T1, "uuid": UUID}),
        f'ACKNOWLEDGE "T1" {HYPHENATED}\n',
    ),
    (
        '{"type":"ACKNOWLEDGE","framework_id":{"value":"F1"},"acknowledge":{"agent_id":{"value":"A1"},"task_id":{"value":"T1"},"uuid":""}}',
        framed("ACKNOWLEDGE", {"agent_id": A1, "task_id": T1, "uuid": ""}),
        'ACKNOWLEDGE "T1" hex:\n',
    ),
    (
        '{"type":"RECONCILE","framework_id":{"value":"F1"},"reconcile":{"tasks":[{"agent_id":{"value":"A1"},"task_id":{"value":"T1"}},{"task_id":{"value":"T2"}}]}}',
        framed("RECONCILE", {"tasks": [{"task_id": T1, "agent_id": A1}, {"task_id": named("T2")}]}),
        "RECONCILE 2\n",
    ),
    ('{"type":"RECONCILE","framework_id":{"value":"F1"},"reconcile":{"tasks":[]}}', framed("RECONCILE", {}), "RECONCILE 0\n"),
    (' {"framework_id" : {"value":"F1"},\t"type":"\\u0054EARDOWN", "teardown":1} ', framed("TEARDOWN"), "TEARDOWN\n"),
    ('{"type":"SUPPRESS","framework_id":{"value":"F1"}}', framed("SUPPRESS"), "SUPPRESS\n"),
    (
        '{"type":"SHUTDOWN","framework_id":{"value":"F1"},"shutdown":{"agent_id":{"value":"A1"},"executor_id":{"value":"E1"}}}',
        framed("SHUTDOWN", {"executor_id": E1, "agent_id": A1}),
        'SHUTDOWN "E1" "A1"\n',
    ),
    (
        '{"type":"MESSAGE","framework_id":{"value":"F1"},"message":{"data":"AAECAw==","executor_id":{"value":"E1"},"agent_id":{"value":"A1"}}}',
        framed("MESSAGE", {"agent_id": A1, "executor_id": E1, "data": "AAECAw=="}),
        'MESSAGE "A1" "E1" 4\n',
    ),
]
