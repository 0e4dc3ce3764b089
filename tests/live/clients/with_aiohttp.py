"""A scheduler over aiohttp, whose pool keeps connections; calls are made 60 at once: with_aiohttp.py PORT."""
import asyncio
import sys

import aiohttp
from common import PATH, SUBSCRIBE, Scheduler, events_of

AT_ONCE = 60
opened = 0


async def count(session, context, params):
    global opened
    opened += 1


async def main():
    url = f"http://127.0.0.1:{sys.argv[1]}{PATH}"
    trace = aiohttp.TraceConfig()
    trace.on_connection_create_end.append(count)
    scheduler = Scheduler()
    async with aiohttp.ClientSession(trace_configs=[trace], timeout=aiohttp.ClientTimeout(20)) as session:
        stream = await session.post(url, json=SUBSCRIBE)
        fields = {"Mesos-Stream-Id": stream.headers["Mesos-Stream-Id"]}

        async def send(call):
            async with session.post(url, json=call, headers=fields) as response:
                await response.read()
                scheduler.statuses[response.status] += 1

        while size := await stream.content.readline():
            (event,) = events_of([size + await stream.content.readexactly(int(size))])
            for calls in scheduler.calls_for(event):
                for at in range(0, len(calls), AT_ONCE):
                    await asyncio.gather(*(send(it) for it in calls[at : at + AT_ONCE]))
    scheduler.print_end("at most 60" if opened - 1 <= AT_ONCE else opened - 1)


asyncio.run(main())
