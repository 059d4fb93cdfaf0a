"""A client's connection: lines are sent and replied in order, and what is told in between is kept."""
import asyncio
import time


def at(delays, part):
    """Gives the delay, in milliseconds, below which this part of them is."""
    return 1000 * sorted(delays)[min(len(delays) - 1, int(part * len(delays)))] if delays else 0


def spread(delays):
    """Says how long it took, and how often that was measured."""
    return (f"median {at(delays, 0.5):.3f} ms, 99 of 100 {at(delays, 0.99):.2f}, worst {at(delays, 1):.2f} "
            f"({len(delays)})")


class Link(asyncio.Protocol):
    """One connection. `told` is called with each line of news, and `came` is when it came.

    All connections that have something are read before any line is handled, so that reading waits for no handling."""

    def __init__(self, told=None):
        self.told, self.lines, self.waits, self.delays = told, [], [], []
        self.rest, self.came = b"", 0

    async def open(self, port):
        self.loop = asyncio.get_running_loop()
        self.ended = self.loop.create_future()
        for _ in range(4000):
            try:
                self.transport, _ = await self.loop.create_connection(lambda: self, "127.0.0.1", port)
                break
            except OSError:
                await asyncio.sleep(0.05)
        return self

    def data_received(self, data):
        self.loop.call_soon(self.take, data, time.perf_counter())

    def connection_lost(self, _):
        self.loop.call_soon(self.end)

    def take(self, data, came):
        *lines, self.rest = (self.rest + data).split(b"\n")
        self.came = came
        for line in lines:
            if line.startswith(b"= "):
                sent, reply = self.waits.pop(0)
                self.delays.append(came - sent)
                if not reply.done():
                    reply.set_result(line[2:].decode())
            else:
                self.lines.append(line)
                if self.told:
                    self.tell(line.decode())

    def tell(self, line):
        try:
            self.told(line)
        except Exception as error:
            for reply in [reply for _, reply in self.waits] + [self.ended]:
                if not reply.done():
                    reply.set_exception(error)
            raise

    def end(self):
        for _, reply in self.waits:
            if not reply.done():
                reply.set_result("gone")
        if not self.ended.done():
            self.ended.set_result(None)

    def say(self, line):
        reply = self.loop.create_future()
        self.waits.append((time.perf_counter(), reply))
        self.transport.write(line.encode() + b"\n")
        return reply

    async def ask(self, line):
        return await self.say(line)

    async def gone(self, seconds=30):
        """Waits until the server has closed the connection."""
        await asyncio.wait_for(self.ended, seconds)
