"""The floor of a tournament whose players are processes beside it."""
from serving.link import Link


class Floor:
    """Enters everybody once all players are there, has them play, and stops the tournament."""

    def __init__(self, tables, seats):
        self.link, self.tables, self.seats = Link(self.told), tables, seats

    def told(self, line):
        """Is called with each line of news."""

    async def play(self):
        """Returns when it is over, with what there is to tell."""

    async def run(self, port, server, pipes):
        for pipe in pipes:
            assert pipe.recv() == "here"
        await self.link.open(port)
        assert await self.link.ask("hello floor f") == "ok"
        for index in range(self.tables * self.seats):
            place = f"p{index + 1} {index % self.tables + 1} {index // self.tables + 1}"
            reply = await self.link.ask(f"enter {place}")
            assert reply == "ok", (place, reply)
        server.all_entered()
        for pipe in pipes:
            pipe.send("play")
        told = await self.play()
        server.ends()
        assert await self.link.ask("stop") == "ok"
        await self.link.gone()
        return told
