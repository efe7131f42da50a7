"""The client for asyncio."""

from __future__ import annotations

import asyncio
from typing import Any, Coroutine

from support import MOST_SECONDS, InFolder, fake, running_hub, tsd

from tsd import requests


class Asyncio(InFolder):
    """The calls, awaited."""

    def run_it(self, work: Coroutine[Any, Any, None]) -> None:
        """Within a minute."""
        asyncio.run(asyncio.wait_for(work, MOST_SECONDS))

    def test_calls(self) -> None:
        [pair] = self.make(blocks=300)

        async def work() -> None:
            async with await tsd.aio.open(self.image, "low") as disk:
                await disk.write(0, b"hello", pair.write)
                self.assertEqual(b"hello", (await disk.read(0, pair.read)).rstrip(b"\0"))
                for _ in range(3):
                    await disk.alloc(0, 32, pair.write)
                self.assertEqual([97, 98], await disk.alloc_contiguous(0, 2, pair.write))
                self.assertEqual(list(range(1, 99)), [target async for target in disk.list(0, pair.read)])
                await disk.create(1, 2)
                self.assertEqual(0, await disk.delete(0, 2, pair.write))
                self.assertEqual(2, await disk.delete(0, 1, pair.write))
                self.assertEqual((203, 0), (await disk.free(), await disk.sweep(pair.write)))
                async with await disk.session() as session:
                    self.assertEqual(2, session.number)
                    with self.assertRaises(tsd.Denied):
                        await session.read(3)
                await disk.set_capabilities(0, pair.read, pair.read, pair.write)
                with self.assertRaises(tsd.Denied):
                    await disk.read(0, pair.write)
                self.assertEqual(512, disk.geometry.block_length if disk.geometry else 0)

        self.run_it(work())

    def test_many_under_way(self) -> None:
        [pair] = self.make(sectors=8)

        async def work(disk: tsd.aio.AsyncDisk) -> None:
            blocks = await disk.alloc(0, 32, pair.write)
            await asyncio.gather(*(disk.write(blocks[at % 32], bytes([at % 251]) * 4096) for at in range(500)))
            last = {at % 32: at % 251 for at in range(500)}
            found = await asyncio.gather(*(disk.read(block) for block in blocks))
            self.assertEqual([bytes([last[at]]) * 4096 for at in range(32)], found)

        async def over_both() -> None:
            async with await tsd.aio.open(self.image) as disk:
                await work(disk)
            with running_hub(self.image) as hub:
                async with await tsd.aio.connect(hub.path) as disk:
                    await disk.read(0, pair.read)
                    self.assertEqual(31, await disk.free())

        self.run_it(over_both())

    def test_the_loop_goes_on_meanwhile(self) -> None:
        """A disk that is silent holds up nobody else, and fails at its limit."""
        async def work() -> None:
            disk = await tsd.aio.open("x", program=fake("take(); out(b'\\1\\0\\1'); time.sleep(60)"), limit=3)
            asking = asyncio.ensure_future(disk.ask(requests.GetFree()))
            for _ in range(10):
                await asyncio.sleep(0.01)
            self.assertFalse(asking.done())
            with self.assertRaises(tsd.Silent):
                await asking
            with self.assertRaises(tsd.Silent):
                await disk.close()

        self.run_it(work())

    def test_cancelled_calls_keep_the_order(self) -> None:
        [pair] = self.make()

        async def work() -> None:
            async with await tsd.aio.open(self.image) as disk:
                for at in range(100):
                    writing = asyncio.ensure_future(disk.write(0, b"%d" % at, pair.write))
                    await asyncio.sleep(0)
                    writing.cancel()
                self.assertEqual(512, len(await disk.read(0, pair.read)))

        self.run_it(work())
