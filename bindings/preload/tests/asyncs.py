"""An event loop, which waits by epoll for a pair of sockets of its own, for time, and for threads."""
import asyncio
import time


async def sleeps(number: int) -> int:
    await asyncio.sleep(0.01 * number)
    print("slept", number)
    return number


async def main() -> None:
    print(sum(await asyncio.gather(*(sleeps(it) for it in (3, 1, 2)))))
    print(await asyncio.to_thread(lambda: (time.sleep(0.02), "thread")[1]))
    reader_of: asyncio.Queue[bytes] = asyncio.Queue()

    async def answers(reader: asyncio.StreamReader, writer: asyncio.StreamWriter) -> None:
        await reader_of.put(await reader.readline())
        writer.write(b"answer\n")
        await writer.drain()
        writer.close()

    server = await asyncio.start_server(answers, "127.0.0.1", 0)
    reader, writer = await asyncio.open_connection(*server.sockets[0].getsockname())
    writer.write(b"question\n")
    print(await reader.readline(), await reader_of.get())
    writer.close()
    server.close()


asyncio.run(main())
