import asyncio
async def one(r, w):
 w.write(await r.readline()); await w.drain(); w.close(); stop.set()
async def main():
 global stop
 stop = asyncio.Event()
 s = await asyncio.start_server(one, '127.0.0.1', {port})
 await stop.wait(); s.close(); print('over')
asyncio.run(main())
