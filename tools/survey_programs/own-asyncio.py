import asyncio, time
async def one(n):
 await asyncio.sleep(.01 * n)
 return await asyncio.to_thread(lambda: n * n)
async def main(): print(await asyncio.gather(*map(one, range(5))))
asyncio.run(main())
