from concurrent.futures import ThreadPoolExecutor as P
with P(4) as p: print(sum(p.map(lambda n: n * n, range(200))))
