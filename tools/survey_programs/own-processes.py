import multiprocessing as m
def f(n): return n * n
if __name__ == '__main__':
 with m.Pool(2) as p: print(p.map(f, range(5)))
