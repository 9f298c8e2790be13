import queue, threading as t
q = queue.Queue()
ws = [t.Thread(target=lambda: [q.put(i) for i in range(50)]) for _ in range(3)]
[w.start() for w in ws]
print(sum(q.get() for _ in range(150)))
[w.join() for w in ws]
