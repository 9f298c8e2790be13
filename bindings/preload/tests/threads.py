"""Threads of Python: chance, sleeps, the clock and a queue."""
import os
import queue
import random
import threading
import time

taken = queue.Queue()


def work(number):
    for turn in range(5):
        time.sleep(random.random() / 200)
        taken.put((number, turn, os.urandom(2).hex(), round(time.time() * 1e6) % 1000))
    sum(k * k for k in range(20000))


threads = [threading.Thread(target=work, args=(number,)) for number in range(3)]
for it in threads:
    it.start()
for it in threads:
    it.join()
while not taken.empty():
    print(*taken.get())
print({"one", "two", "three"}, hash("text"))
