import threading as t
ws = [t.Thread(target=print, args=(i,)) for i in range(20)]
for w in ws: w.start(); w.join()
