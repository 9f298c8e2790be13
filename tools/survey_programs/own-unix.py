import socket as s, threading as t
a = s.socket(s.AF_UNIX); a.bind('sock'); a.listen()
w = t.Thread(target=lambda: a.accept()[0].sendall(b'hello')); w.start()
b = s.socket(s.AF_UNIX); b.connect('sock')
print(b.recv(9)); w.join()
