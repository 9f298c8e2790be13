import socket as s
a = s.socket(s.AF_INET, s.SOCK_DGRAM); a.bind(('127.0.0.1', 0))
b = s.socket(s.AF_INET, s.SOCK_DGRAM)
b.sendto(b'hi', a.getsockname()); print(a.recv(9))
