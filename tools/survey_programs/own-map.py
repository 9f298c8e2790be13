import mmap
f = open('data.txt', 'r+b')
m = mmap.mmap(f.fileno(), 0)
m[:5] = b'hello'
m.flush()
print(m[:9])
