import tempfile
with tempfile.TemporaryFile() as f: f.write(b'abc'); f.seek(0); print(f.read())
with tempfile.NamedTemporaryFile() as g: print(len(g.name))
