import socketserver as s
class H(s.StreamRequestHandler):
 def handle(self): self.wfile.write(self.rfile.readline())
with s.ThreadingTCPServer(('127.0.0.1', {port}), H) as v: v.handle_request(); v.server_close()
