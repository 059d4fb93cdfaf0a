"""A plain echo over loopback, to set delays beside: a process of its own, asked by the same clients while they play."""
import socketserver

LINE = "= act 1 fold"


class Handler(socketserver.StreamRequestHandler):
    disable_nagle_algorithm = True

    def handle(self):
        for line in self.rfile:
            self.wfile.write(line)


class Server(socketserver.ThreadingTCPServer):
    allow_reuse_address = True


def serve(_, port):
    with Server(("127.0.0.1", port), Handler) as server:
        server.serve_forever()
