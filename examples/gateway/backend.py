#!/usr/bin/env python3
"""A backend to try the gateway with: ten workers answer each request after a tenth of a second, or after as many seconds as is said. Who finds all of them
at work waits for its turn.

usage: backend.py [PORT [SECONDS]]
"""

import concurrent.futures
import http.server
import sys
import time

WORKERS = 10
SECONDS = float(sys.argv[2]) if len(sys.argv) > 2 else 0.1


class Slow(http.server.BaseHTTPRequestHandler):
    workers = concurrent.futures.ThreadPoolExecutor(WORKERS)

    def do_GET(self):
        self.workers.submit(time.sleep, SECONDS).result()
        self.send_response(200)
        self.send_header("Content-Length", "6")
        self.end_headers()
        self.wfile.write(b"hello\n")

    def log_message(self, *words):
        pass


class Server(http.server.ThreadingHTTPServer):
    request_queue_size = 1000


if __name__ == "__main__":
    Server(("127.0.0.1", int(sys.argv[1]) if len(sys.argv) > 1 else 9000), Slow).serve_forever()
