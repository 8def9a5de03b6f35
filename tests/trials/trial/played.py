"""A server of HTTP that is played: on a port that is free, from the beginning of a block to its end."""
import http.server
import threading


class Handler(http.server.BaseHTTPRequestHandler):
    """It says nothing of what it is asked."""

    def log_message(self, *_):
        pass

    def answer(self, status, body):
        """Answers with a text, or with bytes."""
        body = body.encode() if isinstance(body, str) else body
        self.send_response(status)
        self.send_header("Content-Length", str(len(body)))
        self.end_headers()
        self.wfile.write(body)


class Played(http.server.ThreadingHTTPServer):
    daemon_threads = True

    def __init__(self, handler):
        super().__init__(("127.0.0.1", 0), handler)

    def __enter__(self):
        threading.Thread(target=self.serve_forever, args=(0.05,), daemon=True).start()
        return self

    def __exit__(self, *_):
        self.shutdown()
        self.server_close()
