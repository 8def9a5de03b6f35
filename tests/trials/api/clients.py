"""Clients that are made of the description: one in Perl without a line of code, types for TypeScript, and Swagger UI in a browser."""
import functools
import http.server
import json
import shutil
import subprocess
import tempfile
import threading
from pathlib import Path

from typescript import declarations
from validators import ran

HERE = Path(__file__).resolve().parent
SWAGGER = Path("/usr/lib/R/site-library/swagger/dist3")
PAGE = """<!DOCTYPE html><html><body><div id="ui"></div><script src="swagger-ui-bundle.js"></script>
<script>SwaggerUIBundle({url: "openapi.yaml", dom_id: "#ui", docExpansion: "full"})</script></body></html>"""

# behind the requests that are the description's examples: operation, parameters, and the target that is the same
READS = [("getAgent", ["agent=7"], "/agents/7"), ("getCall", ["call=1"], "/calls/1"), ("getDevice", ["device=201"], "/devices/201"),
         ("getQueue", ["group=100"], "/queues/100"), ("getEvents", ["after=2"], "/events?after=2"), ("getMonitorEvents", ["monitor=1"], "/monitors/1/events"),
         ("getQueueReport", [], "/reports/queues"), ("getSnapshot", [], "/snapshot"), ("getHistory", ["after=1"], "/history?after=1"),
         ("getRequests", ["after=1"], "/requests?after=1")]
WRONG = [("sendRequest", ["-c", '{"requester":"desk","invoke":90,"service":"parkCall","call":1}']),
         ("sendRequest", ["-c", '{"requester":"desk","invoke":0,"service":"tick"}']), ("getAgent", ["-p", "agent=x"])]


def mojo(file, operation, *words):
    """What `mojo openapi` prints, and the status of the reply in what it says besides."""
    said = subprocess.run(["mojo", "openapi", "-v", file, operation, *words], stdin=subprocess.DEVNULL, capture_output=True, text=True, timeout=60)
    status = [line.split()[1] for line in said.stderr.splitlines() if line.startswith("HTTP/1.1 ")]
    return said.stdout, status[0] if status else "none"


def by_mojo(description, desk, folder):
    """Asks each operation; returns what went otherwise than by plain HTTP."""
    file = Path(folder) / "mojo.yaml"
    file.write_text(description.text.replace("http://127.0.0.1:8080", f"http://127.0.0.1:{desk.port}"))
    body = {"requester": "mojo", "invoke": 1, "service": "setAgentState", "agent": "7", "requested": "ready"}
    told, status = mojo(file, "sendRequest", "-c", json.dumps(body))
    again = desk.post(body)
    if (status, json.loads(told or "null")) != (str(again.status), again.value):
        yield f"sendRequest: {status} {told}"
    for operation, parameters, target in READS:
        told, status = mojo(file, operation, *(word for parameter in parameters for word in ("-p", parameter)))
        plain = desk.ask("GET", target)
        # it prints no text, so of the report its status alone is compared
        same = operation == "getQueueReport" or plain.status == 404 or json.loads(told or "null") == plain.value
        if status != str(plain.status) or not same:
            yield f"{operation}: {status} {told[:200]}"
    for operation, words in WRONG:
        told, status = mojo(file, operation, *words)
        if status in ("200", "409"):
            yield f"{operation} {words}: it was sent, and answered {status}"


def by_typescript(description, folder):
    """The client in client.ts, over types of the description; and that one event more is seen there to have no case."""
    Path(folder, "desk.d.ts").write_text(declarations(description.plain))
    shutil.copy(HERE / "client.ts", folder)
    words = ["tsc", "--strict", "--noEmit", "--target", "es2020", "client.ts"]
    status, said = ran(words, cwd=folder)
    if status:
        yield said
    one_more = Path(folder, "desk.d.ts")
    one_more.write_text(one_more.read_text().replace("export type EventReport = ", "export type EventReport = { event: 'parked' } | "))
    if not ran(words, cwd=folder)[0]:
        yield "a client that forgets an event is taken"


class Quiet(http.server.SimpleHTTPRequestHandler):
    def log_message(self, *_):
        pass


def by_swagger_ui(description, folder):
    """Swagger UI in a browser without a window: it has to show each operation and each schema."""
    site = Path(folder) / "site"
    shutil.copytree(SWAGGER, site)
    (site / "openapi.yaml").write_text(description.text)
    (site / "page.html").write_text(PAGE)
    server = http.server.ThreadingHTTPServer(("127.0.0.1", 0), functools.partial(Quiet, directory=site))
    threading.Thread(target=server.serve_forever, daemon=True).start()
    with tempfile.TemporaryDirectory() as profile:
        words = ["chromium", "--headless", "--no-sandbox", "--disable-gpu", f"--user-data-dir={profile}", "--virtual-time-budget=60000", "--dump-dom",
                 f"http://127.0.0.1:{server.server_port}/page.html"]
        shown = subprocess.run(words, stdout=subprocess.PIPE, stderr=subprocess.DEVNULL, text=True, timeout=300).stdout
    server.shutdown()
    wanted = [f'operations-{operation["tags"][0]}-{operation["operationId"]}' for _, _, operation in description.operations()]
    wanted += [f'model-{name}"' for name in description.schemas]
    faults = [f"Swagger UI shows {sign}" for sign in ("Unable to render", "errors-wrapper") if sign in shown]
    return faults + [f"Swagger UI doesn't show {name}" for name in wanted if name not in shown]
