"""A desk, a gate and nginx before it, by the configuration of service/nginx, on ports and in a folder of their own."""
import contextlib
import hashlib
import json
import os
import re
import secrets
import subprocess
import urllib.parse
from base64 import b64encode, urlsafe_b64encode

from trial import ANY, TOP, Connection, Desk, Plan, Requests, Trial, compact, free_ports, lines, running, until

# seconds for what comes at once, unless the machine is busy
PATIENCE = 120
# of "secret" by SHA-1, as `htpasswd -s` makes it
SECRET = "{SHA}5en6G6MezRroT3XKqkdPOmY/BfQ="
# what a page's own script sends, what a click on an address sends, and what another site's page sends
PAGE = {"Sec-Fetch-Site": "same-origin", "Sec-Fetch-Mode": "cors"}
CLICK = {"Sec-Fetch-Site": "none", "Sec-Fetch-Mode": "navigate", "Accept": "text/html"}
ELSEWHERE = {"Sec-Fetch-Site": "cross-site", "Sec-Fetch-Mode": "cors", "Origin": "https://elsewhere.example"}


def plan_of(stations=("201", "202", "203", "204"), agents=("7", "8", "9")):
    """The groups 100, 110 and 120, in which no call is ever taken back by a tick."""
    return Plan([(group, f"Group {group}", 0, 0) for group in ("100", "110", "120")], stations, agents)


class Place(Trial):
    """A class says of which plan it is, and the role of each login; all have the same password."""

    PLAN, ROLES, missed, secret, proxys = plan_of(), {}, 0, secrets.token_hex(32), secrets.token_hex(32)
    # which secrets gate and nginx read
    SECRETS = "session", "proxy"
    # of nginx: its configuration, and its workers
    NGINX, WORKERS = TOP / "service/nginx/nginx.conf", 1

    @classmethod
    def setUpClass(cls):
        super().setUpClass()
        cls.desk_port, cls.gate_port, cls.port = free_ports(3)
        cls.requests = Requests()
        planned = cls.acd("lines", "--file", cls.folder / "desk.db", given=cls.given()).output
        cls.see("the plan is taken", all(line.startswith("200 ") for line in planned.splitlines()), planned[:300])
        (cls.folder / "roles").write_text("".join(f"{login} {role}\n" for login, role in cls.ROLES.items() if role))
        (cls.folder / "own").mkdir()
        cls.write_users()
        cls.write_secret()
        cls.start_desk()
        cls.start_gate()
        cls.start_nginx()

    @classmethod
    def given(cls):
        """The lines that the desk has taken before it serves."""
        return lines(cls.planned())

    @classmethod
    def planned(cls):
        return cls.requests.plan(cls.PLAN)

    @classmethod
    def write_users(cls):
        (cls.folder / "users").write_text("".join(f"{login}:{SECRET}\n" for login in cls.ROLES))

    @classmethod
    def write_secret(cls):
        """That of the signature of sessions, and the proxy's: gate and nginx read both."""
        drawn = {"session": cls.secret, "proxy": cls.proxys}
        (cls.folder / "nginx-secret.conf").write_text("".join(f'map "" $acd_{name}_secret {{ default "{drawn[name]}"; }}\n' for name in cls.SECRETS))

    @classmethod
    def start_desk(cls):
        cls.desk = cls.enterClassContext(Desk(cls.program, cls.folder / "desk.db", port=cls.desk_port))

    @classmethod
    def start_gate(cls):
        words = ["/usr/bin/python3", "-B", TOP / "service/bin/acd-gate", "--port", cls.gate_port, "--desk", cls.desk_port, "--roles", cls.folder / "roles",
                 "--users", cls.folder / "users", "--own", cls.folder / "own", "--sessions", cls.folder / "sessions", "--records", cls.folder / "records", "--secret", cls.folder / "nginx-secret.conf", "--copy", cls.folder / "copy"]
        with (cls.folder / "gate-errors").open("a") as errors:
            cls.gate = cls.enterClassContext(running(*words, port=cls.gate_port, stderr=errors))

    @classmethod
    def stop_gate(cls):
        cls.gate.terminate()
        cls.gate.wait(PATIENCE)

    @classmethod
    @contextlib.contextmanager
    def without_gate(cls):
        """However the case goes on, the next one has a gate."""
        cls.stop_gate()
        try:
            yield
        finally:
            cls.start_gate()

    @classmethod
    def start_nginx(cls):
        here = cls.folder
        subprocess.run(["openssl", "req", "-x509", "-newkey", "ec", "-pkeyopt", "ec_paramgen_curve:P-256", "-nodes", "-subj", "/CN=desk", "-addext", "subjectAltName=IP:127.0.0.1", "-days", "2",
                        "-keyout", here / "desk.key", "-out", here / "desk.crt"], stderr=subprocess.DEVNULL, check=True)
        (here / "share").mkdir()
        (here / "share/board").symlink_to(TOP / "board")
        cls.run_nginx(cls.NGINX, cls.port)

    @classmethod
    def run_nginx(cls, configuration, port):
        """One more by a configuration, at a port, before the same gate."""
        here = cls.folder
        places = {"unix:/run/acd/desk.sock": f"127.0.0.1:{cls.desk_port}", "unix:/run/acd-gate/gate.sock": f"127.0.0.1:{cls.gate_port}", "8080": cls.desk_port, "8081": cls.gate_port,
                  "8443": f"127.0.0.1:{port}", "/etc/acd": here, "/usr/share/acd": here / "share"}
        text = re.sub("|".join(places), lambda named: str(places[named[0]]), configuration.read_text())
        temporary = " ".join(f"{kind}_temp_path {here};" for kind in ("client_body", "proxy", "fastcgi", "uwsgi", "scgi"))
        file = here / f"nginx-{port}.conf"
        file.write_text(f"daemon off; user root; pid {here}/pid-{port}; error_log {here}/errors; worker_processes {cls.WORKERS}; worker_rlimit_nofile 32768;\n"
                        f"events {{ worker_connections 16384; }}\nhttp {{ include /etc/nginx/mime.types; access_log off; {temporary} {text} }}\n")
        cls.enterClassContext(running("nginx", "-c", file, stderr=subprocess.DEVNULL))

        def answers():
            with Connection(port, ANY, PATIENCE) as connection:
                return connection.ask("GET", "/who").status == 401

        if not until(answers, PATIENCE):
            raise RuntimeError(f"nginx doesn't answer within {PATIENCE} s")

    @classmethod
    def figure(cls, what, value, most):
        """A figure that depends on the machine."""
        Place.missed += value > most
        print(f"    {what}: {value:.3f} (at most {most}{': MISSED' if value > most else ''}; load {os.getloadavg()[0]:.1f})", flush=True)

    # asking

    @classmethod
    def direct(cls, method, path, body=None):
        """The desk itself, past the gate."""
        with Connection(cls.desk_port, seconds=PATIENCE) as connection:
            return connection.ask(method, path, body)

    @classmethod
    def ask(cls, method, path, body=None, login=None, cookie=None, **fields):
        named = {name.replace("_", "-"): value for name, value in fields.items()}
        if login:
            named["Authorization"] = f"Basic {b64encode(f'{login}:secret'.encode()).decode()}"
        if cookie is not None:
            named["Cookie"] = cookie if "=" in cookie else f"__Host-acd={cookie}"
        with Connection(cls.port, ANY, PATIENCE) as connection:
            return connection.ask(method, path, "" if body is None and method == "POST" else body, named.items())

    @classmethod
    def log_in(cls, login, password="secret", next_page=None, **more):
        form = urllib.parse.urlencode({"login": login, "password": password} | ({"next": next_page} if next_page else {}))
        return cls.ask("POST", "/login", form, Content_Type="application/x-www-form-urlencoded", **more)

    @classmethod
    def service(cls, requester, service, **members):
        """Straight to the desk; its result."""
        request = cls.requests(service, requester, **members)
        reply = cls.direct("POST", "/csta", compact(request))
        if reply.status != 200:
            cls.see(f"{service} is granted", False, (request, reply.text))
        return reply.value.get("result")

    @classmethod
    def request(cls, login, service, **members):
        """By the login's own key, through nginx and the gate: status and what is told."""
        reply = cls.ask("POST", "/csta", json.dumps(cls.requests(service, login, **members)), login)
        return reply.status, reply.value


def signed(drawn):
    """A cookie that bears the gate's signature, which vouches for no session."""
    return f"{drawn}." + urlsafe_b64encode(hashlib.md5((Place.secret + drawn).encode()).digest()).decode().rstrip("=")


def token_of(fields):
    """The session's cookie in a reply."""
    return re.match(r"__Host-acd=([^;]*)", fields.get("set-cookie", ""))[1]
