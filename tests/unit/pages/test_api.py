"""The page of routes is what docs/make-api makes of the two descriptions, and the gate's description has the gate's own routes and errors."""
from __future__ import annotations

import importlib.util
import re
import subprocess
import tempfile
import unittest
from pathlib import Path
from typing import Any

TOP = Path(__file__).resolve().parents[3]
DOCS, GATE = TOP / "docs", TOP / "service/acd_service/gate"
HAS_YAML = importlib.util.find_spec("yaml") is not None
# what the proxy alone asks, and the desk's own routes, which the gate judges
NOT_ITS_OWN = {("get", "/auth"), ("get", "/auth/any"), ("get", "/auth/reads"), ("get", "/requests"), ("post", "/csta")}


def gate_routes() -> set[tuple[str, str]]:
    """The routes that the modules of the gate put into its tables."""
    found = set()
    for name in ("routes.py", "administering.py", "reasons.py"):
        text = (GATE / name).read_text()
        for kind, body in re.findall(r"self\.(get|post)s(?:: [^=]+)? = \{(.*?)\}", text, re.DOTALL):
            found |= {(kind, path) for path in re.findall(r'"(/[\w/]+)":', body)}
        found |= {(kind, path) for kind, path in re.findall(r'gate\.(get|post)s\["(/\w+)"\]', text)}
    return found


@unittest.skipUnless(HAS_YAML, "it needs Debian's python3-yaml")
class Page(unittest.TestCase):
    def setUp(self) -> None:
        import yaml  # type: ignore[import]
        self.gate: Any = yaml.safe_load((DOCS / "gate.yaml").read_text())
        self.desk: Any = yaml.safe_load((DOCS / "openapi.yaml").read_text())
        self.page = (DOCS / "api.html").read_text()

    def test_it_is_made_of_the_descriptions(self) -> None:
        with tempfile.TemporaryDirectory() as folder:
            made = Path(folder, "api.html")
            subprocess.run(["/usr/bin/python3", DOCS / "make-api", made], check=True)
            self.assertEqual(made.read_text(), self.page, "run docs/make-api")

    def test_each_of_its_links_leads_to_one_place(self) -> None:
        named = re.findall(r'\bid="([^"]+)"', self.page)
        self.assertEqual(len(named), len(set(named)))
        self.assertEqual(set(re.findall(r'href="#([^"]+)"', self.page)) - set(named), set())
        self.assertNotIn("<script", self.page)

    def test_it_has_all_that_is_described(self) -> None:
        told = {*re.findall(r"<h3 id=\"\w+\"><code>([A-Z]+ [^<]+)</code>", self.page)}
        self.assertEqual(told, {f"{method.upper()} {path}" for part in (self.desk, self.gate) for path, methods in part["paths"].items() for method in methods})
        self.assertEqual(set(self.desk["components"]["schemas"]) - set(re.findall(r'\bid="([^"]+)"', self.page)), set())

    def test_the_gate_has_these_routes(self) -> None:
        described = {(method, path) for path, methods in self.gate["paths"].items() for method in methods if not path.startswith("/records/")}
        self.assertGreater(len(described), 15)
        self.assertEqual(described, gate_routes() - NOT_ITS_OWN)

    def test_the_gate_has_these_errors(self) -> None:
        text = "".join(file.read_text() for file in (*GATE.glob("*.py"), *(TOP / "service/nginx").glob("nginx*.conf")))
        made = {(int(code), name) for code, name in re.findall(r'"code":(\d+),"name":"(\w+)"', text)}
        made |= {(int(code), name) for name, code in re.findall(r'"(\w+)": \(\d{3}, (\d+)\)', text)}
        described = [(each["code"], each["name"]) for each in self.gate["x-errors"]]
        self.assertEqual(described, sorted(each for each in made if each[0] > 40))


if __name__ == "__main__":
    unittest.main()
