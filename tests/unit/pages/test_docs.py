"""Each page leads somewhere, names commands that are there, and says of each block of code who runs it. A page with one fault of each kind is found out."""
from __future__ import annotations

import os
import tempfile
import unittest
from pathlib import Path

from documents.blocks import bad_blocks
from documents.commands import Commands, bad_commands
from documents.links import bad_links
from documents.page import Page, anchor
from documents.sentences import long_sentences

TOP = Path(__file__).resolve().parents[3]
COMMANDS = Commands(TOP, Path(os.environ.get("ACD", TOP / "release/acd")).resolve())
GOOD = """# A page

See [below](#what-it-does-twice), [the words](OTHER.md#words), `OTHER.md` and <https://example.org/nothing>.

## What it `does`, twice

`acd serve --file F --endless`, `./acd audit --count`, `acdctl plan --changes FILE`, `install -g acd acd-gate F` and `tests/trials/try-docs`.

    $ echo 1
    1

As root:

<!-- not run: it needs root -->

    systemctl restart acd

1. An item

   that goes on, and is no block

   <!-- not run: it is in a list -->

       echo 2

```python
# loop.py
print(1)
```

### All of these
<!-- runs are by tests/trials/try-docs -->

    nobody

```sh
nobody
```
"""


class OfOnePage(unittest.TestCase):
    def setUp(self) -> None:
        folder = tempfile.TemporaryDirectory()
        self.addCleanup(folder.cleanup)
        self.folder = Path(folder.name)
        (self.folder / "OTHER.md").write_text("# Other\n\n## Words\n")

    def faults(self, text: str) -> list[str]:
        file = self.folder / "PAGE.md"
        file.write_text(text)
        page = Page(file)
        return [fault for _, fault in sorted((*bad_links(page, TOP), *bad_commands(page, COMMANDS), *bad_blocks(page, TOP)))]

    def test_good(self) -> None:
        self.assertEqual(self.faults(GOOD), [])

    def planted(self, old: str, new: str, *faults: str) -> None:
        self.assertEqual(GOOD.count(old), 1)
        self.assertEqual(self.faults(GOOD.replace(old, new)), list(faults))

    def test_link_to_no_file(self) -> None:
        self.planted("OTHER.md#words", "NOTHING.md#words", "no file NOTHING.md")

    def test_link_to_no_heading(self) -> None:
        self.planted("OTHER.md#words", "OTHER.md#word", "no heading #word in OTHER.md")

    def test_link_to_no_heading_of_its_own(self) -> None:
        self.planted("#what-it-does-twice", "#what-it-does", "no heading #what-it-does in PAGE.md")

    def test_name_of_no_page(self) -> None:
        self.planted("`OTHER.md`", "`NOTHING.md`", "no page NOTHING.md")

    def test_no_command_of_the_program(self) -> None:
        self.planted("acd serve", "acd serv", "no command acd serv")

    def test_no_command_of_the_service(self) -> None:
        self.planted("acdctl plan", "acdctl carry", "no command acdctl carry")

    def test_no_option_of_the_program(self) -> None:
        self.planted("--endless", "--for-ever", "acd serve has no option --for-ever")

    def test_no_option_of_the_service(self) -> None:
        self.planted("--changes", "--change", "acdctl plan has no option --change")

    def test_no_option_of_a_script(self) -> None:
        self.planted("tests/trials/try-docs`", "tests/trials/try-docs --wrong`", "tests/trials/try-docs has no option --wrong")

    def test_no_script(self) -> None:
        self.planted("`tests/trials/try-docs`", "`tests/trials/try-pages`", "no file tests/trials/try-pages")

    def test_command_in_a_block(self) -> None:
        self.planted("    $ echo 1", "    $ acd report --queues", "acd report has no option --queues")
        self.planted("       echo 2", "       acd report --queues", "acd report has no option --queues")

    def test_block_without_a_mark(self) -> None:
        fault = "a block of code that nobody runs, without a mark"
        self.planted("<!-- not run: it needs root -->", "", fault)
        self.planted("<!-- not run: it needs root -->", "<!-- not run: -->", fault)
        self.planted("    $ echo 1", "    echo 1", fault)
        self.planted("<!-- not run: it is in a list -->", "", fault)
        self.planted("<!-- not run: it is in a list -->\n\n       echo 2", "\n       $ echo 2", fault)
        self.planted("# loop.py", "# a loop", fault)

    def test_mark_with_no_file(self) -> None:
        fault = "said to be run by tests/trials/try-nothing, which isn't there"
        self.planted("runs are by tests/trials/try-docs", "runs are by tests/trials/try-nothing", fault, fault)

    def test_mark_ends_with_its_part(self) -> None:
        fault = "a block of code that nobody runs, without a mark"
        self.assertEqual(self.faults(GOOD + "\n## Next\n\n    nobody\n"), [fault])

    def test_long_sentences(self) -> None:
        words = " ".join(["word"] * 24)
        file = self.folder / "PAGE.md"
        file.write_text(f"# A page\n\nOne {words}. Two\n{words} more: one `{words}` {words}.\n\n- {words}\n- {words}\n\n| {words} | {words} |\n")
        self.assertEqual([(number, fault.partition(":")[0]) for number, fault in long_sentences(Page(file))], [(3, "26 words"), (3, "26 words")])

    def test_anchors(self) -> None:
        self.assertEqual(anchor("The next agent, at noon (`acdctl plan`)"), "the-next-agent-at-noon-acdctl-plan")
        (self.folder / "TWICE.md").write_text("# A\n## A\n")
        self.assertEqual(Page(self.folder / "TWICE.md").anchors, {"a", "a-1"})


class OfThisTree(unittest.TestCase):
    def test_pages(self) -> None:
        found = []
        for file in (TOP / "README.md", *sorted((TOP / "docs").glob("*.md"))):
            page = Page(file)
            self.assertGreater(len(page.prose), 2, file)
            faults = sorted((*bad_links(page, TOP), *bad_commands(page, COMMANDS), *bad_blocks(page, TOP)))
            found += [f"{file.relative_to(TOP)}:{number}: {fault}" for number, fault in faults]
        self.assertEqual(found, [])


if __name__ == "__main__":
    unittest.main()
