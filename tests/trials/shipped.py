"""The service's package in a folder of a trial's own, where a module may have another text."""
import shutil
import subprocess
import tempfile
from pathlib import Path

from trial import TOP, planted

SERVICE = TOP / "service"
PACKAGE, CLIENT = SERVICE / "acd_service", TOP / "client"
OF_THE_CLIENT = ("acd_client.py", "acd_due.py", "acd_notify.py")


def text_of(module):
    """The text of a module, `leaving/carry.py`, say."""
    return ((CLIENT if module in OF_THE_CLIENT else PACKAGE) / module).read_text()


def shipped(folder, texts=(), of=SERVICE):
    """The folder of the commands, in a folder that isn't there yet; all is that of another one, except the texts of modules, by name."""
    folder = Path(folder)
    shutil.copytree(of / "acd_service", folder / "acd_service", ignore=shutil.ignore_patterns("__pycache__"))
    shutil.copy(of / "acdctl", folder)
    for name in OF_THE_CLIENT:
        shutil.copy((CLIENT if of == SERVICE else of) / name, folder)
    (folder / "bin").mkdir()
    for program in (SERVICE / "bin").glob("acd*"):
        (folder / "bin" / program.name).symlink_to("../acdctl")
    for module, text in dict(texts).items():
        (folder / module if module in OF_THE_CLIENT else folder / "acd_service" / module).write_text(text)
    # as it is installed: no command writes what Python made of it
    subprocess.run(["/usr/bin/python3", "-m", "compileall", "-q", folder], check=True)
    return folder / "bin"


def with_fault(module, old, new):
    """The folder of the commands, with a fault in one module."""
    folder = Path(tempfile.mkdtemp())
    folder.chmod(0o755)
    return shipped(folder / "service", {module: planted(text_of(module), old, new)})
