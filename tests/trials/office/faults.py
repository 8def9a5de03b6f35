"""Faults that are planted in the package: in its units, its scripts, what it does as it is installed, and its pages. The cases named have to find them."""
import subprocess
from typing import NamedTuple

from trial import planted

UNITS, PAGES, POSTINST = "usr/lib/systemd/system", "usr/share/doc/acd", "DEBIAN/postinst"
MODULES = "usr/share/acd/acd_service"
DESK, COPY = f"{UNITS}/acd.service", f"{UNITS}/acd-copy.service"
PRUNE = f"{UNITS}/acd-prune.service"
AGAIN = "StartLimitIntervalSec=0\n"


class Fault(NamedTuple):
    """What is wrong; the file of the package, a text of it and what it changes it to; the part and its cases that have to find it."""
    what: str
    change: tuple
    part: str
    cases: tuple

    def lay(self, package, folder):
        """The package, made anew in a folder, with the text of one of its files changed."""
        root, (path, old, new) = folder / "root", self.change
        subprocess.run(["dpkg-deb", "--raw-extract", package, root], check=True)
        (root / path).write_text(planted((root / path).read_text(), old, new))
        subprocess.run(["dpkg-deb", "--root-owner-group", "-Zgzip", "-z1", "--build", root, folder / package.name], check=True, stdout=subprocess.DEVNULL)
        return folder / package.name


FAULTS = [
    Fault("the first installation makes no desk", (POSTINST, '[ -n "$2" ] || make_desk', ":"), "starting", ("try_installed",)),
    Fault("each installation makes one", (POSTINST, '[ -n "$2" ] || make_desk', "make_desk"), "starting", ("try_upgrade",)),
    Fault("an installation doesn't say why the desk isn't served", (POSTINST, "|| true\n    tell_state\n", "|| true\n"), "starting", ("try_taken_port",)),
    Fault("an installation waits for a start that takes minutes", (POSTINST, "timeout 28 deb-systemd-invoke", "deb-systemd-invoke"), "starting", ("try_long_start",)),
    Fault("what has to be mended first is started again and again", (DESK, "RestartPreventExitStatus=2 64", "RestartPreventExitStatus=2"), "starting", ("try_taken_port",)),
    Fault("a refused command line too", (DESK, "RestartPreventExitStatus=2 64", "RestartPreventExitStatus=64"), "starting", ("try_wrong_port",)),
    Fault("a full disk leaves the desk down", (DESK, "Restart=always", "Restart=no"), "starting", ("plan", "try_full_disk")),
    Fault("systemd gives up", (DESK, AGAIN, ""), "starting", ("try_installed",)),
    Fault("quotes are taken for a part of a file's name", (f"{MODULES}/settings.py", r"""^(["'])(.*)\1$""", r"""^(["'])(.*)\1\1$"""), "starting", ("try_settings",)),
    Fault("a log isn't looked at", (f"{MODULES}/ready.py", "    listening.look_at(options.port, options.socket)\n    look_at_log(file)\n", "    listening.look_at(options.port, options.socket)\n"), "damage", ("plan", "try_middle")),
    Fault("nor whether one was removed", (DESK, "ExecStopPost=-/usr/bin/acdctl ready --stopped --file ${ACD_FILE}\n", ""), "damage", ("plan", "try_removed_log")),
    Fault("a start returns before the desk answers", (DESK, "Type=notify\n", "Type=exec\n"), "starting", ("try_slow_opening",)),
    Fault("a start ends behind 90 seconds", (DESK, "TimeoutStartSec=infinity\n", "TimeoutStartSec=2\n"), "starting", ("try_slow_opening",)),
    Fault("nor whether file and log are of one time", (f"{MODULES}/ready.py", "if pair.is_split(file):", "if False:"), "damage", ("plan", "try_older_file")),
    Fault("a time that is ahead isn't told", (f"{MODULES}/watch.py", "if moment > int(time.time()) + MINUTE:", "if False:"), "clock", ("plan", "try_ahead")),
    Fault("the desk doesn't wait for the clock", (DESK, "After=local-fs.target time-sync.target", "After=local-fs.target"), "clock", ("plan", "try_late_clock")),
    Fault("copies by hand are too many", (COPY, AGAIN, ""), "copies", ("plan", "try_one_behind_the_other")),
    Fault("nobody looks at the desk's files", (f"{MODULES}/watch.py", "            look_at_files([self.desk], self.file)\n", "            pass\n"), "copies", ("plan", "try_moved_file")),
    Fault("the desk doesn't tick", (DESK, " --tick ${ACD_STEP}", ""), "clock", ("plan", "try_new_file")),
    Fault("a restore that is killed leaves no link", (f"{MODULES}/restoring.py", "    if is_hidden(file):\n        return\n    if leaving", "    return\n    if leaving"), "copies", ("plan", "try_killed")),
    Fault("a recipe's files are for all to read", (f"{PAGES}/PRUNING.md", "        umask 077\n        cd /var/lib/acd\n        mkdir year", "        cd /var/lib/acd\n        mkdir year"), "copies", ("plan", "try_new_year")),
    Fault("nothing keeps the desk down", (DESK, "ConditionPathExists=!/run/acd-prune/down\n", ""), "pruned", ("try_days", "try_meanwhile")),
    Fault("a killed prune leaves it down", (PRUNE, "ExecStopPost=-+/usr/bin/acdctl prune --start\nExecStopPost=+/usr/bin/acdctl prune --start\n", ""), "pruned", ("try_days", "try_killed")),
    Fault("what starts it again isn't repeated", (PRUNE, "ExecStopPost=-+", "ExecStopPost=+"), "pruned", ("try_days", "try_killed")),
    Fault("a stop waits for itself", (f"{MODULES}/unit.py", '"start", "--no-block", UNIT', '"start", UNIT'), "pruned", ("try_days", "try_stopped")),
    Fault("what keeps it down lies elsewhere", (f"{MODULES}/unit.py", 'Path("/run/acd-prune")', 'Path("/var/lib/acd-prune")'), "pruned", ("try_days", "try_meanwhile")),
    Fault("a desk that was down is started", (f"{MODULES}/unit.py", "    if START.exists() or was_refused():", "    if True:"), "pruned", ("try_days", "try_down")),
    Fault("a recipe that logs nobody off", (f"{PAGES}/EVERY-DAY.md", '"requested":"loggedOff"}', '"requested":"notReady"}'), "plans", ("plan", "try_forgotten")),
    Fault("a mark of another system's editor is a part of the first login", (f"{MODULES}/gate/roles.py", '.removeprefix(b"\\xef\\xbb\\xbf")', ""), "plans", ("plan", "try_roles")),
]
