"""Makes Debian packages of the desk, and of the telephone exchange that it drives, for packaging/package.

FOLDER/acd_VERSION_amd64.deb and FOLDER/acd-exchange_VERSION_all.deb: VERSION is that of the first heading of
CHANGELOG.md, and of what the program says to --version. The program is that of release/, which release/SHA256SUMS has
to name; another one is packaged by --program, for a trial, and one that doesn't know --version by --unchecked-version.
The program's manual page and its completion for bash are compared with what --help says; those of acdctl are made of
what its parsers know. The notices of the toolchain's crates that are linked in are those of release/NOTICES, which have
to name each crate that the program's symbols name.

The same commit and program make the same bytes on the same Debian: what is packaged has the moment of the commit where
this is a clone and git is here, else that of the first heading of CHANGELOG.md."""
import argparse
import hashlib
import os
import re
import shutil
import subprocess
import sys
import tempfile
import textwrap
import zlib
from email.utils import formatdate
from pathlib import Path

import notices

PACKAGING = Path(__file__).resolve().parent
TOP = PACKAGING.parent
SERVICE = TOP / "service"
CLIENT = TOP / "client"
# an address that takes no mail: README.Debian says whom to ask
MAINTAINER = "The maintainers of acd <maintainers@users.noreply.hullapricot.example>"
UNITS = ("acd.service", "acd-tick.service", "acd-gate.service", "acd-copy.service", "acd-copy.timer",
         "acd-local.service", "acd-node.service", "acd-node-upkeep.service", "acd-node-upkeep.timer",
         "acd-records.service", "acd-follow.service", "acd-prune.service", "acd-prune.timer", "acd-certificate.service",
         "acd-certificate.timer", "acd-rules.service", "acd-webhook.service")
# which units and scripts of an office may name
OLD_NAMES_OF_USERS = ("acd-calls", "acd-export", "acd-plan", "acd-trail")
OLD_NAMES_OF_ROOT = ("acd-carry", "acd-certificate", "acd-copy", "acd-follow", "acd-forget", "acd-gate", "acd-local",
                     "acd-node", "acd-ready", "acd-tick")
# an office's programs import the first one by its path
CLIENT_MODULES = ("acd_client.py", "acd_due.py", "acd_notify.py")
# as dh_python3 has it for a package with a folder of its own
COMPILED_ANEW = """#!/bin/sh
set -e
if [ "$1" = rtupdate ]; then
    py3clean -p {package} /usr/share/{package}
    py3compile -p {package} /usr/share/{package}
fi
"""
BOARD = TOP / "board"
PAGES = (".html", ".css", ".js")

EXCHANGE = TOP / "exchange"

DESCRIPTION = """desk of a help line: an automatic call distributor
 The desk gives each waiting call to the agent who has been ready longest, in
 the terms of CSTA Phase III (ECMA-269), answers requests over HTTP on the
 loopback address or in lines of text, reports every event, and keeps what it
 answered in an SQLite file. It is proved to do what its abstract switch does.
 .
 The package runs it as a service, and makes a copy each night that is
 audited. It has a supervisor's board and an agent's page for a browser, and a
 gate that says what a login may ask for.
 .
"""

EXCHANGE_DESCRIPTION = """telephone exchange that the desk of a help line drives
 A back-to-back user agent for SIP: callers wait with music or without, phones
 ring and talk, agents log on by feature codes, all as the desk (package acd)
 decides. Kamailio stands before it, asks phones and trunk for passwords, and
 speaks TLS. It is tested, not proved.
"""


def fail(text, status=1):
    print(f"packaging/package: {text}", file=sys.stderr)
    sys.exit(status)


def told(*words, **how):
    return subprocess.run([str(word) for word in words], stdout=subprocess.PIPE, text=True, check=True, **how).stdout


# What --help says, the manual page and the completion

def help_of(program, *command):
    """The commands and the long options that --help names, each with its text."""
    commands, options, part = {}, {}, None
    for line in told(program, *command, "--help").splitlines():
        if line in ("Commands:", "Options:"):
            part = line
        elif not line.startswith("  "):
            part = None
        elif part == "Commands:":
            name, text = line.split(maxsplit=1)
            commands[name] = text
        elif part == "Options:":
            name, text = re.match(r" +(?:-\w, )?(--[\w-]+)(?: <\w+>)? +(.+)", line).groups()
            options[name] = text
    return commands, options


def sections(page, mark):
    """What stands behind each heading of a manual page, up to the next one of its rank or above."""
    found, name = {}, None
    for line in page.replace("\\-", "-").splitlines():
        if line.startswith(mark):
            name = line[len(mark):].strip()
            found[name] = []
        elif line.startswith(".SH"):
            name = None
        elif name:
            found[name].append(line)
    return {name: "\n".join(lines) for name, lines in found.items()}


def page_options(text):
    return set(re.findall(r"^\.B[IR]? .*?(--[\w-]+)", text, re.MULTILINE))


def plain(text):
    return " ".join(re.sub(r"^\.[A-Z]+ ?", "", text, flags=re.MULTILINE).replace('"', "").split())


def completions(script, *words):
    """What the completion offers behind the words."""
    typed = 'source "$0"; COMP_WORDS=(acd "$@" ""); COMP_CWORD=$(($# + 1)); _acd; printf "%s\\n" "${COMPREPLY[@]}"'
    return set(told("bash", "-c", typed, script, *words).split())


def differences_from_help(program, page, script, left_out=frozenset()):
    """How the manual page and the completion differ from what the program's --help says; left_out are options of
    the page that the program need not know."""
    found = []

    def compare(what, has, wanted):
        for name in sorted(set(has) ^ set(wanted)):
            found.append(f"{what}: {name} is " + ("not of acd --help" if name in has else "missing"))

    text = page.read_text()
    commands, options = help_of(program)
    shown = sections(text, ".SS ")
    compare("manual page", shown, commands)
    compare("manual page", page_options(sections(text, ".SH ")["OPTIONS"]) - left_out, options)
    compare("completion of acd", completions(script) - left_out, set(commands) | set(options))
    compare("completion of acd help", completions(script, "help"), set(commands) - {"help"})
    for command, about in commands.items():
        if about not in plain(shown.get(command, "")):
            found.append(f"manual page, {command}: it doesn't say '{about}'")
        if command == "help":
            continue
        _, options = help_of(program, command)
        compare(f"manual page, {command}", page_options(shown.get(command, "")), set(options) - {"--help"})
        compare(f"completion of acd {command}", completions(script, command), options)
        for option in set(options) - {"--help"}:
            if options[option] not in plain(shown.get(command, "")):
                found.append(f"manual page, {command} {option}: it doesn't say '{options[option]}'")
    return found


# Licences

def copyright_text(version, *more):
    """The licence of what this repository wrote, and what else there is to say."""
    licence = [f"acd {version}, the desk of a help line.", "", f"Contact: {MAINTAINER}", "",
               "Copyright 2026 the maintainers of acd", "", "License: MIT OR Apache-2.0. You may choose either.", "",
               f"The Apache License, version 2.0, is in {notices.APACHE}. The MIT License:", "",
               (TOP / "LICENSE-MIT").read_text()]
    return "\n".join(licence) + "".join(f"\n{notices.RULE}\n{text}" for text in more)


def linked_notices(program):
    """The notices of what is linked in; which crates these are is what release/NOTICES says, held against the program's
    symbols."""
    file = TOP / "release/NOTICES"
    if not file.is_file():
        fail("there is no release/NOTICES: proof/release --lists makes it, where the toolchain is")
    text = file.read_text()
    notices.check_symbols(program, notices.crates_of(text))
    return text


# What is packaged

def changes():
    """The versions of the changelog, each with its date and its entries."""
    found = []
    for line in (TOP / "CHANGELOG.md").read_text().splitlines():
        heading = re.fullmatch(r"# acd (\S+) \((\d{4}-\d\d-\d\d)\)", line)
        if heading:
            found.append((*heading.groups(), []))
        elif line.startswith("- ") and found:
            found[-1][2].append([line[2:]])
        elif line.startswith("  ") and found and found[-1][2]:
            found[-1][2][-1].append(line[2:])
    if not found:
        fail("CHANGELOG.md has no heading '# acd VERSION (YEAR-MONTH-DAY)'")
    return found


def debian_changelog(versions, moment, package="acd"):
    """The changelog in the form of Debian; the newest one has the moment of the commit."""
    entries = []
    for number, (version, date, items) in enumerate(versions):
        when = formatdate(moment) if number == 0 else told("date", "-u", "-R", "-d", date).strip()
        said = "\n".join(textwrap.fill(" ".join(item), 78, initial_indent="  * ", subsequent_indent="    ")
                         for item in items)
        entries.append(f"{package} ({version}) unstable; urgency=medium\n\n{said}\n\n -- {MAINTAINER}  {when}\n")
    return "\n".join(entries)


def checked_program(options, version):
    """The program, with the toolchain that proved it, its logic, and the checksum of its sources. The version that the
    program says names a kit of that logic, not always the one that built it here (docs/DECISIONS.md)."""
    program = options.program.resolve()
    if not program.is_file():
        fail(f"there is no program {options.program}")
    sums, sources = program.parent / "SHA256SUMS", program.parent / "SOURCES"
    if sums.exists() or options.program == TOP / "release/acd":
        checked = subprocess.run(["sha256sum", "--check", "--quiet", "--strict", sums.name], cwd=program.parent,
                                 capture_output=True)
        if checked.returncode:
            fail(f"{program.parent.name}/SHA256SUMS isn't that of its files")
    source = sources.read_text().split()[0] if sources.exists() else "unknown (a trial)"
    toolchain = (sources if sources.exists() else TOP / "release/SOURCES").read_text().splitlines()[1]
    if options.unchecked_version:
        return program, toolchain, source
    says = subprocess.run([str(program), "--version"], stdout=subprocess.PIPE, text=True).stdout.strip()
    if not re.fullmatch(rf"acd {re.escape(version)} \(rattle-kit-\w+\)", says):
        fail(f"CHANGELOG.md begins with version {version}, and the program says '{says}'")
    return program, toolchain, source


def library_packages(program, folder):
    """What the program needs of the system's libraries, as Debian names it."""
    (folder / "debian").mkdir()
    (folder / "debian/control").write_text("Source: acd\n\nPackage: acd\nArchitecture: amd64\n")
    return told("dpkg-shlibdeps", "-O", f"-e{program}", cwd=folder, stderr=subprocess.DEVNULL).strip().partition("=")[2]


def packed(text):
    """As gzip has it, without a moment; zlib's own head is the same in each version of Python."""
    return zlib.compress(text.encode(), 9, 31)


def putter(root):
    def put(path, content, mode=0o644):
        file = root / path
        file.parent.mkdir(parents=True, exist_ok=True)
        file.write_bytes(content if isinstance(content, bytes) else content.encode())
        file.chmod(mode)

    return put


def manual_page(file, version, date):
    return packed(re.sub(r'^(\.TH \S+ \d) \S+ "acd [^"]*"', rf'\1 {date} "acd {version}"', file.read_text(),
                         flags=re.MULTILINE))


def sizes_and_sums(root):
    """What the files take, in kilobytes, and the sums of those that no administrator changes."""
    files = sorted(file for file in root.rglob("*") if file.is_file() and not file.is_symlink())
    size = sum(file.stat().st_size // 1024 + 1 for file in files)
    return size, "".join(f"{hashlib.md5(file.read_bytes()).hexdigest()}  "
                         f"{file.relative_to(root)}\n" for file in files if file.parts[len(root.parts)] != "etc")


def put_modules(put, package, modules):
    """The modules by their places in the package's own folder, and what compiles them anew for another version of
    Python."""
    for place, file in modules.items():
        put(f"usr/share/{package}/{place}", file.read_bytes())
    put(f"usr/share/python3/runtime.d/{package}.rtupdate", COMPILED_ANEW.format(package=package), 0o755)


def lay_out_service(root, put, version):
    """The command acdctl with its package, and its old names."""
    if f'VERSION = "{version}"\n' not in (SERVICE / "acd_service/__init__.py").read_text():
        fail(f"CHANGELOG.md begins with version {version}, and service/acd_service/__init__.py has another one")
    put("usr/share/acd/acdctl", (SERVICE / "acdctl").read_bytes(), 0o755)
    put_modules(put, "acd",
                {file.relative_to(SERVICE): file for file in sorted((SERVICE / "acd_service").rglob("*.py"))} |
                {name: CLIENT / name for name in CLIENT_MODULES})
    for folder, names in {"usr/bin": ("acdctl", *OLD_NAMES_OF_USERS), "usr/sbin": OLD_NAMES_OF_ROOT}.items():
        (root / folder).mkdir(parents=True, exist_ok=True)
        for name in names:
            (root / folder / name).symlink_to("../share/acd/acdctl")


def lay_out_help(root, put, version, date):
    """The manual pages and the completions: those of the program as they are, those of acdctl and its old names by what
    its parsers know."""
    completions = "usr/share/bash-completion/completions"
    put(f"{completions}/acd", (SERVICE / "completion/acd.bash").read_bytes())
    with tempfile.TemporaryDirectory() as folder:
        told("/usr/bin/python3", "-B", SERVICE / "man/make", folder,
             env={**os.environ, "PYTHONPATH": f"{SERVICE}:{CLIENT}"})
        for page in (SERVICE / "man/acd.1", *sorted(Path(folder).glob("man*/*"))):
            put(f"usr/share/man/man{page.suffix[1:]}/{page.name}.gz", manual_page(page, version, date))
        put(f"{completions}/acdctl", Path(folder, "acdctl").read_bytes())
    for name in (*OLD_NAMES_OF_USERS, *OLD_NAMES_OF_ROOT):
        (root / completions / name).symlink_to("acdctl")


def lay_out(root, options, moment):
    """Fills the folder with what the package has; the folder DEBIAN has its control files."""
    versions = changes()
    version, date, _ = versions[0]
    program, toolchain, source = checked_program(options, version)
    differences = differences_from_help(program, SERVICE / "man/acd.1", SERVICE / "completion/acd.bash",
                                        {"--version"} if options.unchecked_version else frozenset())
    if differences:
        fail("\n".join(differences))

    put = putter(root)
    put("usr/bin/acd", program.read_bytes(), 0o755)
    told("strip", "--strip-unneeded", "--remove-section=.comment", "--remove-section=.note", root / "usr/bin/acd")
    lay_out_service(root, put, version)
    for page in sorted(path for path in BOARD.rglob("*") if path.suffix in PAGES):
        put(f"usr/share/acd/board/{page.relative_to(BOARD)}", page.read_bytes())
    lay_out_help(root, put, version, date)
    for name in UNITS:
        put(f"usr/lib/systemd/system/{name}", (SERVICE / "units" / name).read_bytes())
    put("usr/lib/tmpfiles.d/acd.conf", (SERVICE / "tmpfiles/acd.conf").read_bytes())
    put("usr/share/acd/keep-reads", (PACKAGING / "acd/keep-reads").read_bytes(), 0o755)
    (root / "etc/acd").mkdir(parents=True)
    # records are written behind each copy, so their unit is wanted by that of the copies
    put("usr/share/lintian/overrides/acd", "acd: systemd-service-file-refers-to-unusual-wantedby-target "
                                           "acd-copy.service *\n")
    doc = "usr/share/doc/acd/"
    for ending in ("*.md", "*.png", "api.html", "*.yaml", "pictures/*.svg"):
        for page in sorted((TOP / "docs").glob(ending)):
            put(f"{doc}{page.relative_to(TOP / 'docs')}", page.read_bytes())
    for example in ("nginx/nginx.conf", "settings/node.env", "settings/follow.env", "settings/rules.env",
                    "settings/rules.toml", "settings/webhook.env", "monitoring/alerts.yaml",
                    "monitoring/dashboard.json"):
        put(f"{doc}examples/{Path(example).name}", (SERVICE / example).read_bytes())
    # no conffiles, about which an upgrade would ask: postinst makes both in /etc/acd, once. It reads nothing of the
    # documents, which a machine may leave out
    for name in ("acd.env", "roles"):
        put(f"usr/share/acd/{name}", (SERVICE / "settings" / name).read_bytes())
        (root / doc / "examples" / name).symlink_to(f"../../../acd/{name}")
    put(doc + "README.Debian", (PACKAGING / "acd/README.Debian").read_text() + f"  {toolchain}\n  sources {source}\n")
    put(doc + "changelog.gz", packed(debian_changelog(versions, moment)))
    put(doc + "copyright", copyright_text(version, linked_notices(program)))

    size, sums = sizes_and_sums(root)
    with tempfile.TemporaryDirectory() as scratch:
        libraries = library_packages(root / "usr/bin/acd", Path(scratch))
    ours = "adduser, python3 (>= 3.11), python3-aiohttp, python3-bcrypt, python3-passlib"
    needed = ", ".join(filter(None, [libraries, ours]))
    put("DEBIAN/control", f"Package: acd\nVersion: {version}\nArchitecture: amd64\nMaintainer: {MAINTAINER}\n"
                          f"Installed-Size: {size}\nDepends: {needed}\nRecommends: nftables, python3-icalendar\n"
                          "Suggests: nginx, etcd-server, etcd-client\nSection: net\nPriority: optional\n"
                          f"Description: {DESCRIPTION} Built by {toolchain} from the sources of checksum\n {source}.\n")
    put("DEBIAN/md5sums", sums)
    for script in ("preinst", "postinst", "prerm", "postrm"):
        put(f"DEBIAN/{script}", (PACKAGING / "acd" / script).read_bytes(), 0o755)
    return version


def lay_out_exchange(root, version, moment):
    """Fills the folder with the exchange: its bridge, its edge, and the client that it speaks to the desk by."""
    put, versions, doc = putter(root), changes(), "usr/share/doc/acd-exchange/"
    put_modules(put, "acd-exchange",
                {file.relative_to(EXCHANGE): file for file in sorted((EXCHANGE / "bridge").glob("*.py"))} |
                {name: CLIENT / name for name in CLIENT_MODULES})
    put("usr/share/acd-exchange/acd-exchange", (EXCHANGE / "acd-exchange").read_bytes(), 0o755)
    for name in ("acd-account", "acd-edge-limit"):
        put(f"usr/sbin/{name}", (EXCHANGE / name).read_bytes(), 0o755)
    (root / "usr/sbin/acd-exchange").symlink_to("../share/acd-exchange/acd-exchange")
    for name in ("acd-exchange.8", "acd-account.8", "acd-edge-limit.8"):
        put(f"usr/share/man/man8/{name}.gz", manual_page(EXCHANGE / name, version, versions[0][1]))
    for name in ("acd-exchange.service", "acd-edge.service", "acd-edge-limit.service"):
        put(f"usr/lib/systemd/system/{name}", (EXCHANGE / name).read_bytes())
    # no conffiles, so that no upgrade asks: postinst makes each of them once. It mayn't need what is below
    # /usr/share/doc
    for name in ("exchange.env", "local.cfg"):
        put(f"usr/share/acd-exchange/{name}", (EXCHANGE / name).read_bytes())
        (root / doc / "examples").mkdir(parents=True, exist_ok=True)
        (root / doc / "examples" / name).symlink_to(f"../../../acd-exchange/{name}")
    put("etc/acd/edge/kamailio.cfg", (EXCHANGE / "kamailio.cfg").read_bytes())
    # the folder in which postinst gives files to the edge is root's: nobody else can put a link there
    put("usr/share/lintian/overrides/acd-exchange", "acd-exchange: recursive-privilege-change * [postinst:*]\n")
    for name in ("EXCHANGE.md", "pictures/one-machine.svg"):
        put(doc + name, (TOP / "docs" / name).read_bytes())
    put(doc + "changelog.gz", packed(debian_changelog(versions, moment, "acd-exchange")))
    put(doc + "copyright", copyright_text(version))
    size, sums = sizes_and_sums(root)
    put("DEBIAN/control", f"Package: acd-exchange\nVersion: {version}\nArchitecture: all\nMaintainer: {MAINTAINER}\n"
                          f"Installed-Size: {size}\n"
                          "Depends: adduser, kamailio, kamailio-tls-modules, python3 (>= 3.11)\n"
                          "Recommends: acd, nftables\nSuggests: asterisk-moh-opsound-wav\nSection: net\n"
                          f"Priority: optional\nDescription: {EXCHANGE_DESCRIPTION}")
    put("DEBIAN/md5sums", sums)
    put("DEBIAN/conffiles", "/etc/acd/edge/kamailio.cfg\n")
    for script in ("postinst", "prerm", "postrm"):
        put(f"DEBIAN/{script}", (PACKAGING / "acd-exchange" / script).read_bytes(), 0o755)


def build(root, package, moment):
    for path in [root, *root.rglob("*")]:
        if path.is_dir() and not path.is_symlink():
            path.chmod(0o755)
        os.utime(path, (moment, moment), follow_symlinks=False)
    package.parent.mkdir(parents=True, exist_ok=True)
    told("dpkg-deb", "--build", "--root-owner-group", "-Zxz", "--threads-max=1", root, package,
         env={**os.environ, "SOURCE_DATE_EPOCH": str(moment)})
    print(f"{hashlib.sha256(package.read_bytes()).hexdigest()}  {package}")


def moment_of(date):
    """The moment of the commit, else noon of the version's day: so it is behind that of an older version of the same
    day. A folder above may be a clone of something else."""
    if (TOP / ".git").exists() and shutil.which("git"):
        # the clone may be another user's, which git refuses unless it is told
        return int(told("git", "-c", f"safe.directory={TOP}", "log", "-1", "--format=%ct", cwd=TOP))
    return int(told("date", "-u", "+%s", "-d", f"{date} 12:00"))


def main():
    parser = argparse.ArgumentParser(usage="packaging/package [--out FOLDER] [--program P] [--unchecked-version]")
    parser.add_argument("--out", type=Path, default=TOP / "out")
    parser.add_argument("--program", type=Path, default=TOP / "release/acd")
    parser.add_argument("--unchecked-version", action="store_true")
    options = parser.parse_args()
    if os.uname()[::4] != ("Linux", "x86_64"):
        fail("the program is for Linux on x86-64, and is asked for its --help here")
    moment = moment_of(changes()[0][1])
    try:
        with tempfile.TemporaryDirectory() as folder:
            root = Path(folder) / "acd"
            root.mkdir()
            version = lay_out(root, options, moment)
            build(root, options.out / f"acd_{version}_amd64.deb", moment)
            root = Path(folder) / "acd-exchange"
            root.mkdir()
            lay_out_exchange(root, version, moment)
            build(root, options.out / f"acd-exchange_{version}_all.deb", moment)
    except notices.Fault as fault:
        fail(fault)


if __name__ == "__main__":
    main()
