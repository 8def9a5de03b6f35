"""Whether packaging/package makes the packages on a plain Debian, out of a tar file: without network, toolchain and git, by an ordinary user.

Where something is missing it has to say so in one line, and make nothing. What it makes there has to be what it makes here, but for its moment."""
import filecmp
import os
import re
import shutil
import subprocess
from pathlib import Path

from base import ALONE, SUITES, make_base, unpack
from trial import TOP, Trial

# base-files is in each Debian: nothing more than the smallest one
NOTHING, NEEDED = "base-files", "binutils,dpkg-dev,python3"
PLACE = "home/ana/acd"
LACKING = ("packaging/package: not found: python3, nm, strip, dpkg-shlibdeps. As root: apt-get install --no-install-recommends python3 binutils dpkg-dev\n")
HALF = "packaging/package: not found: python3. As root: apt-get install --no-install-recommends python3\n"


def printed(words, **how):
    """The status, and all that a command prints."""
    done = subprocess.run([str(word) for word in words], stdin=subprocess.DEVNULL, stdout=subprocess.PIPE, stderr=subprocess.STDOUT, text=True, **how)
    return done.returncode, done.stdout


def git(*words, at=TOP):
    return subprocess.run(["git", "-C", at, *words], stdout=subprocess.PIPE, text=True, check=True).stdout.strip()


def archive(to):
    """What git tracks, as it is now, in a tar file."""
    subprocess.run(["git", "-C", TOP, "archive", "-o", to, git("stash", "create") or "HEAD"], check=True)
    return to


class Plain(Trial):
    BASES, suite = (NOTHING, NEEDED), SUITES[0]

    @classmethod
    def setUpClass(cls):
        super().setUpClass()
        cls.tar = archive(cls.folder / "acd.tar")
        cls.date = re.search(r"^# acd \S+ \((\S+)\)", (TOP / "CHANGELOG.md").read_text(), re.MULTILINE)[1]

    def unpacked(self, to):
        to.mkdir(parents=True)
        subprocess.run(["tar", "-C", to, "-xf", self.tar], check=True)
        return to

    def debian(self, name, included):
        """A Debian with these packages, and the tar file unpacked by a user of it."""
        root = self.folder / name
        unpack(make_base(self.options.folder, included, self.suite), root)
        printed(["chroot", root, "useradd", "--create-home", "ana"])
        self.unpacked(root / PLACE)
        printed(["chroot", root, "chown", "-R", "ana:", f"/{PLACE}"])
        return root

    def made_in(self, root):
        path = "PATH=/usr/local/bin:/usr/bin:/bin:/usr/sbin:/sbin"
        return printed([*ALONE, "--net", f"--mount-proc={root}/proc", "chroot", root, "env", "-i", path, "HOME=/home/ana", "runuser", "-u", "ana", "--", "sh", "-c", f"cd /{PLACE} && packaging/package"])

    def contents(self, folder):
        """What is in the packages of a folder, each unpacked."""
        for package in sorted(folder.glob("*.deb")):
            to = folder / package.name.partition("_")[0]
            printed(["dpkg-deb", "-R", package, to])
            yield to

    def stamp(self, folder):
        """The moment of the newest entry of the changelog, in seconds; 0 where there is none."""
        found = re.search(r"^ -- .*>  (.*)$", printed(["zcat", folder / "acd/usr/share/doc/acd/changelog.gz"])[1], re.MULTILINE)
        return int(printed(["date", "+%s", "-d", found[1]])[1]) if found else 0

    def expect_same(self, there, here):
        """The files are the same, but for what has the moment in it."""
        for one in (there, here):
            self.expect(f"packages in {one.name}", [path.name for path in self.contents(one)], ["acd-exchange", "acd"])
        names = [sorted(str(path.relative_to(one)) for path in one.rglob("*") if path.is_file() and path.suffix != ".deb") for one in (there, here)]
        self.expect("the files of both", names[0], names[1])
        differ = filecmp.cmpfiles(there, here, names[1], shallow=False)[1:]
        moved = [name for name in names[1] if name.endswith(("/changelog.gz", "/DEBIAN/md5sums", "/DEBIAN/control"))]
        self.expect("files that differ", [name for part in differ for name in part if name not in moved], [])
        # how long the changelog is once it is packed, and so the size, is by the moment
        controls = [[re.sub("(?m)^Installed-Size: .*$", "", control.read_text()) for control in sorted(one.glob("*/DEBIAN/control"))] for one in (there, here)]
        self.expect("what control says but for the size", *controls)

    def expect_licences(self, folder):
        """The copyright of both packages; and each notice of the toolchain, where that is here."""
        for name in ("acd", "acd-exchange"):
            text = (folder / name / f"usr/share/doc/{name}/copyright").read_text()
            for wanted in ("License: MIT OR Apache-2.0", "Copyright 2026 the maintainers of acd", "Permission is hereby granted", "/usr/share/common-licenses/Apache-2.0"):
                self.expect(f"{name}: {wanted}", wanted in text)
        text = (folder / "acd/usr/share/doc/acd/copyright").read_text()
        symbols = set(re.findall(r" \w (\w+)::", printed(["nm", TOP / "release/acd"])[1]))
        self.expect("crates that the symbols name, and the notices don't", sorted(name for name in symbols if not name.startswith("acd") and not re.search(rf"\b{name}\b", text)), [])
        kit = Path(printed(["rt", "doc"])[1].strip()).parent if shutil.which("rt") else None
        for file in sorted(file for name in symbols for file in (kit / "rattle" / name).glob("LICENSE*")) if kit else ():
            notice = file.read_text().strip("\n")
            self.expect(f"the notice {file}", notice in text or (notice.lstrip().startswith("Apache License") and f"{file.parent.name} ({file.name}" in text.replace("\n", " ")))

    def try_plain(self):
        bare = self.debian("bare", NOTHING)
        self.expect("the smallest Debian", self.made_in(bare), (1, LACKING))
        self.expect("nothing is made there", (bare / PLACE / "out").exists(), False)
        whole = self.debian("whole", NEEDED)
        library = next((whole / "usr/lib").glob("python3.*/email"))
        library.rename(f"{library}.away")
        self.expect("half of Python's library", self.made_in(whole), (1, HALF))
        Path(f"{library}.away").rename(library)
        status, said = self.made_in(whole)
        self.expect(f"a Debian with what it needs ({said[-300:]})", (status, said.count("\n")), (0, 2))
        if status:
            return
        there, here = whole / PLACE / "out", self.folder / "here"
        self.expect("made here", printed([TOP / "packaging/package", "--out", here])[0], 0)
        self.expect_same(there, here)
        self.expect("its moment", self.stamp(there), int(printed(["date", "-u", "+%s", "-d", f"{self.date} 12:00"])[1]))
        self.expect("that of a clone", self.stamp(here), int(git("log", "-1", "--format=%ct")))
        self.expect_licences(there)

    def try_other_clones(self):
        """A tar file that is unpacked in the clone of something else; and a clone that is another user's."""
        other = self.folder / "other"
        other.mkdir()
        git("init", "--quiet", at=other)
        git("-c", "user.name=a", "-c", "user.email=a@example", "commit", "--quiet", "--allow-empty", "-m", "other", at=other)
        tree = self.unpacked(other / "acd")
        self.expect("in another clone", printed([tree / "packaging/package"])[0], 0)
        list(self.contents(tree / "out"))
        self.expect("its moment is the version's", self.stamp(tree / "out"), int(printed(["date", "-u", "+%s", "-d", f"{self.date} 12:00"])[1]))
        clone = self.folder / "clone"
        # by its address, so that it shares no file with this one
        git("clone", "--quiet", "--depth", "1", f"file://{TOP}", clone)
        printed(["chown", "-R", "nobody:", clone])
        self.expect("a clone of another user", printed([clone / "packaging/package"], env={**os.environ, "HOME": "/nonexistent"})[0], 0)
        list(self.contents(clone / "out"))
        self.expect("its moment is the commit's", self.stamp(clone / "out"), int(git("log", "-1", "--format=%ct")))
