"""Makes a Debian package by debhelper. debian/ has what is not made here."""

import email.utils
import os
import pathlib
import re
import shutil
import subprocess
import tempfile
import textwrap

from install import stage
from shared import TOP, changes, tool, tools


def commit(form):
    """What git says of the last commit, nothing without it."""
    git = ["git", "-C", str(TOP), "log", "-1", f"--format={form}"]
    try:
        return subprocess.run(git, capture_output=True, text=True, check=False).stdout.strip()
    except FileNotFoundError:
        return ""


def changelog(maintainer):
    """CHANGELOG.md as Debian's packages have it: an entry for each version, with its points."""
    for version, day, text in changes():
        yield f"cachesim ({version}) unstable; urgency=medium\n"
        for point in re.split(r"\n\n+|\n(?=- )", text.strip()):
            yield textwrap.fill(" ".join(point.lstrip("#- ").split()), 78, initial_indent="  * ",
                                subsequent_indent="    ")
        yield f"\n -- {maintainer}  {email.utils.format_datetime(day)}\n"


def make(folder):
    """Has debhelper make the package in a folder, where it leaves it beside what it is made of."""
    own = folder / "cachesim"
    if len(stage(own / "usr")) < len(tools()):
        tool.fail("a package is made whole, or not at all")
    (own / "usr/share/zsh/site-functions").rename(own / "usr/share/zsh/vendor-completions")
    shutil.copytree(TOP / "package/debian", own / "debian")
    known = {**os.environ, "DEB_RULES_REQUIRES_ROOT": "no"}
    if epoch := known.get("SOURCE_DATE_EPOCH") or commit("%ct"):
        known["SOURCE_DATE_EPOCH"] = epoch  # debhelper takes the day of the version else
    mail, maintainer = known.get("DEBEMAIL"), commit("%an <%ae>") or "nobody <nobody@localhost>"
    maintainer = f"{known.get('DEBFULLNAME') or mail} <{mail}>" if mail else maintainer
    (own / "debian/changelog").write_text("\n".join(changelog(maintainer)), encoding="utf-8")
    ran = subprocess.run(["debian/rules", "binary"], cwd=own, env=known, text=True, check=False,
                         stdin=subprocess.DEVNULL, stdout=subprocess.PIPE, stderr=subprocess.STDOUT)
    if ran.returncode:
        tool.fail(f"debhelper failed:\n{ran.stdout}")
    return next(folder.glob("*.deb"))


def deb(to=TOP / "out"):
    for command, package in ("dh", "debhelper"), ("lowdown", "lowdown"), ("cc", "gcc"):
        tool.needs(command, package)
    with tempfile.TemporaryDirectory(prefix="cachesim-deb.") as folder, tool.faults_of(to):
        package = make(pathlib.Path(folder))
        to.mkdir(parents=True, exist_ok=True)
        shutil.copy(package, to)
    tool.write_lines([f"made: {to / package.name}"])
