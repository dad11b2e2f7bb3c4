"""What several scripts need: they run programs, copy the repository, and read pages."""

import os
import pathlib
import re
import signal
import subprocess
import sys
import tempfile
from shutil import copytree, ignore_patterns, which

ROOT = pathlib.Path(__file__).resolve().parent.parent
# Of a page: a block with its language and the comment before it, such as `<!-- sample: PATH -->`, which .ci/texts and
# .ci/pages explain, or what a paragraph says that programs print.
BLOCK = re.compile(
    r"(?:^<!-- (?P<mark>\w+)(?:: )?(?P<value>[^\n]*?) -->\n)?^```(?P<language>\w+)\n(?P<text>.*?)^```$"
    r"|^(?:It|Each program) prints `(?P<printed>[^`]*)`",
    re.DOTALL | re.MULTILINE,
)
# The path and the heading of a link to a file.
LINK = re.compile(r"(?:\[[^\]]*\]\(|^\[[^\]]*\]: )(?!https:)([^)#\s]*)(?:#([^)\s]*))?(?:\)|$)", re.MULTILINE)
# What apt-get has to know, so that it reads and writes in one folder alone, as if no package were installed.
APT = """Dir::State "{apt}"; Dir::State::status "{apt}/status"; Dir::Cache "{apt}"; Dir::Etc::SourceParts "-";
Dir::Etc::SourceList "{apt}/sources"; APT::Architectures {{ {architectures} }}; Acquire::Languages "none";
APT::Sandbox::User "root"; APT::Install-Recommends "false";
"""
DEBIAN = "[signed-by=/usr/share/keyrings/debian-archive-keyring.gpg] {} bookworm main\n"


class Failure(Exception):
    """A check that failed, with what it says of that."""


def expect(is_right, what):
    if not is_right:
        raise Failure(what)


def read(path):
    return pathlib.Path(path).read_text(encoding="utf-8")


def run(command, printed=None, status=0, says=(), env=None, **options):
    """Runs a command with these variables, and returns what it printed or, if it has to fail, what it said on standard
    error. It must end with this status and, if these are given, print exactly one text and contain the others."""
    streams = {"stdout": subprocess.PIPE, "stderr": subprocess.STDOUT}
    if status != 0:
        streams = {"stdout": subprocess.DEVNULL, "stderr": subprocess.PIPE}
    ended = subprocess.run(command, **streams | {"env": os.environ | (env or {})} | options)
    # Other bytes than UTF-8 stay apart.
    output = ((ended.stderr if status else ended.stdout) or b"").decode(errors="backslashreplace")
    is_right = ended.returncode == status and printed in (None, output) and all(text in output for text in says)
    shown = command if isinstance(command, str) else " ".join(map(str, command))
    wanted = "".join(f"in place of:\n{text[-9999:]}" for text in ([printed] if printed is not None else says))
    expect(is_right, f"{shown}\nended with status {ended.returncode} and printed:\n{output[-20000:]}\n{wanted}")
    return output


def copy_tree(folder):
    """Copies the repository without what was built in it."""
    return copytree(ROOT, folder, ignore=ignore_patterns("out", "target", ".git"), symlinks=True)


def set_up_apt(apt, *others):
    """Makes apt-get read and write in a folder alone, also for other architectures. It fetches from the site that this
    machine gets its packages from."""
    site = re.search(r"'(\S*/debian)/dists/\S*InRelease", run(["apt-get", "update", "--print-uris"]))
    expect(site, "apt-get gets no packages from Debian")
    for name in ("archives/partial", "lists/partial"):
        (apt / name).mkdir(parents=True, exist_ok=True)
    (apt / "status").touch()
    (apt / "sources").write_text("".join(f"{kind} {DEBIAN.format(site[1])}" for kind in ("deb", "deb-src")))
    listed = " ".join(f'"{name}";' for name in (run(["dpkg", "--print-architecture"]).strip(), *others))
    (apt / "conf").write_text(APT.format(apt=apt, architectures=listed))
    os.environ["APT_CONFIG"] = str(apt / "conf")
    run(["apt-get", "-qq", "update"])


def call(main):
    """Runs a script with a temporary folder and its arguments. It ends with status 1, and says why, if a check fails or
    it is interrupted."""
    for number in (signal.SIGHUP, signal.SIGINT, signal.SIGTERM):
        signal.signal(number, lambda *_: sys.exit("interrupted"))
    with tempfile.TemporaryDirectory() as folder:
        try:
            sys.exit(main(pathlib.Path(folder), *sys.argv[1:]))
        except Failure as failure:
            sys.exit(str(failure))
