"""Places in which packages and documents are tried: a new root of the system that this machine runs, or only a folder; and a kit
that proves nothing, for what asks for one.

The root is made by debootstrap and apt from the package source that this machine's own configuration names.
"""

import os
import re
import shutil
import subprocess
import urllib.request

from library import TOP

HERE = os.path.dirname(os.path.abspath(__file__))
PATH = "/usr/sbin:/usr/bin:/sbin:/bin"
SECONDS = 300  # for a command
ROOM = 3 << 30  # bytes of disk that a root may take
TOOLS = ["gcc", "g++", "libc6-dev", "pkg-config", "cmake", "make", "rustc", "cargo", "python3", "python3-yaml", "libyaml-dev",
         "yamllint"]


# What a command mounts goes with it, and so does what it has started, also if it is killed.
APART = ["unshare", "--mount", "--pid", "--kill-child"]
# A command in a root, with /proc there, which rustc needs.
IN_ROOT = [*APART, "sh", "-c", 'mount -t proc proc "$0/proc" && exec chroot "$0" "$@"']


class NoRoot(Exception):
    """Why no root can be made here."""


class Place:
    """Where commands are run with a small environment: in a root, or on this machine if the root is empty."""

    def __init__(self, root, folder, environment):
        self.root, self.folder = root, folder
        self.environment = {"LC_ALL": "C.UTF-8", **environment}
        os.makedirs(self.outer(folder), exist_ok=True)

    def outer(self, path):
        """What a path of the place is on this machine."""
        return self.root + path

    def command(self, words, folder=None, **more):
        """A command as this machine has to run it."""
        variables = [f"{name}={value}" for name, value in {**self.environment, **more}.items()]
        words = ["env", "-i", *variables, "env", "-C", folder or self.folder, *words]
        return [*IN_ROOT, self.root, *words] if self.root else words

    def run(self, words, data=b"", folder=None, **more):
        command = self.command(words, folder, **more)
        return subprocess.run(command, input=data, stdout=subprocess.PIPE, stderr=subprocess.PIPE, timeout=SECONDS)

    def has(self, tool):
        return self.run(["sh", "-c", f"command -v {tool}"]).returncode == 0


def said(words):
    return subprocess.run(words, check=True, capture_output=True, text=True).stdout


def codename():
    with open("/etc/os-release", encoding="utf-8") as text:
        found = re.search(r"^VERSION_CODENAME=(\w+)$", text.read(), re.M)
    if not found:
        raise NoRoot("the system has no codename")
    return found[1]


def sources():
    """The package sources of this machine that are of its own system: address, suite and component of each."""
    words = ["apt-get", "indextargets", "--format", "$(REPO_URI) $(RELEASE) $(COMPONENT)", "Created-By: Packages"]
    system = codename()
    found = [tuple(line.split()) for line in said(words).splitlines()]
    return [source for source in found if len(source) == 3 and source[1].split("-")[0] == system]


def main_source():
    """The address and the suite of the source that a root is made from, which has to answer."""
    for address, suite, part in sources():
        if suite == codename() and part == "main":
            try:
                urllib.request.urlopen(f"{address.rstrip('/')}/dists/{suite}/InRelease", timeout=10).close()
            except (OSError, ValueError) as problem:
                raise NoRoot(f"the machine's package source does not answer: {problem}") from problem
            return address, suite
    raise NoRoot("the machine's configuration names no package source of its own system")


def check_machine(room):
    if os.geteuid() != 0:
        raise NoRoot("it takes the rights of root")
    for tool in ("debootstrap", "apt-get", "chroot", "unshare"):
        if shutil.which(tool, path=PATH) is None:
            raise NoRoot(f"there is no {tool}")
    if shutil.disk_usage(room).free < ROOM:
        raise NoRoot(f"it takes {ROOM >> 30} GB of disk")


def step(words, log, seconds):
    """Runs a step of making a root, and keeps what it prints in a file. What it writes need not survive a crash."""
    environment = {**os.environ, "DPKG_FORCE": "unsafe-io"}
    with open(log, "ab") as out:
        try:
            done = subprocess.run(words, stdin=subprocess.DEVNULL, stdout=out, stderr=out, env=environment, timeout=seconds)
        except subprocess.TimeoutExpired as problem:
            raise NoRoot(f"a step took more than {seconds} seconds: {' '.join(words[-4:])}") from problem
    if done.returncode:
        with open(log, encoding="utf-8", errors="replace") as text:
            raise NoRoot(f"a step failed: {' '.join(words[-4:])}: " + " / ".join(text.read().strip().splitlines()[-3:]))


def configure(root):
    """Gives a root the machine's package sources and how it reaches them."""
    etc = os.path.join(root, "etc")
    with open(os.path.join(etc, "apt", "sources.list"), "w", encoding="utf-8") as out:
        out.writelines(f"deb {address} {suite} {part}\n" for address, suite, part in sources())
    with open(os.path.join(etc, "apt", "apt.conf.d", "90machine"), "w", encoding="utf-8") as out:
        out.write(said(["apt-config", "dump", "--format", '%f "%v";%n', "Acquire"]))
    with open(os.path.join(etc, "dpkg", "dpkg.cfg.d", "fast"), "w", encoding="ascii") as out:
        out.write("force-unsafe-io\n")


def make_root(room):
    """A new root with compilers and Python, or NoRoot."""
    check_machine(room)
    address, suite = main_source()
    root, log = os.path.join(room, "root"), os.path.join(room, "root.log")
    step([*APART, "debootstrap", "--variant=minbase", suite, root, address], log, 240)
    configure(root)
    place = Place(root, "/tmp/tests", {"PATH": PATH, "HOME": "/root", "DEBIAN_FRONTEND": "noninteractive"})
    step(place.command(["apt-get", "update", "-q"]), log, 120)
    step(place.command(["apt-get", "install", "-y", "-q", "--no-install-recommends", *TOOLS]), log, 240)
    return place


def make_folder(room):
    """A folder of this machine, with the paths of the system, of cargo and of nothing else."""
    paths = [PATH, *{os.path.dirname(path) for path in [shutil.which("cargo")] if path}]
    return Place("", os.path.join(room, "folder"), {"PATH": ":".join(paths), "HOME": os.path.expanduser("~")})


def make_kit(room, program):
    """A kit that proves nothing (kit.py): it has the program, the testbench and the scanner of the library that are built."""
    made, tools = os.path.join(room, "kit", "made"), os.path.join(room, "kit", "bin")
    for folder in (made, tools, os.path.join(room, "kit", "c")):
        os.makedirs(folder)
    for name in ("rt", "rattle"):
        shutil.copy(os.path.join(HERE, "kit.py"), os.path.join(tools, name))
    with open(os.path.join(tools, "apt-get"), "w", encoding="ascii") as out:
        out.write("#!/bin/sh\n")
    os.chmod(os.path.join(tools, "apt-get"), 0o755)
    testbench = os.path.join(os.path.dirname(program), "..", "..", "testbench", "out", "testbench")
    shutil.copy(program, os.path.join(made, "yamltok"))
    shutil.copy(testbench if os.path.exists(testbench) else program, os.path.join(made, "testbench"))
    archive = os.path.join(made, "libyaml_c.a")
    shutil.copy(os.path.join(TOP, "ffi", "out", "libbogzhami.a"), archive)
    subprocess.run(["ar", "d", archive, "version.o", "names.o"], check=True)
    subprocess.run(["ar", "rcs", os.path.join(room, "kit", "c", "liblibc_c.a")], check=True)
