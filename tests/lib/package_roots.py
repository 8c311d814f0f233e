"""Roots of a system that has neither the kit nor Python nor a compiler, for packages.py."""

import os
import re
import shutil
import subprocess

# The programs of the least root: those of Debian's essential packages that dpkg, install.sh and the commands of README call.
TOOLS = """sh bash env cat chmod chown cmp cp cut dirname diff echo find grep head id install ln ls mkdir mktemp mv printf readlink rm rmdir
sed sort tar tail tee touch true uname wc xz gzip sha256sum dpkg dpkg-deb dpkg-split dpkg-query update-alternatives ldconfig
start-stop-daemon""".split()
SUITE, SECONDS = "bookworm", 600  # of Debian, and for debootstrap
DPKG = [f"var/lib/dpkg/{name}" for name in ("info", "updates", "triggers", "alternatives")]
PATH = "/usr/sbin:/usr/bin:/sbin:/bin"
# What every installation and removal of a package changes, and its records.
RECORDS = ("var/", "etc/ld.so.cache", "tmp/", "proc/", "dev/", "sys/", "run/")


def chroot_words():
    """Returns the words that run a command in another root, None if this user can't do that."""
    for words in (["chroot"], ["unshare", "--map-root-user", "chroot"]):
        try:
            if subprocess.run([*words, "/", "true"], capture_output=True).returncode == 0:
                return words
        except OSError:
            pass
    return None


def needed_files(path):
    table = subprocess.run(["ldd", path], capture_output=True, text=True).stdout
    return re.findall(r"(/\S+)", table)


def copy_in(root, path):
    """Copies a file of this system into a root, at the same path."""
    place = root + path
    if not os.path.exists(place):
        os.makedirs(os.path.dirname(place), exist_ok=True)
        shutil.copy2(os.path.realpath(path), place)


def least_root(root):
    """Fills a folder with the programs of TOOLS and their libraries, and a list of packages that has the C library."""
    for name in ("bin", "sbin", "lib", "lib64"):
        os.makedirs(os.path.join(root, "usr", name))
        os.symlink("usr/" + name, os.path.join(root, name))
    for name in TOOLS:
        path = shutil.which(name, path=PATH)
        if path:
            for file in [path, *needed_files(path)]:
                copy_in(root, file)
    for name in ("tmp", "dev", "etc/alternatives", "var/log", *DPKG):
        os.makedirs(os.path.join(root, name))
    with open(os.path.join(root, "dev/null"), "w"):
        os.chmod(os.path.join(root, "dev/null"), 0o666)
    told = subprocess.run(["dpkg-query", "-s", "libc6"], capture_output=True, text=True).stdout
    stanza = re.sub(r"(?m)^(Depends|Conffiles|Recommends|Suggests|Breaks|Replaces):.*\n( .*\n)*", "", told)
    with open(os.path.join(root, "var/lib/dpkg/status"), "w", encoding="utf-8") as file:
        file.write(stanza.rstrip("\n") + "\n\n")
    open(os.path.join(root, "var/lib/dpkg/available"), "w").close()


def debian_root(root):
    """Fills a folder with Debian's least system. Returns whether that was possible in time."""
    if not shutil.which("debootstrap", path=PATH) or os.geteuid() != 0:
        return False
    # Its mounts vanish with its name space, also after a timeout.
    command = ["unshare", "--mount", "timeout", "-k", "5", str(SECONDS), "debootstrap", "--variant=minbase", SUITE, root]
    return subprocess.run(command, capture_output=True).returncode == 0


class Root:
    """A folder with a system, and commands that run in it."""

    def __init__(self, folder):
        self.path, self.words, self.is_debian = os.path.join(folder, "root"), chroot_words(), False
        if self.words is None:
            os.makedirs(self.path)
            self.kind = "an empty folder and a clean environment, since no other root can be entered here"
        elif debian_root(self.path):
            self.kind, self.is_debian = "Debian's least system", True
            self.copy("/etc/resolv.conf", "/etc/resolv.conf")
        else:
            shutil.rmtree(self.path, ignore_errors=True)
            os.makedirs(self.path)
            least_root(self.path)
            self.kind = f"a root with the {len(TOOLS)} programs that dpkg and install.sh call"
        os.makedirs(self.inside("tmp"), exist_ok=True)

    def inside(self, path):
        return os.path.join(self.path, path.lstrip("/"))

    def run(self, script, seconds=60):
        """Runs a shell script in the root, for so many seconds at most. Returns its status and what it prints."""
        if self.words is None:
            command, path = ["sh", "-c", script], f"{self.inside('usr/bin')}:{PATH}"
        else:
            command, path = [*self.words, self.path, "/bin/sh", "-c", script], PATH
        given = {"PATH": path, "HOME": "/tmp", "LC_ALL": "C", "DEBIAN_FRONTEND": "noninteractive"}
        done = subprocess.run(command, capture_output=True, text=True, env=given, cwd="/", timeout=seconds)
        return done.returncode, done.stdout + done.stderr

    def copy(self, path, place):
        to = self.inside(place)
        os.makedirs(os.path.dirname(to), exist_ok=True)
        if os.path.isdir(path):
            shutil.copytree(path, to, symlinks=True)
        else:
            shutil.copy2(path, to)

    def set_processor(self, flags):
        os.makedirs(self.inside("proc"), exist_ok=True)
        with open(self.inside("proc/cpuinfo"), "w", encoding="ascii") as file:
            file.write(f"flags\t\t: {flags}\n")

    def files(self):
        """Returns the paths of all files and links that are no RECORDS."""
        found = set()
        for at, _, names in os.walk(self.path):
            found |= {os.path.relpath(os.path.join(at, name), self.path) for name in names}
        return {it for it in found if not it.startswith(RECORDS)}
