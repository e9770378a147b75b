"""Runs tshark with segrx in its menu and with a home of its own, so that nothing of the machine's
is changed.
"""

import concurrent.futures
import os
import re
import shutil
import subprocess
import time

from shared import children
from shared.table_of_runs import contents
from shared.tree import path

# As root tshark takes interfaces from the system's folder alone, so somebody else runs it then.
NOBODY = 65534
SECONDS = 60
# The names of the sample in the folder in which tshark runs.
CAPTURE, MAP = "bonded.pcapng", "bonded.map"


class Menu:
    """A folder in which tshark runs, with segrx in the menu, and the sample."""

    def __init__(self, room):
        os.chmod(room, 0o755)
        self.room, self.programs = room, os.path.join(room, "menu")
        self.segrx = os.path.join(self.programs, "segrx")
        self.home, self.temporary = os.path.join(room, "home"), os.path.join(room, "temporary")
        self.who = {}
        for folder in (self.home, self.temporary):
            os.mkdir(folder)
            if os.geteuid() == 0:
                self.who = {"user": NOBODY, "group": NOBODY, "extra_groups": []}
                os.chown(folder, NOBODY, NOBODY)
        self.given = {"PATH": os.environ["PATH"], "LC_ALL": "C.UTF-8", "HOME": self.home}
        self.given |= {"TMPDIR": self.temporary, "WIRESHARK_EXTCAP_DIR": self.programs}
        for name in (CAPTURE, MAP):
            self.copy(name, name)

    def in_room(self, name):
        return os.path.join(self.room, name)

    def copy(self, name, to):
        """Copies an example so that anybody can read it."""
        shutil.copyfile(path("examples", name), self.in_room(to))

    def pipe(self, name):
        """A pipe with a name, into which anybody can write."""
        os.mkfifo(self.in_room(name))
        os.chmod(self.in_room(name), 0o666)
        return self.in_room(name)

    def install(self, segrx):
        """Installs the program as users do, and returns where it is."""
        prefix = self.in_room("a user's prefix")
        words = ["make", "install", f"PREFIX={prefix}", f"EXTCAPDIR={self.programs}"]
        given = {name: value for name, value in os.environ.items() if name != "MAKEFLAGS"}
        # No library is built for this: the program's bytes stand in its place.
        given |= {"SEGRX": segrx, "SEGRX_ARCHIVE": segrx}
        how = {"cwd": path(), "env": given, "stdout": subprocess.DEVNULL}
        subprocess.run(words, check=True, **how)
        return os.path.join(prefix, "bin", "segrx")

    def put(self, folder, lines):
        """Puts a script of these lines into another menu, in the program's place."""
        stand_in = self.in_room("stand-in")
        with open(stand_in, "w") as script:
            script.write(f"#!/bin/sh\n{lines}\n")
            os.chmod(script.fileno(), 0o755)
        os.mkdir(folder)
        subprocess.run([path("scripts", "extcap-program"), "put", folder, stand_in], check=True)

    def how(self, **more):
        """How programs are run: with these variables besides."""
        return {"cwd": self.room, "env": self.given | more, **self.who}

    def asked(self, *words):
        """What the menu's program prints by itself, standard error among it, and its status."""
        ran = children.run([self.segrx, *words], SECONDS, **self.how())
        return ran.stdout, ran.returncode

    def tshark(self, *words, **more):
        """What tshark prints, standard error among it."""
        return children.run(["tshark", *words], SECONDS, **self.how(**more)).stdout

    def captured(self, settings, *words, **more):
        """The bytes of the file that tshark writes by these settings, and what it prints."""
        written = os.path.join(self.home, f"{time.monotonic_ns()}.pcapng")
        said = self.tshark("-i", "segrx", "-w", written, *chosen(settings), *words, **more)
        return contents(written) if os.path.exists(written) else b"", said

    def left_files(self):
        return sorted(os.listdir(self.temporary))


def chosen(settings):
    """Settings as tshark takes them."""
    pairs = ((name.replace("-", ""), value) for name, value in settings.items())
    return [word for name, value in pairs for word in ("-o", f"extcap.segrx.{name}:{value}")]


def error_in(said):
    """What tshark shows as the interface's error, or nothing."""
    found = re.search(r"Error by extcap pipe: (.*?)\n(?:\n|\d+ packets)", said, re.DOTALL)
    return found[1].strip() if found else ""


def found_by(looks, jobs):
    """What these calls find wrong, so many at once."""
    with concurrent.futures.ThreadPoolExecutor(jobs) as pool:
        looking, wrong = [pool.submit(lambda look=look: list(look())) for look in looks], []
        for look in looking:
            try:
                wrong += look.result()
            except subprocess.TimeoutExpired as late:
                wrong.append(f"{late.cmd} doesn't end within {late.timeout} s")
    return wrong
