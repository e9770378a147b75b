"""Has bash complete lines of the program: by the function alone, and at a terminal."""

import contextlib
import os
import pty
import select
import shlex
import signal
import subprocess
import time

from shared.tree import path

COMPLETION = path("completions", "segrx.bash")
# What stands for all that readline finds by itself.
PATHS = "the paths of files"
SECONDS = 20


def offered(lines):
    """What the completion offers for the last word of each line: words, or PATHS."""
    given = [f"source {shlex.quote(COMPLETION)}", f"compopt() {{ echo {shlex.quote(PATHS)}; }}"]
    given.append("complete -p segrx")
    for words in lines:
        given.append(f"COMP_WORDS=(segrx {shlex.join(words)}) COMP_CWORD={len(words)} COMPREPLY=()")
        given.append("echo ==; _segrx segrx; printf '%s\\n' \"${COMPREPLY[@]}\"")
    how = {"capture_output": True, "text": True, "timeout": SECONDS}
    how["env"] = {**os.environ, "LC_ALL": "C.UTF-8"}
    ran = subprocess.run(["bash", "-u", "-s"], input="\n".join(given), **how)
    registered, *answers = ran.stdout.split("==\n")
    if registered != "complete -F _segrx segrx\n" or ran.stderr or len(answers) != len(lines):
        raise SystemExit(f"completing: the completion says {registered}{ran.stderr}")
    found = [[word for word in answer.splitlines() if word] for answer in answers]
    return [PATHS if words == [PATHS] else words for words in found]


def read_until(terminal, wanted):
    """What a terminal shows, up to these bytes, or all that it shows in some seconds."""
    shown, until = b"", time.monotonic() + SECONDS
    while wanted not in shown:
        if not select.select([terminal], [], [], max(0, until - time.monotonic()))[0]:
            break
        shown += os.read(terminal, 65536)
    return shown


@contextlib.contextmanager
def terminal_in(folder):
    """A terminal at which a bash with the completion runs in this folder."""
    child, terminal = pty.fork()
    if child == 0:
        os.chdir(folder)
        given = {"PATH": os.environ["PATH"], "TERM": "dumb", "INPUTRC": "/dev/null"}
        given |= {"HISTFILE": "", "PS1": "ready>", "LC_ALL": "C.UTF-8"}
        os.execvpe("bash", ["bash", "--norc", "--noprofile", "-i"], given)
    try:
        read_until(terminal, b"ready>")
        plain = "bind 'set enable-bracketed-paste off'"
        os.write(terminal, f"{plain}; . {shlex.quote(COMPLETION)}; echo sour''ced\n".encode())
        read_until(terminal, b"sourced\r\nready>")
        yield terminal
    finally:
        os.close(terminal)
        # Killed, so that nothing is waited for where it doesn't end with its terminal.
        os.kill(child, signal.SIGKILL)
        os.waitpid(child, 0)


def typed(terminal, keys, wanted):
    """What stands in the line once these keys were typed behind the program's name: all that is
    shown, up to what is wanted. The line is cleared then."""
    os.write(terminal, b"segrx " + keys.encode())
    shown = read_until(terminal, wanted.encode())
    os.write(terminal, b"\x15echo clea''red\n")
    read_until(terminal, b"cleared\r\nready>")
    return shown.decode(errors="replace")
