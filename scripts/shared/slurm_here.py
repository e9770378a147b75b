"""Slurm on this machine alone, in a folder of its own: munged, slurmctld and slurmd, which this
process starts as root and ends, each by its own id. Nothing of the machine's own Slurm or munge is
looked at or changed.
"""

import contextlib
import os
import shutil
import socket
import time

from shared import arguments, children
from shared.left_behind import bury

NEEDED = ["munged", "mungekey", "slurmctld", "slurmd", "sbatch", "scontrol", "sinfo", "squeue"]
SECONDS = 60
SETTINGS = """\
ClusterName=segrx
SlurmctldHost={host}(127.0.0.1)
SlurmctldPort={ports[0]}
SlurmdPort={ports[1]}
SlurmUser=root
SlurmdUser=root
AuthType=auth/munge
AuthInfo=socket={room}/socket
CredType=cred/munge
ProctrackType=proctrack/pgid
TaskPlugin=task/none
MpiDefault=none
SwitchType=switch/none
JobAcctGatherType=jobacct_gather/none
AccountingStorageType=accounting_storage/none
SelectType=select/cons_tres
SelectTypeParameters=CR_Core
SlurmdParameters=config_overrides
SchedulerParameters=batch_sched_delay=0,sched_interval=1,bf_interval=1
StateSaveLocation={room}/state
SlurmdSpoolDir={room}/spool
SlurmctldPidFile={room}/slurmctld.pid
SlurmdPidFile={room}/slurmd.pid
SlurmctldLogFile={room}/slurmctld.log
SlurmdLogFile={room}/slurmd.log
MailProg=/bin/true
ReturnToService=2
JobRequeue=0
KillWait=2
NodeName={host} NodeAddr=127.0.0.1 CPUs={processors} State=UNKNOWN
PartitionName=all Nodes=ALL Default=YES MaxTime=INFINITE State=UP
"""


class TooLate(Exception):
    """What was waited for didn't happen in time."""


def why_not():
    """Why there can be no Slurm here, or nothing."""
    missing = [name for name in NEEDED if shutil.which(name) is None]
    if missing:
        return f"no slurm: {', '.join(missing)} isn't installed"
    return "" if os.geteuid() == 0 else "no slurm: only root starts it"


def free_ports(count):
    with contextlib.ExitStack() as stack:
        bound = [stack.enter_context(socket.create_server(("127.0.0.1", 0))) for _ in range(count)]
        return [one.getsockname()[1] for one in bound]


class Slurm:
    """A running Slurm, with what its commands are run with."""

    def __init__(self, room):
        self.room, self.host = room, socket.gethostname().split(".")[0]
        for name in ("state", "spool"):
            os.mkdir(os.path.join(room, name))
        self.settings = os.path.join(room, "slurm.conf")
        with open(self.settings, "w") as out:
            out.write(SETTINGS.format(room=room, host=self.host, ports=free_ports(2), processors=arguments.processors()))
        self.environment = os.environ | {"SLURM_CONF": self.settings}

    def daemons(self):
        """The words of the daemons, in the order in which they are started."""
        files = [f"--{name}={self.room}/{file}" for name, file in [("socket", "socket"), ("key-file", "munge.key")]]
        files += [f"--{name}-file={self.room}/munge.{name}" for name in ("pid", "log", "seed")]
        yield ["munged", "--foreground", "--num-threads=10", *files]
        yield ["slurmctld", "-D", "-f", self.settings]
        yield ["slurmd", "-D", "-f", self.settings, "-N", self.host]

    def said(self, *words, **more):
        """What a command prints, standard error among it, and its status."""
        ran = children.run(words, SECONDS, env=self.environment | more)
        return ran.stdout.strip(), ran.returncode

    def wait_for(self, what, has_happened):
        until = time.monotonic() + SECONDS
        while not has_happened():
            bury()
            if time.monotonic() > until:
                raise TooLate("\n".join([what, *self.words_of_logs()]))
            time.sleep(0.05)

    def words_of_logs(self):
        """The ends of the logs."""
        for name in ("munge.log", "slurmctld.log", "slurmd.log"):
            file = os.path.join(self.room, name)
            if os.path.exists(file):
                with open(file, errors="replace") as log:
                    yield f"{name}: {log.read()[-1500:]}"

    def is_ready(self, words):
        """Whether a daemon that was started answers."""
        if words[0] == "munged":
            return os.path.exists(os.path.join(self.room, "socket"))
        return words[0] != "slurmd" or self.said("sinfo", "--noheader", "--format=%T")[0] == "idle"

    def state(self, task):
        """The state of a task, JOB_TASK, and how often it was begun anew."""
        words = self.said("scontrol", "--oneliner", "show", "job", task)[0].split()
        told = dict(word.split("=", 1) for word in words if "=" in word)
        return told.get("JobState"), int(told.get("Restarts", 0))

    def requeue(self, task):
        """Begins a running task anew, and at once: Slurm itself would wait for two minutes."""
        self.said("scontrol", "requeue", task)
        self.wait_for(f"{task} doesn't wait to be begun anew", lambda: self.state(task)[0] == "PENDING")
        self.said("scontrol", "update", f"JobId={task}", "StartTime=now")

    def has_ended(self, job):
        return self.said("squeue", "--noheader", f"--jobs={job}") == ("", 0)


def end(child):
    """Ends a daemon, whatever it is doing; one that doesn't end is killed where it is started."""
    with contextlib.suppress(ProcessLookupError):
        child.terminate()
    until = time.monotonic() + SECONDS
    while child.poll() is None and time.monotonic() < until:
        bury()
        time.sleep(0.05)


@contextlib.contextmanager
def running(room):
    """Slurm in a folder that anybody may look into, since munge asks for that."""
    slurm = Slurm(room)
    children.run(["mungekey", "--create", f"--keyfile={room}/munge.key"], SECONDS)
    with contextlib.ExitStack() as stack:
        for words in slurm.daemons():
            log = stack.enter_context(open(os.path.join(room, f"{words[0]}.out"), "w"))
            child = stack.enter_context(children.started(words, env=slurm.environment, stdout=log))
            stack.callback(end, child)
            slurm.wait_for(f"{words[0]} isn't ready", lambda words=words: slurm.is_ready(words))
        yield slurm
