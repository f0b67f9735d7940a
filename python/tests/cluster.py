"""A cluster of this host alone, for tests of what is handed to Slurm: slurmctld and munged on loopback, in a folder of the test's, and slurmd where jobs shall run."""
import os
import shutil
import socket
import subprocess
import time
import unittest
from pathlib import Path


def is_installed():
    return all(map(shutil.which, ("slurmctld", "slurmd", "munged", "sbatch"))) and os.getuid() == 0


needs_slurm = unittest.skipUnless(is_installed(), "Slurm is not installed, or this is not root")

_CONFIG = """
ClusterName=loopback
SlurmctldHost={host}(127.0.0.1)
SlurmUser=root
SlurmdUser=root
AuthType=auth/munge
AuthInfo=socket={folder}/munge.socket
SlurmctldPort=16817
SlurmdPort=16818
StateSaveLocation={folder}/state
SlurmdSpoolDir={folder}/spool
SlurmctldPidFile={folder}/slurmctld.pid
SlurmdPidFile={folder}/slurmd.pid
SlurmctldLogFile={folder}/slurmctld.log
SlurmdLogFile={folder}/slurmd.log
ProctrackType=proctrack/pgid
TaskPlugin=task/none
JobAcctGatherType=jobacct_gather/none
AccountingStorageType=accounting_storage/none
SwitchType=switch/none
MpiDefault=none
ReturnToService=2
SelectType=select/cons_tres
SelectTypeParameters=CR_CPU
SchedulerParameters=sched_interval=1,bf_interval=1
{more}
MinJobAge=600
FirstJobId={first}
NodeName={host} NodeAddr=127.0.0.1 CPUs={cpus} RealMemory=1024 State=UNKNOWN
PartitionName=all Nodes={host} Default=YES MaxTime=INFINITE State=UP
"""


def _start(test, words, environment):
    process = subprocess.Popen(words, env=environment, stdout=subprocess.DEVNULL, stderr=subprocess.DEVNULL)
    test.addCleanup(process.wait)
    test.addCleanup(process.kill)
    time.sleep(1)


def _lay(place, more, first):
    """The folder of the cluster, with its key and what slurmctld reads."""
    for name in ("state", "spool"):
        (place / name).mkdir(parents=True)
    key = place / "munge.key"
    key.write_bytes(os.urandom(64))
    key.chmod(0o400)
    place.chmod(0o755)
    config = place / "slurm.conf"
    config.write_text(_CONFIG.format(host=socket.gethostname().split(".")[0], folder=place, cpus=len(os.sched_getaffinity(0)), more=more, first=first))
    return config


def answers(words, environment):
    """What a command of Slurm prints, in words; none where it fails."""
    return subprocess.run(words, env=environment, capture_output=True, text=True).stdout.split()


def start(test, place, environment, more="", first=1, works=True, seconds=60):
    """Starts a cluster in the folder, which ends with the test; where it shall not work, jobs wait in it. The environment in which Slurm's commands find it."""
    environment = {**environment, "SLURM_CONF": str(_lay(place, more, first))}
    own = {"key-file": "key", "socket": "socket", "pid-file": "pid", "log-file": "log", "seed-file": "seed"}
    _start(test, ["munged", "--foreground", "--force", *(f"--{name}={place}/munge.{end}" for name, end in own.items())], environment)
    _start(test, ["slurmctld", "-D", "-i"], environment)
    if works:
        _start(test, ["slurmd", "-D"], environment)
    wanted = {"idle", "mixed", "allocated"} if works else {"unknown", "unk*", "idle", "idle*", "down*", "down"}
    end = time.monotonic() + seconds
    while not wanted & set(answers(["sinfo", "-h", "-o", "%T"], environment)):
        if time.monotonic() > end:
            test.skipTest("no cluster can be started here: " + "".join(path.read_text()[-300:] for path in place.glob("*.log")))
        time.sleep(0.1)
    return environment
