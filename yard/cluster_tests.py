#!/usr/bin/env python3
"""Tries yard/cluster.py: what it writes, and its status, are those of one batch; a part that is killed is run again; what is missing is run by --resume.

    yard/cluster_tests.py [--program FILE] [--only WORD]

It needs Debian's parallel, openssh-server and, for the array of jobs, slurmctld, slurmd and munge, and it has to be root. The hosts are two network namespaces of
its own, each with an sshd; where these can't be made, this machine by ssh. Slurm's two nodes are two slurmd on this machine. What it began it ends.
"""

import argparse
import contextlib
import os
import pathlib
import shutil
import socket
import subprocess
import sys
import tempfile
import time

import common

CLUSTER = common.TOP / "yard" / "cluster.py"
PORT = 22177
FACTS = "".join(f"p({k}).\n" for k in range(40))
CHAIN = "nat(z). nat(s(N)) :- nat(N).\n"
SLOW = "far(0). far(N) :- N > 0, M is N-1, far(M).\n"
ASKED = ["p(X), X > 37", "p(X), X < 0", "far(2000)", "nat(X)", "p(X), X =:= Y", "p(X), p(Y), X + Y =:= 77"]
TEXT = FACTS + CHAIN + SLOW + "".join(f"?- /* query {k} */ {ASKED[k % 6]}.\n" for k in range(20))
REFUSED = FACTS + "".join(f"?- p(X), X > {k}.\n" for k in range(9)) + "?- q(X).\n?- r(X).\n"


def run(*words, text=None):
    return subprocess.run([str(word) for word in words], input=text, capture_output=True, text=True, check=False)


def say(name, holds):
    print(f"{name}: {'as it should be' if holds else 'OTHERWISE'}", flush=True)
    return holds


class Room:
    """A folder with the texts, what one batch makes of each, and programs that fail in some way."""

    def __init__(self, folder, program):
        self.folder, self.program, self.count = folder, program, 0
        self.wanted = {}
        for name, text in (("text", TEXT), ("refused", REFUSED), ("none", FACTS)):
            (folder / f"{name}.pl").write_text(text)
            done = run(program, "batch", "--limit", "300", text=text)
            self.wanted[name] = (done.stdout, done.returncode)

    def script(self, name, *lines):
        """A program that does this before it is the true one."""
        file = self.folder / name
        file.write_text("\n".join(["#!/bin/bash", *lines, f'exec {self.program} "$@"', ""]))
        file.chmod(0o755)
        return file

    def cluster(self, name, *words, program=None, folder=None):
        """What the cluster writes for a text, its status, and what it tells on standard error."""
        self.count += 1
        folder = folder or self.folder / f"parts{self.count}"
        done = run(sys.executable, CLUSTER, self.folder / f"{name}.pl", "--queries", "3", "--limit", "300", "--program", program or self.program, "--folder", folder, *words)
        return (done.stdout, done.returncode), done.stderr


def here(room):
    """On this machine, by GNU parallel alone."""
    yield from (say(f"the text {name!r}", room.cluster(name)[0] == room.wanted[name]) for name in room.wanted)


def killed(room, *words):
    """The first part that is begun is killed once it has read a part of its text; two parts at most are lost with it."""
    once = room.folder / f"once{room.count}"
    program = room.script(f"killed{room.count}", f"mkdir {once} 2>/dev/null && head -c 99 >/dev/null && kill -9 $$")
    found, told = room.cluster("text", *words, program=program)
    yield say("a part that is killed is run again", found == room.wanted["text"] and "failed" in told)


def resumed(room, *words):
    """A part is missing after it has failed three times, and --resume runs it alone."""
    ran = room.folder / f"ran{room.count}"
    program = room.script("missing", f"echo >> {ran}", "input=$(mktemp); cat > $input; exec < $input", "grep -q 'query 4 ' $input && exit 7")
    folder = room.folder / f"resumed{room.count}"
    found, told = room.cluster("text", *words, program=program, folder=folder)
    yield say("a part that is missing is an error", found == ("", 70) and "missing: 2" in told)
    before = len(ran.read_text().splitlines())
    found, _ = room.cluster("text", "--resume", *words, program=room.script("missing", f"echo >> {ran}"), folder=folder)
    yield say("what is left is run by --resume", found == room.wanted["text"] and len(ran.read_text().splitlines()) == before + 1)


@contextlib.contextmanager
def begun(*commands):
    """Programs that run until this is left."""
    running = [subprocess.Popen([str(word) for word in command], stdout=subprocess.DEVNULL, stderr=subprocess.DEVNULL) for command in commands]
    try:
        time.sleep(3)
        yield
    finally:
        for one in reversed(running):
            one.terminate()
            one.wait()


@contextlib.contextmanager
def namespaces():
    """Two network namespaces and the address of each, or none where they can't be made."""
    names, made = ["andorra-one", "andorra-two"], []
    try:
        for number, name in enumerate(names, 1):
            link, inside = f"andorra{number}", f"inside{number}"
            steps = [f"ip netns add {name}", f"ip link add {link} type veth peer name {inside} netns {name}", f"ip addr add 10.177.{number}.1/24 dev {link}",
                     f"ip link set {link} up", f"ip -n {name} addr add 10.177.{number}.2/24 dev {inside}", f"ip -n {name} link set {inside} up"]
            if not all(run(*step.split()).returncode == 0 for step in steps):
                break
            made.append((name, f"10.177.{number}.2"))
        yield made if len(made) == len(names) else []
    finally:
        for name in names:
            run("ip", "netns", "del", name)


@contextlib.contextmanager
def hosts(room):
    """What `--on` has for each host on which an sshd runs."""
    keys = room.folder / "keys"
    keys.mkdir()
    pathlib.Path("/run/sshd").mkdir(exist_ok=True)
    for name in ("host", "user"):
        run("ssh-keygen", "-q", "-t", "ed25519", "-N", "", "-f", keys / name)
    config = keys / "sshd"
    config.write_text(f"HostKey {keys}/host\nAuthorizedKeysFile {keys}/user.pub\nStrictModes no\nPermitRootLogin prohibit-password\nPidFile none\nPort {PORT}\n")
    server = ["/usr/sbin/sshd", "-D", "-f", str(config)]
    with namespaces() as made:
        places = [(["ip", "netns", "exec", name], address) for name, address in made] or [([], "127.0.0.1")]
        known = "-o StrictHostKeyChecking=no -o UserKnownHostsFile=/dev/null -o LogLevel=ERROR"
        with begun(*[[*front, *server] for front, _ in places]):
            yield ",".join(f"ssh -p {PORT} -i {keys}/user {known} {address}" for _, address in places), len(places)


def by_ssh(room):
    """On two hosts, each of which is handed some part."""
    seen = room.folder / "seen"
    with hosts(room) as (names, count):
        words = ["--on", names, "--at-once", "2"]
        program = room.script("telling", f'echo "$SSH_CONNECTION" | cut -d" " -f3 >> {seen}')
        found, _ = room.cluster("text", *words, program=program)
        yield say(f"parts on {count} hosts", found == room.wanted["text"] and len(set(seen.read_text().split())) == count)
        yield from killed(room, *words)
        yield from resumed(room, *words)


SLURM = """ClusterName=tries
SlurmctldHost={host}
SlurmUser=root
AuthInfo=socket={folder}/munge.socket
SlurmctldPort=22178
StateSaveLocation={folder}/state
SlurmdSpoolDir={folder}/spool.%n
SlurmctldPidFile={folder}/ctld.pid
SlurmdPidFile={folder}/slurmd.%n.pid
ProctrackType=proctrack/pgid
TaskPlugin=task/none
JobAcctGatherType=jobacct_gather/none
SelectType=select/cons_tres
SelectTypeParameters=CR_CPU
ReturnToService=2
MpiDefault=none
NodeName=one NodeHostname={host} NodeAddr=127.0.0.1 Port=22181 CPUs=1
NodeName=two NodeHostname={host} NodeAddr=127.0.0.1 Port=22182 CPUs=1
PartitionName=all Nodes=one,two Default=YES State=UP
"""


def by_slurm(room):
    """As an array of jobs on two nodes that are this machine."""
    if not shutil.which("slurmctld"):
        print("slurm: not there, not tried")
        return
    folder = room.folder / "slurm"
    for name in ("state", "spool.one", "spool.two"):
        (folder / name).mkdir(parents=True)
    config, key = folder / "slurm.conf", folder / "key"
    config.write_text(SLURM.format(host=socket.gethostname().split(".")[0], folder=folder))
    key.write_bytes(b"k" * 1024)
    key.chmod(0o400)
    munge = ["munged", "--foreground", "--force", f"--socket={folder}/munge.socket", f"--key-file={key}", f"--pid-file={folder}/munge.pid",
             f"--log-file={folder}/munge.log", f"--seed-file={folder}/munge.seed"]
    front = ["env", f"SLURM_CONF={config}"]
    nodes = [[*front, "slurmd", "-D", "-N", name] for name in ("one", "two")]
    with begun(munge), begun([*front, "slurmctld", "-D"], *nodes):
        seen = room.folder / "nodes"
        program = room.script("on-node", f'echo "$SLURMD_NODENAME" >> {seen}; sleep 1')
        with environment(config):
            found, _ = room.cluster("text", "--slurm", program=program)
            both = seen.exists() and set(seen.read_text().split()) == {"one", "two"}
            yield say("an array of jobs on two nodes", found == room.wanted["text"] and both)
            yield from killed(room, "--slurm")
            yield from resumed(room, "--slurm")


@contextlib.contextmanager
def environment(config):
    """Slurm's commands take these settings."""
    os.environ["SLURM_CONF"] = str(config)
    yield
    del os.environ["SLURM_CONF"]


def main():
    words = argparse.ArgumentParser(description=__doc__, formatter_class=argparse.RawDescriptionHelpFormatter)
    words.add_argument("--program", type=pathlib.Path, default=common.PROGRAM)
    words.add_argument("--only", default="")
    asked = words.parse_args()
    with tempfile.TemporaryDirectory() as folder:
        room = Room(pathlib.Path(folder), asked.program.resolve())
        tries = [one for one in (here, killed, resumed, by_ssh, by_slurm) if asked.only in one.__name__]
        holds = [result for one in tries for result in one(room)]
    return 0 if holds and all(holds) else 1


if __name__ == "__main__":
    sys.exit(main())
