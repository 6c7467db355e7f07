"""What the system may refuse a program: memory and threads of a control group, threads of a user, a processor that others want."""
import contextlib
import os
import shutil
import subprocess
import time

from hostile_texts import crowd_texts, crowded

LONG_LIST = "?- X = [" + ",".join(["a"] * 250_000) + "].\n"
# so many threads a group or a user may have, the first of the program among them
THREADS = (*range(1, 20), 32, 64, 128)
COUNT = "n(0,z). n(K,s(T)) :- K > 0, J is K-1, n(J,T). ?- n(80000,X).\n"


class Busy:
    """So many processes that want a processor all the time."""

    def __init__(self, count):
        self.count, self.others = count, []

    def __enter__(self):
        self.others = [subprocess.Popen(["sh", "-c", "while :; do :; done"]) for _ in range(self.count)]

    def __exit__(self, *_):
        for other in self.others:
            other.kill()
            other.wait()


class Group:
    """A control group of one resource (of version 1: memory or pids), made for a trial. None can be made but by root."""

    def __init__(self, resource):
        with open("/proc/self/cgroup", encoding="ascii") as told:
            own = [line.strip().split(":")[2] for line in told if line.split(":")[1] == resource]
        self.path = f"/sys/fs/cgroup/{resource}{own[0] if own else '/'}/hostile-{os.getpid()}"
        os.mkdir(self.path)

    def limit(self, file, value):
        with open(os.path.join(self.path, file), "w", encoding="ascii") as limit:
            limit.write(str(value))

    def before(self, more=""):
        return ["sh", "-c", f'echo $$ > {self.path}/cgroup.procs; {more} exec "$0" "$@"']

    def remove(self):
        for _ in range(50):
            try:
                return os.rmdir(self.path)
            except OSError:
                time.sleep(0.1)


def limited(kilobytes):
    return ["sh", "-c", f'ulimit -v {kilobytes}; exec "$0" "$@"']


def least_space(trial):
    """The least address space, in KB, in which the program is loaded and tells how it is used."""
    low, high = 0, 64_000
    while high - low > 20:
        middle = (low + high) // 2
        if trial.run([], "", before=limited(middle))[0] == 2:
            high = middle
        else:
            low = middle
    return high


def system(trial):
    for part in (memory_groups, thread_groups, users, stacks):
        try:
            part(trial)
        except OSError as error:
            print(f"{part.__name__}: not tried, since {error}", flush=True)


def big_programs():
    """Programs that want more than a few MB, and some small ones."""
    for crowd in ("1", "8"):
        yield "a long list", ["run", "--teams", crowd, "--workers", crowd], LONG_LIST
        yield "a deep term", ["run", "--limit", "4194304", "--teams", crowd, "--workers", crowd], COUNT
    yield from crowded((8,))


def memory_groups(trial):
    """A group of so many MB: the system ends what wants more, at once; under an address space of the same size the program ends by itself."""
    with contextlib.ExitStack() as stack:
        group = Group("memory")
        stack.callback(group.remove)
        killed, least = 0, least_space(trial)
        for name, words, text in big_programs():
            due = trial.run(words, text)
            for megabytes in (4, 16) if trial.quick else (1, 2, 3, 4, 6, 8, 12, 16, 24, 32, 48, 64):
                group.limit("memory.limit_in_bytes", megabytes << 20)
                found = trial.run(words, text, before=group.before())
                killed += found[0] == -9
                if found[:2] not in (due[:2], (7, b""), (-9, b"")):
                    trial.broke(f"{name}, a group of {megabytes} MB", words, text, found)
                if megabytes << 10 < least:
                    continue
                bounded = trial.run(words, text, before=group.before(f"ulimit -v {megabytes << 10};"))
                if bounded[:2] not in (due[:2], (7, b"")):
                    trial.broke(f"{name}, a group and an address space of {megabytes} MB", words, text, bounded)
        print(f"memory groups: {killed} runs ended by the system, with nothing written", flush=True)


def thread_groups(trial):
    """A group of so many threads: none but the first, one more, and so on."""
    with contextlib.ExitStack() as stack:
        group = Group("pids")
        stack.callback(group.remove)
        for name, words, text in crowded((3,) if trial.quick else (2, 8, 16)):
            due = trial.run(words, text)
            for most in (1, 2, 4) if trial.quick else THREADS:
                group.limit("pids.max", most)
                found = trial.run(words, text, before=group.before())
                if found[:2] != due[:2]:
                    trial.broke(f"{name}, a group of {most} threads", words, text, found)


def users(trial):
    """A user who may have so many processes and threads (`ulimit -u`), which the system counts for others than root alone."""
    os.chmod(trial.folder, 0o755)
    copy = os.path.join(trial.folder, "program")
    subprocess.run(["install", "-m", "755", trial.program, copy], check=True)
    for name, words, text in crowded((3,) if trial.quick else (2, 8, 16)):
        due = trial.run(words, text)
        for most in (1, 2, 4) if trial.quick else THREADS:
            nobody = ["setpriv", "--reuid", "65534", "--regid", "65534", "--clear-groups", "sh", "-c", f'exec {copy} "$@"']
            found = trial.run(words, text, before=["prlimit", f"--nproc={most}", *nobody])
            if found[:2] != due[:2]:
                trial.broke(f"{name}, a user of {most} threads", words, text, found)


def stacks(trial):
    """Small stacks, of each thread: 256 KB are enough for every text."""
    nested = ", ".join(f"{name} = {opening * 256}a{closing * 256}" for name, opening, closing in (("X", "(", ")"), ("Y", "s(", ")"), ("Z", "[", "]")))
    deep = [("nesting", ["run"], f"?- {nested}."), ("a long list", ["run"], LONG_LIST), ("a deep term", ["run", "--limit", "4194304"], COUNT)]
    for name, words, text in [*deep, *crowd_texts(), *crowded((3,))]:
        crowd = [*words, "--teams", "8", "--workers", "8"] if words[0] == "run" and "--teams" not in words else words
        due = trial.run(words, text)
        for size in ("256",) if trial.quick else ("256", "1024", "unlimited"):
            found = trial.run(crowd, text, before=["sh", "-c", f'ulimit -s {size}; exec "$0" "$@"'])
            if found[:2] != due[:2]:
                trial.broke(f"{name}, a stack of {size} KB", crowd, text, found)


CHECKED = ["valgrind", "--quiet", "--error-exitcode=99", "--soname-synonyms=somalloc=nouserintercepts"]
GIVEN_BACK = [*CHECKED, "--leak-check=full", "--show-leak-kinds=all", "--errors-for-leak-kinds=all"]
# allocations of the shell that begins valgrind, which are refused with the others
OF_THE_SHELL = 60


def as_batch(words):
    """The words that answer the same text as a batch, by as many threads."""
    threads = [it for place, it in enumerate(words) if {"--teams", "--workers"} & {it, words[place - 1]}]
    return ["batch", *threads]


def checked(trial):
    """Memory as valgrind sees it: nothing read before it is written, nothing beyond its block, also where an allocation is refused. A program
    that is read for one reply is not let go of, since the process ends; a batch gives each block back."""
    if not shutil.which("valgrind"):
        print("checked: not tried, since there is no valgrind", flush=True)
        return
    programs = list(crowded((3,)))
    for name, own, text in programs[3::5] if trial.quick else programs:
        for words, before in (own, CHECKED), (as_batch(own), GIVEN_BACK):
            due = trial.run(words, text)
            many = trial.counts(words, text)[0]
            for number in [None, *(trial.dice.randrange(OF_THE_SHELL, many) for _ in range(1 if trial.quick else 8))]:
                more = {} if number is None else {"REFUSE_MEMORY": f"{number}+"}
                found = trial.run(words, text, before=before, **more)
                if found[:2] != due[:2] and (number is None or found[:2] != (7, b"")):
                    trial.broke(f"{name}, checked, allocation {number} refused", words, text, found)
