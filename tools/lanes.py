"""Crates checked side by side: what crates.txt says of them, and lanes, each a scratch copy of the repository in which one check runs at a time.

`rt` keeps others out of the folder of a crate and of all that it stands on, so two checks in one repository wait for each other. In lanes they do not.
"""
import contextlib
import fcntl
import functools
import os
import shutil
import subprocess
import time
from concurrent.futures import FIRST_COMPLETED, ThreadPoolExecutor, wait

TOP = os.path.dirname(os.path.dirname(os.path.realpath(__file__)))
PARTS = ("src", "specs", "proofs")
# The crates of tests.
TESTS = ("cilk_tests", "cilk_tests_runs", "cilk_tests_again")
# The memory that a check may take, in bytes: most take a third of it.
ROOM = 3_500_000_000
# The most processes that one check gains from, and those that a crate with one of the longest chains above it gets where there are as many processors.
MOST_JOBS, LONG_JOBS = 4, 2
# Checks beyond one a processor: what they do is done where those with longer chains above them leave a processor idle.
MORE = 2
# The most checks for each processor that `rt ci` has under way in the gate.
PLACES = 3
# How far behind the others a check stands at most, as `nice` has it: one that no other waits for.
BEHIND = 10
# What loading what a crate stands on weighs, in lines of code.
LOADING = 70
# A chain of crates is among the longest, and has more processes, if it is so much of the longest one.
NEARLY = 0.9
# The least weight of a crate that a second process helps: each loads what the crate stands on.
LARGE = 1400


class Crates:
    """The repository's crates, by the names of the libraries of the repository that each lists."""

    def __init__(self, top=TOP):
        self.top = top
        with open(f"{top}/crates.txt", encoding="utf-8") as it:
            lines = [line.partition("#")[0].partition(":") for line in it]
        listed = {name.split()[0]: used.split() for name, found, used in lines if found}
        self.uses = {name: [it for it in used if it in listed] for name, used in listed.items()}

    def below(self, *names):
        """Returns the libraries that these crates stand on, in the order of crates.txt."""
        found, left = set(), list(names)
        while left:
            new = set(self.uses[left.pop()]) - found
            found |= new
            left += new
        return [it for it in self.uses if it in found]

    @functools.cache
    def ways(self, name):
        """Returns how many ways lead down from a crate through crates.txt, that to itself among them."""
        return 1 + sum(self.ways(it) for it in self.uses[name])

    @functools.cache
    def size(self, name):
        """Returns how many bytes of code, definitions and proofs a crate has."""
        return sum(self.bytes(name, it) for it in PARTS)

    def bytes(self, name, part):
        """Returns how many bytes the files of a part of a crate have."""
        return sum(os.path.getsize(f"{folder}/{it}") for folder, _, files in os.walk(f"{self.top}/crates/{name}/{part}") for it in files)

    @functools.cache
    def weight(self, name):
        """Returns about how long a crate takes to prove, in lines of code: of most crates a line takes 0.1 to 0.25 s."""
        count = LOADING
        for folder, _, files in os.walk(f"{self.top}/crates/{name}/src"):
            for it in files:
                with open(f"{folder}/{it}", encoding="utf-8") as file:
                    count += file.read().count("\n")
        return count

    def behind(self, names):
        """Returns for each of these crates the weight of the longest chain of them that begins with it and goes upward."""
        found = {}
        for name in reversed(list(self.uses)):
            if name in names:
                found[name] = self.weight(name) + max((found[it] for it in found if name in self.uses[it]), default=0)
        return found


def nice_of(part):
    """Returns how far a check gives way, as `nice` has it, whose chain upward is such a part of the longest one."""
    return 0 if part >= NEARLY else round(BEHIND * (1 - part))


def rooms():
    """Returns for how many checks there is memory."""
    with open("/proc/meminfo", encoding="utf-8") as it:
        free = next(1024 * int(line.split()[1]) for line in it if line.startswith("MemAvailable:"))
    return max(1, free // ROOM)


def processors():
    """Returns how many checks may run side by side: one a processor, and as many as there is memory for."""
    return min(len(os.sched_getaffinity(0)), rooms())


def places():
    """Returns how many places `rt ci` may have, which takes nothing back once it has a place: as many as its checks that give way hold without keeping another
    from one, and as there is memory for where few are large at a time."""
    return max(processors(), min(PLACES * len(os.sched_getaffinity(0)), PLACES * rooms() // 2))


@contextlib.contextmanager
def held(folder):
    """Keeps each other rt out of a crate's folder."""
    it = os.open(folder, os.O_RDONLY)
    try:
        fcntl.flock(it, fcntl.LOCK_EX)
        yield
    finally:
        os.close(it)


def link_or_copy(one, other):
    """Gives a file of a library a second name, since rt writes no such file where it stands, or else copies it."""
    try:
        os.link(one, other)
    except OSError:
        shutil.copy2(one, other)
    return other


class Lane:
    """A scratch copy of the repository's crates, in which one check runs at a time."""

    running, is_over = set(), False

    def __init__(self, crates, folder, proved=None):
        """The libraries that the lane is given are those of the repository, or of a copy in which they were proved."""
        self.crates, self.folder, self.proved, self.has = crates, folder, proved or crates.top, set()
        os.makedirs(f"{folder}/crates")
        for name in crates.uses:
            self.refresh(name)
        for it in ("crates.txt", "HANDLES"):
            shutil.copy2(f"{crates.top}/{it}", f"{folder}/{it}")

    def refresh(self, name):
        """Gives the lane a crate's files as they stand now."""
        theirs, own = (f"{it}/crates/{name}" for it in (self.crates.top, self.folder))
        for it in os.listdir(theirs):
            if os.path.isfile(f"{theirs}/{it}"):
                os.makedirs(own, exist_ok=True)
                shutil.copy2(f"{theirs}/{it}", f"{own}/{it}")
            elif it != "out":
                shutil.rmtree(f"{own}/{it}", ignore_errors=True)
                shutil.copytree(f"{theirs}/{it}", f"{own}/{it}")

    def bring(self, names):
        """Gives the lane these libraries, as they were proved."""
        for name in names:
            if name not in self.has:
                self.refresh(name)
                own, theirs = f"{self.folder}/crates/{name}/out/rlib", f"{self.proved}/crates/{name}/out/rlib"
                shutil.rmtree(own, ignore_errors=True)
                shutil.copytree(theirs, own, copy_function=link_or_copy)
                self.has.add(name)

    def run(self, name, words):
        """Runs a command in a crate's folder of the lane; returns its status and what it said."""
        if Lane.is_over:
            raise InterruptedError("all checks were stopped")
        # (a session of its own would share the processors with others by halves, whatever `nice` says; rt ends what it has begun where it is ended)
        how = {"stdin": subprocess.DEVNULL, "stdout": subprocess.PIPE, "stderr": subprocess.STDOUT}
        ran = subprocess.Popen(words, cwd=f"{self.folder}/crates/{name}", text=True, errors="replace", **how)
        Lane.running.add(ran)
        said, _ = ran.communicate()
        Lane.running.discard(ran)
        return ran.returncode, said

    def move_out(self, name, back):
        """Moves what is kept of a crate's checks into the lane, or back into the repository."""
        theirs, own = (f"{it}/crates/{name}/out" for it in (self.crates.top, self.folder))
        source, target = (own, theirs) if back else (theirs, own)
        with held(os.path.dirname(theirs)):
            if os.path.isdir(source):
                shutil.rmtree(target, ignore_errors=True)
                shutil.move(source, target)

    def prove(self, name, jobs, behind):
        """Proves a library, behind other checks or not; what was kept of it is moved here and back. Returns whether it is proved, and what was said."""
        self.bring(self.crates.below(name))
        self.refresh(name)
        self.move_out(name, back=False)
        try:
            status, said = self.run(name, ["nice", "-n", str(behind), "rt", "lib", "--jobs", str(jobs)])
        finally:
            self.move_out(name, back=True)
            self.has.discard(name)
        return status == 0, said


def stop_all():
    """Ends all commands that run in lanes, and lets none begin."""
    Lane.is_over = True
    for it in list(Lane.running):
        it.terminate()


class Turns:
    """Crates taken up in turn: each once those below it are done, the one with the longest chain above it first."""

    def __init__(self, crates, names):
        self.crates, self.left = crates, list(names)
        self.rooms = rooms()
        self.most, self.checks = processors(), min(processors() + MORE, self.rooms)
        self.behind = crates.behind(set(names))
        self.done, self.jobs = set(), {}

    def ready(self):
        wanted = set(self.left) | set(self.jobs)
        found = [it for it in self.left if not set(self.crates.below(it)) & wanted]
        return sorted(found, key=lambda it: -self.behind[it])

    def next(self):
        """Returns the crate to take up now, how many jobs it gets, and how far behind others it stands, or None. One with one of the longest chains
        above it goes before the others, and gets the processors that are idle and that no other crate is ready for; others stand the further behind
        the shorter their chains are."""
        ready = self.ready()
        if not ready:
            return None
        name, spare = ready[0], self.most - sum(self.jobs.values()) - (len(ready) - 1)
        part = self.behind[name] / max(self.behind[it] for it in [*self.left, *self.jobs])
        is_long = part >= NEARLY
        if len(self.jobs) >= (self.rooms if is_long else self.checks):
            return None
        fewest = LONG_JOBS if is_long and self.most >= 2 * LONG_JOBS else 1
        self.left.remove(name)
        wanted = max(fewest, min(spare, MOST_JOBS if is_long else LONG_JOBS))
        self.jobs[name] = wanted if self.crates.weight(name) >= LARGE else 1
        return name, self.jobs[name], nice_of(part)

    def end(self, name, is_proved):
        """Notes that a crate is done. Where it is not proved, those above it are left out."""
        del self.jobs[name]
        if is_proved:
            self.done.add(name)
        else:
            self.left = [it for it in self.left if name not in self.crates.below(it)]


class Teller:
    """Says what is begun, what is proved, and how much is left."""

    def __init__(self, count):
        self.count, self.began = count, time.monotonic()

    def say(self, words):
        clock = int(time.monotonic() - self.began)
        print(f"{clock // 60:2}:{clock % 60:02} {words}", flush=True)

    def begun(self, name, jobs, _):
        self.say(f"{name} .." + (f" ({jobs} jobs)" if jobs > 1 else ""))

    def ended(self, name, done, seconds, said):
        if said is None:
            self.say(f"{done}/{self.count} {name} proved, {seconds:.0f} s")
        else:
            self.say(f"{name} is not proved:")
            print(said, end="", flush=True)


def prove_all(crates, names, room, tell):
    """Proves libraries side by side in lanes below a folder, and tells what is begun and what has ended. Returns whether all are proved."""
    turns, free, running = Turns(crates, names), [], {}
    with ThreadPoolExecutor(turns.rooms) as pool:
        try:
            while turns.left or running:
                while (taken := turns.next()) is not None:
                    lane = free.pop() if free else Lane(crates, f"{room}/{len(running)}-{len(turns.left)}")
                    tell.begun(*taken)
                    running[pool.submit(lane.prove, *taken)] = taken[0], lane, time.monotonic()
                for it in wait(running, return_when=FIRST_COMPLETED).done:
                    name, lane, began = running.pop(it)
                    is_proved, said = it.result()
                    turns.end(name, is_proved)
                    free.append(lane)
                    tell.ended(name, len(turns.done), time.monotonic() - began, None if is_proved else said)
        except BaseException:
            stop_all()
            raise
    return len(turns.done) == len(names)
