"""What tools/memory asks of a session: `tree` and `deques` of a chain of 65,536 instances, each the child of the one before, with 4 GB of text each.

The answers are read as they come and compared with what they must be, so that this takes little memory too.
"""
import dataclasses
import subprocess
import threading

# As many instances as may live at once. `main` makes its child by its first choice, and each child by two: a test and a spawn.
DEEPEST = 65_535
PROGRAM = b"""cilk int f(int n)
{
  int x;
  if (n == 0) return 0;
  x = spawn f(n - 1);
  sync;
  return x;
}
cilk int main(void)
{
  int y;
  y = spawn f(70000);
  sync;
  return y;
}
"""
# What stands behind the paths, by the lines of the layout that `cilk print` gives.
SPAWNS = (b"main deque 1 line 13\n", b"f deque 1 line 7\n", b"f hand 1 line 3\n")


@dataclasses.dataclass
class Told:
    """What came of a session: how many bytes were read, whether each was right, and how it ended."""

    read: int
    is_right: bool
    status: int
    errors: bytes


def tree_of(depth):
    """Yields the text of the view `tree`, part by part."""
    path = b"/1" * depth
    for k in range(depth + 1):
        yield path[: 2 * k] or b"/"
        yield b" " + SPAWNS[0 if k == 0 else 2 if k == depth else 1]


def deques_of(depth):
    """Yields the text of the view `deques`, part by part."""
    path = b"/1" * depth
    yield b"1: hand " + path + b" deque"
    for k in range(depth):
        yield b" " + (path[: 2 * k] or b"/")
    yield b"\n"


def answers_of(depth):
    """Yields what a session says that goes to the end and asks for `where`, `tree` and `deques`."""
    count = 2 * depth - 1
    here = b"position %d of %d: running\nworker 1 at %s line 3\n" % (count, count, b"/1" * depth)
    yield here
    yield from tree_of(depth)
    yield from deques_of(depth)


def told(binary, kilobytes, folder, depth=DEEPEST, seconds=600):
    """Asks for both in so much memory, and returns what came of it."""
    count = 2 * depth - 1
    with open(f"{folder}/deep.cilk", "wb") as it:
        it.write(PROGRAM)
    with open(f"{folder}/deep.log", "wb") as it:
        it.write(b"cilklog 1\nworkers 1\n" + b"1 step\n" * count + b"end %d\n" % count)
    with open(f"{folder}/deep.session", "wb") as it:
        it.write(b"go %d\ntree\ndeques\n" % count)
    shell = ["sh", "-c", f'ulimit -c 0; ulimit -v {kilobytes}; exec "$@"', "sh", binary, "debug", "deep.cilk", "deep.log"]
    with open(f"{folder}/deep.session", "rb") as given:
        with subprocess.Popen(shell, stdin=given, stdout=subprocess.PIPE, stderr=subprocess.PIPE, cwd=folder) as asked:
            late = threading.Timer(seconds, asked.kill)
            late.start()
            read, is_right = 0, True
            for part in answers_of(depth):
                came = asked.stdout.read(len(part))
                read += len(came)
                if came != part:
                    is_right = False
                    break
            is_right = is_right and not asked.stdout.read(1)
            asked.stdout.close()
            errors = asked.stderr.read()
            asked.wait()
            late.cancel()
    return Told(read, is_right and asked.returncode == 0, asked.returncode, errors)
