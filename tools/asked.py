"""What tools/sweep and tools/memory ask of cilk: each subcommand on a sample program, and what explains, with the answers that it gives where nothing fails.

A program of programs/ is asked with its log and its session where they stand beside it, and else with the log of a run by one worker and with a session that
goes through it.
"""
import dataclasses
import glob
import json
import os
import re
import shutil
import subprocess

TOP = os.path.dirname(os.path.dirname(os.path.realpath(__file__)))
SECONDS = 120
PAST_LIMIT = 5
OUT_OF_MEMORY = b"cilk: out of memory\n"
NO_WORKER = b"cilk: cannot start a worker\n"
ENDINGS = re.compile(rb"(?s).*(?:main returned -?\d+|trapped \w+ in \S+ at \d+, line \d+|stuck after \d+ choices|limit after \d+ choices)\n")
# What is explained: a text with a fault, the name of a program that is trapped, and a log whose first choice is bad.
FAULTY, TRAPPED, BAD = b"cilk int main(void) { return 08; }", "overflow", b"cilklog 1\nworkers 1\n1 pop\nend 1\n"
# What a session asks where a program has none of its own.
SESSION = b"list\nwhere\nbreak 1\nnext\nframe /\nglobals\ngo %d\ntree\ndeques\noutput\nprev\nback\nstep\nclear 1\nframe /9\nfrob\n"
# What an editor asks behind a launch, with the arguments.
REQUESTS = (
    ("setBreakpoints", {"source": {"sourceReference": 1}, "breakpoints": [{"line": 3}, {"line": 5}]}),
    ("setDataBreakpoints", {"breakpoints": [{"dataId": "total"}]}),
    ("configurationDone", {}),
    ("continue", {"threadId": 1}),
    ("threads", {}),
    ("stackTrace", {"threadId": 1}),
    ("variables", {"variablesReference": 1}),
    ("evaluate", {"expression": "tree", "context": "repl"}),
    ("stepIn", {"threadId": 1}),
    ("reverseContinue", {"threadId": 1}),
    ("source", {"sourceReference": 1}),
    ("pause", {"threadId": 1}),
    ("disconnect", {}),
)


@dataclasses.dataclass
class Asked:
    """A command line with its input and right answer: the status and what is written. `fronts` may stand on standard output where it ends early.

    Of what explains `plain` is the answer without that. Of what writes logs into a folder `logs` is its name, and `made` what it has then, in order.
    """

    name: str
    words: list
    given: bytes
    answer: tuple
    fronts: set
    plain: tuple = None
    logs: str = None
    made: list = None

    def is_shared(self):
        """Whether several threads make it, so that its answer hangs on their turns. A seed names the turns."""
        return "--workers" in self.words and "--seed" not in self.words

    def is_right(self, answer):
        if not self.is_shared():
            return answer == self.answer
        return answer[0] in (0, 3, 4, 5) and not answer[2] and bool(ENDINGS.fullmatch(answer[1]))

    def leaves_out(self, answer):
        """Whether an answer is right but for what explains, which has no memory."""
        return self.plain is not None and answer == self.plain

    def lacks_memory(self, answer):
        """Whether an answer says that memory has run out, and nothing else: of a session or an editor, behind what was answered before."""
        return answer[0] == 6 and answer[2] == OUT_OF_MEMORY and answer[1] in self.fronts

    def lacks_worker(self, answer):
        return self.is_shared() and answer == (7, b"", NO_WORKER)


def ran(words, given, folder, seconds=SECONDS, **how):
    """Returns the status, what is written on standard output, and on standard error."""
    said = subprocess.run(words, input=given, cwd=folder, capture_output=True, timeout=seconds, check=False, **how)
    return said.returncode, said.stdout, said.stderr


def beside(name, ending):
    """Returns the first file beside a program that has its name and this ending, if there is one."""
    found = sorted(glob.glob(f"{TOP}/programs/{name}*{ending}"))
    return found[0] if found and os.path.basename(found[0]).startswith((f"{name}.", f"{name}_")) else None


def log_of(binary, name, limit, folder):
    """Returns the name of a log of the program in the folder, which is made where none stands beside the program, and how many choices it has."""
    own = beside(name, ".log")
    if own:
        with open(own, "rb") as it, open(f"{folder}/{name}.log", "wb") as to:
            to.write(it.read())
    else:
        ran([binary, "run", f"{name}.cilk", "--limit", str(limit), "--log", f"{name}.log"], b"", folder)
    with open(f"{folder}/{name}.log", "rb") as it:
        return f"{name}.log", int(it.read().split()[-1])


def session_of(name, count):
    own = beside(name, ".session")
    if not own:
        return SESSION % count
    with open(own, "rb") as it:
        return it.read()


def requests_of(name, log):
    """Returns what an editor sends that steps this log."""
    asked = [("initialize", {}), ("launch", {"program": f"{name}.cilk", "log": log}), *REQUESTS]
    bodies = [json.dumps({"seq": at, "type": "request", "command": asked[at][0], "arguments": asked[at][1]}).encode() for at in range(len(asked))]
    return b"".join(b"Content-Length: %d\r\n\r\n" % len(body) + body for body in bodies)


def fronts_of(messages):
    """Returns the fronts of messages that end where one does."""
    fronts, at = {b""}, 0
    while at < len(messages):
        body = messages.index(b"\r\n\r\n", at) + 4
        at = body + int(messages[at:body].split()[1])
        fronts.add(messages[:at])
    return fronts


def asked_of(binary, name, limit, folder, workers=4, recorded=None, longest=None):
    """Returns each subcommand on a program, which is copied into the folder with its log: that of a run of so many choices as are to be recorded.

    Where a run has more choices than the longest that is looked at whole, `measure` and `races` are asked of the log alone.
    """
    with open(f"{TOP}/programs/{name}.cilk", "rb") as it:
        text = it.read()
    with open(f"{folder}/{name}.cilk", "wb") as to:
        to.write(text)
    log, count = log_of(binary, name, recorded or limit, folder)
    session = session_of(name, count)
    run = ["run", f"{name}.cilk", "--limit", str(limit)]
    forms = [(["check", f"{name}.cilk"], b""), (["check", "-"], text), (["print", f"{name}.cilk"], b""), (run, b""), ([*run, "--log", "written"], b"")]
    forms += [([*run, "--workers", str(workers)], b"")] * (workers > 1) + [(["replay", f"{name}.cilk", log], b""), (["debug", f"{name}.cilk", log], session)]
    seeded = [*run, "--workers", "2", "--seed", "7"]
    forms += [(seeded, b""), ([*seeded, "--runs", "3"], b""), (["measure", f"{name}.cilk", log], b"")]
    forms += [(["explore", f"{name}.cilk", "--limit", "200"], b""), (["races", f"{name}.cilk", log], b"")]
    if longest is None or ran([binary, "run", f"{name}.cilk", "--limit", str(longest)], b"", folder)[0] != PAST_LIMIT:
        forms += [(["measure", f"{name}.cilk"], b""), (["races", f"{name}.cilk"], b"")]
    drawn = ["draw", f"{name}.cilk", log, "--to", "20"]
    forms += [(drawn, b""), ([*drawn, "--text"], b"")]
    forms += [(["dap"], requests_of(name, log))]
    return [asked_by(binary, name, words, given, folder) for words, given in forms]


def asked_by(binary, name, words, given, folder):
    """Returns a command line with the answer that it gives where nothing fails."""
    fronts, answer = {b""}, ran([binary, *words], given, folder)
    if words[0] == "debug":
        lines = given.splitlines(keepends=True)
        fronts = {ran([binary, *words], b"".join(lines[:at]), folder)[1] for at in range(len(lines) + 1)}
    if words[0] == "dap":
        fronts = fronts_of(answer[1])
    return Asked(f"{name}: {' '.join(words)}", words, given, answer, fronts)


def logs_in(folder):
    """Returns the names of the logs in a folder, in order, each with what it has."""
    made = []
    for name in sorted(os.listdir(folder), key=lambda it: (len(it), it)):
        with open(f"{folder}/{name}", "rb") as it:
            made.append((name, it.read()))
    return made


def outcomes_of(binary, name, folder):
    """Returns what writes a log of each outcome of a program that stands in the folder."""
    logs = f"{name}.logs"
    os.mkdir(f"{folder}/{logs}")
    it = asked_by(binary, name, ["explore", f"{name}.cilk", "--limit", "200", "--logs", logs], b"", folder)
    it.logs, it.made = logs, logs_in(f"{folder}/{logs}")
    return it


def explained_of(binary, folder):
    """Returns what is asked that explains: a fault, a trap, and a choice of a log that is not possible."""
    for name, text in (("faulty.cilk", FAULTY), ("bad.log", BAD)):
        with open(f"{folder}/{name}", "wb") as it:
            it.write(text)
    trapped = f"{TRAPPED}.cilk"
    shutil.copy(f"{TOP}/programs/{trapped}", folder)
    made = []
    for words in (["check", "faulty.cilk"], ["run", trapped], ["replay", trapped, "bad.log"], ["debug", trapped, "bad.log"]):
        it = asked_by(binary, "explained", [*words, "--explain"], b"where\n" * (words[0] == "debug"), folder)
        it.plain = ran([binary, *words], it.given, folder)
        made.append(it)
    return made
