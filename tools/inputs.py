"""Inputs for cilk, made by chance: texts, logs, sessions and words of the command line. tools/fuzz tries them.

What is made hangs on a seed and a number alone, and on the sample programs with their logs and sessions. These are changed here: by words, statements and
brackets, as somebody changes a program who knows the grammar, or by bytes. Some texts are written anew, by the grammar.
"""
import dataclasses
import glob
import hashlib
import os
import random
import re

import written

TOP = os.path.dirname(os.path.dirname(os.path.realpath(__file__)))
TOKEN = re.compile(rb'[A-Za-z_]\w*|\d[\w.]*|"(?:\\.|[^"\\\n])*"|/\*.*?\*/|#[^\n]*|(?:<<|>>|[-+*/%&^|=!<>])=|&&|\|\||<<|>>|\+\+|--|\s+|.', re.S)
NUMBERS = b"0 1 2 3 7 31 32 64 65 255 256 257 4095 4096 4097 65535 65536 65537 1048576 2147483646 2147483647 2147483648 4294967296".split()
NUMBERS += b"010 08 0x1F 0xFFFFFFFF 0x".split()
GREATER = b"18446744073709551615 18446744073709551616 999999999 1000000000 10000000 10000001 1e9 1.5 00 01 +1 -1".split()
MARKS = b"( ) { } [ ] ; , ? : + - * / % & | ^ ~ ! < > = += -= *= /= %= <<= >>= &= ^= |= == != <= >= && || << >> ++ --".split()
WORDS = b"int void if else while do for break continue return switch case default cilk spawn sync inlet abort SYNCHED Cilk_lockvar".split()
RESERVED = b"main printf Cilk_lock Cilk_unlock Cilk_lock_init auto char goto struct static float shared Self Cilk_fence".split()
TEXTS = (b'""', b'"%d"', b'"%"', b'"\\n"', b'"%d%d%%\\t"')
BLANKS = (b" ", b"\n", b"\t", b"\x0b", b"\x0c", b"\r", b"/* */", b"/**/", b"/* a\n */", b"/*")
BYTES = (0, 9, 10, 13, 32, 34, 35, 39, 40, 41, 47, 92, 123, 125, 127, 128, 194, 255)
DEPTHS = (1, 2, 10, 99, 100, 199, 200, 201, 202)
SUBCOMMANDS = (b"check", b"print", b"run", b"replay", b"debug", b"explore", b"measure", b"races", b"draw", b"dap")
COMMANDS = b"step back next prev where tree globals deques output list quit".split()
WRONG_COMMANDS = b"help|go|go |go 007|go 1000000000| step|step |STEP|frame|break 0|\xff|step\x00".split(b"|")
WRONG_LINES = b"| |1 step | 1 step|1  step|1 Step|1 step 1|1 step 2|1 step 10000000|cilklog 2|end 0|\r".split(b"|")
OPTIONS = b"--workers --limit --log --explain --help --version -h -V -- - --frob --log=g --workers=2 --limit=9".split()
OPTIONS += b"--seed --runs --logs --seed=7 --runs=3 --logs=folder".split()
OPTIONS += b"--from --to --text --from=2 --to=9".split()
LINES = (b"check p", b"print p", b"run p --log h", b"run p --workers 2", b"replay p g", b"debug p g", b"")
LINES += (b"run p --seed 7 --log h", b"run p --seed 7 --runs 3", b"explore p --workers 3 --limit 99", b"explore p --logs folder", b"measure p", b"measure p g", b"races p", b"races p g")
LINES += (b"draw p g", b"draw p g --from 2 --to 9 --text", b"dap")
KINDS = ("text", "log", "session", "words")
# How many of a hundred inputs are of each kind.
SHARES = (55, 20, 15, 10)


@dataclasses.dataclass(frozen=True)
class Input:
    """What cilk is given: a text; of a log or a session the text and log that belong to it; or words. `turn` says which of the further tries it gets."""

    kind: str
    text: bytes = b""
    log: bytes = b""
    session: bytes = b""
    words: tuple = ()
    workers: int = 1
    limit: int = 1000
    turn: int = 0


@dataclasses.dataclass
class Stock:
    """What inputs are made of: texts, texts with a log of theirs, and sessions."""

    texts: list
    logs: list
    sessions: list


def read(path):
    with open(path, "rb") as it:
        return it.read()


def unescaped(text):
    return re.sub(rb"\\x([0-9a-f]{2})", lambda it: bytes([int(it[1], 16)]), text)


def texts():
    """Returns the texts of programs/, those of its cases, and the examples of the language."""
    found = [read(it) for it in sorted(glob.glob(f"{TOP}/programs/**/*.cilk", recursive=True))]
    for path in sorted(glob.glob(f"{TOP}/programs/cases/*.txt")):
        lines = re.findall(rb"^file \S+\.cilk: (.*)$", read(path), re.M)
        found += [unescaped(it) + b"\n" for it in lines if not re.search(rb"\{\d+\*", it)]
    found += re.findall(rb"```cilk\n(.*?)```", read(f"{TOP}/docs/LANGUAGE.md"), re.S)
    return [it for it in dict.fromkeys(found) if len(it) < 4000]


def logs():
    """Returns each log of programs/ with the text that it belongs to, which is the one with the longest name that it begins with."""
    names = [os.path.basename(it)[:-5] for it in glob.glob(f"{TOP}/programs/*.cilk")]
    found = []
    for path in sorted(glob.glob(f"{TOP}/programs/*.log")):
        name = max((it for it in names if os.path.basename(path).startswith(it)), key=len)
        found.append((read(f"{TOP}/programs/{name}.cilk"), read(path)))
    return found


def sessions():
    return [read(it) for it in sorted(glob.glob(f"{TOP}/programs/*.session"))]


# ---- logs


def choices_of(log):
    """Returns the workers' line and the choices of a log of either version, a line each."""
    lines = log.split(b"\n")
    choices = []
    for line in lines[2:]:
        found = re.fullmatch(rb"(\d+ step) (\d+)", line)
        if found:
            choices += [found[1]] * int(found[2])
        elif line and not line.startswith((b"program ", b"end ")):
            choices.append(line)
    return lines[1], choices


def log_of(workers, choices):
    """Returns the log of version 1 of these choices."""
    return b"\n".join([b"cilklog 1", workers, *choices, b"end %d" % len(choices), b""])


def named_log(workers, choices, canonical):
    """Returns the log of version 2 of these choices, which names the program with this canonical text."""
    lines, at = [b"cilklog 2", workers, b"program " + hashlib.sha256(canonical).hexdigest().encode()], 0
    while at < len(choices):
        end = at + 1
        while choices[at].endswith(b" step") and end < len(choices) and choices[end] == choices[at]:
            end += 1
        lines.append(choices[at] + (b" %d" % (end - at) if end - at > 1 else b""))
        at = end
    return b"\n".join([*lines, b"end %d" % len(choices), b""])


# ---- changes of a list of words


def tokens_of(text):
    return TOKEN.findall(text)


def kind_of(token):
    """Returns what a word is: a word of the language, a name, a number, a text, a blank or a mark."""
    if token in WORDS:
        return "word"
    first = token[:1]
    if first.isalpha() or first == b"_":
        return "name"
    return "number" if first.isdigit() else "text" if first == b'"' else "blank" if token.isspace() or token[:2] == b"/*" else "mark"


def instead(rng, token, others):
    """Returns another word of the kind of this one."""
    kind = kind_of(token)
    like = [it for it in others if kind_of(it) == kind] or [b""]
    made = {"word": WORDS, "mark": MARKS, "number": NUMBERS, "name": RESERVED, "blank": BLANKS, "text": TEXTS}[kind]
    return rng.choice(like if rng.random() < 0.7 else made)


def without_some(rng, words, _):
    at = rng.randrange(len(words))
    return words[:at] + words[at + rng.choice((1, 1, 1, 2, 4)) :]


def with_one_twice(rng, words, _):
    at = rng.randrange(len(words))
    return words[: at + 1] + words[at:]


def with_two_changed_over(rng, words, _):
    words = words[:]
    at, to = rng.randrange(len(words)), rng.randrange(len(words))
    words[at], words[to] = words[to], words[at]
    return words


def with_another(rng, words, others):
    words = words[:]
    at = rng.randrange(len(words))
    words[at] = instead(rng, words[at], others)
    return words


def with_one_more(rng, words, others):
    at = rng.randrange(len(words) + 1)
    made = rng.choice((others, MARKS, WORDS, NUMBERS, BLANKS))
    return words[:at] + [rng.choice(made)] + words[at:]


def with_blanks(rng, words, _):
    for _ in range(rng.randrange(1, 9)):
        at = rng.randrange(len(words) + 1)
        words = words[:at] + [rng.choice(BLANKS[:-1])] + words[at:]
    return words


def statements(words):
    """Returns where the statements, heads and ends of blocks stand: what ends in a `;`, a `{` or a `}`."""
    ends = [at + 1 for at, it in enumerate(words) if it in (b";", b"{", b"}")]
    return list(zip([0, *ends], ends)) or [(0, len(words))]


def bracketed(words):
    """Returns where what stands in brackets begins and ends, by the brackets around it."""
    found, opened = {b"(": [], b"{": [], b"[": []}, []
    for at, it in enumerate(words):
        if it in found:
            opened.append((it, at))
        elif it in (b")", b"}", b"]") and opened:
            mark, begin = opened.pop()
            found[mark].append((begin, at + 1))
    return found


def with_a_statement_moved(rng, words, _):
    begin, end = rng.choice(statements(words))
    rest = words[:begin] + words[end:]
    to = rng.choice(statements(rest))[0]
    return rest[:to] + words[begin:end] + rest[to:]


def with_a_statement_more(rng, words, others):
    begin, end = rng.choice(statements(others))
    to = rng.choice(statements(words))[0]
    return words[:to] + others[begin:end] + words[to:]


def without_a_statement(rng, words, _):
    begin, end = rng.choice(statements(words))
    return words[:begin] + words[end:]


def with_other_brackets(rng, words, others):
    """Puts what stands in brackets somewhere in the place of what stands in such brackets elsewhere."""
    mark = rng.choice((b"(", b"(", b"{", b"["))
    own, theirs = bracketed(words)[mark], bracketed(others)[mark]
    if not own or not theirs:
        return with_another(rng, words, others)
    (begin, end), (first, last) = rng.choice(own), rng.choice(theirs)
    return words[:begin] + others[first:last] + words[end:]


def with_nesting(rng, words, _):
    """Puts a word into many brackets, or many marks before it, as many as a text may have and more."""
    numbers = [at for at, it in enumerate(words) if kind_of(it) in ("number", "name")]
    blocks = [end - 1 for _, end in statements(words) if words[end - 1] == b";"]
    many = rng.choice(DEPTHS)
    before, behind = rng.choice([(b"(", b")"), (b"{", b"}"), (b"-", b""), (b"! ", b""), (b"1+", b""), (b"if(1)", b""), (b"if(1){", b"}"), (b"1?2:", b"")])
    places = blocks if before[-1:] in (b"{", b")") and before != b"(" else numbers
    if not places:
        return with_one_twice(rng, words, _)
    at = rng.choice(places)
    return words[:at] + [before * many, words[at], behind * many] + words[at + 1 :]


BY_WORDS = (without_some, with_one_twice, with_two_changed_over, with_another, with_another, with_another, with_one_more, with_blanks)
BY_GRAMMAR = (with_a_statement_moved, with_a_statement_more, without_a_statement, with_other_brackets, with_other_brackets, with_nesting)


def changed_words(rng, text, other):
    """Returns a text with some changes by words, statements and brackets, whose further words come from another text."""
    words, others = tokens_of(text), tokens_of(other) or [b" "]
    for _ in range(rng.choice((1, 1, 1, 2, 3, 6))):
        words = rng.choice(BY_WORDS + BY_GRAMMAR)(rng, words or [b" "], others)
    return b"".join(words)


def changed_bytes(rng, text, other):
    """Returns a text with some changes of bytes."""
    for _ in range(rng.choice((1, 1, 1, 2, 5))):
        at, more = rng.randrange(len(text) + 1), rng.choice((1, 1, 2, 8, 64))
        how = rng.randrange(7)
        if how == 0:
            text = text[:at] + bytes([rng.choice(BYTES)]) + text[at + 1 :]
        elif how == 1:
            text = text[:at] + bytes(rng.choice(BYTES) for _ in range(more)) + text[at:]
        elif how == 2:
            text = text[:at] + text[at + more :]
        elif how == 3:
            text = text[:at]
        elif how == 4:
            text = text[:at] + text[max(0, at - more) :]
        elif how == 5:
            text = text[:at] + other[rng.randrange(len(other) + 1) :]
        else:
            text = text[:at] + bytes([text[at] ^ 1 << rng.randrange(8)]) + text[at + 1 :] if at < len(text) else text + b"\xff"
    return text


def changed(rng, text, other):
    return changed_words(rng, text, other) if rng.random() < 0.7 else changed_bytes(rng, text, other)


# ---- the four kinds


def limit(rng):
    return rng.choice((1, 2, 10, 100, 300, 1000, 1000, 2000))


def text_input(rng, stock):
    """Returns a text: of the stock, or written anew, and mostly changed."""
    workers, turn = rng.choice((1, 1, 2, 2, 3, 4, 8, 64)), rng.randrange(1 << 16)
    text = written.program(rng) if rng.random() < 0.5 else rng.choice(stock.texts)
    other = written.program(rng) if rng.random() < 0.2 else rng.choice(stock.texts)
    if rng.random() < 0.75:
        text = changed(rng, text, other)
    return Input("text", text, workers=workers, limit=limit(rng), turn=turn)


def changed_choices(rng, workers, choices):
    """Returns a log of version 1 whose choices are a part of these, in another order or with others among them, and whose last line counts them."""
    choices = choices[:]
    for _ in range(rng.choice((1, 1, 2, 3))):
        at, how = rng.randrange(len(choices) + 1), rng.randrange(6)
        worker, other = rng.choice((1, 1, 2, 2, 3, 64)), rng.choice((1, 2, 3, 65, 255, 0))
        if how == 0:
            choices = choices[:at]
        elif how == 1:
            choices[at:at] = [rng.choice((b"%d step", b"%d pop")) % worker]
        elif how == 2:
            choices[at:at] = [b"%d steal %d" % (worker, other)]
        elif how == 3:
            choices = choices[:at] + choices[at + rng.choice((1, 1, 2, 5)) :]
        elif how == 4 and at + 1 < len(choices):
            choices[at], choices[at + 1] = choices[at + 1], choices[at]
        else:
            workers = b"workers %d" % rng.choice((0, 1, 2, 3, 64, 65, 255))
    return log_of(workers, choices)


def changed_lines(rng, log):
    """Returns a log with a line or a number of it changed."""
    lines = log.split(b"\n")
    at, how = rng.randrange(len(lines)), rng.randrange(6)
    if how == 0:
        lines[at] = re.sub(rb"\d+", lambda _: rng.choice(NUMBERS + GREATER), lines[at], count=1)
    elif how == 1:
        lines[at] = rng.choice(WRONG_LINES)
    elif how == 2:
        lines[at] = lines[at] + rng.choice((b" ", b"\r", b"\x00", b" 1", b"0"))
    elif how == 3:
        lines = lines[:at] + lines[at + 1 :]
    elif how == 4:
        lines = lines[:at] + lines[max(0, at - 1) :]
    else:
        lines[-2:-2] = [re.sub(rb"\d+", b"%d" % rng.randrange(70), rng.choice(lines), count=1)]
    return b"\n".join(lines)


def log_input(rng, stock):
    """Returns a text with a log: one that belongs to it, mostly changed, and seldom that of another."""
    text, log = rng.choice(stock.logs)
    turn, how = rng.randrange(1 << 16), rng.random()
    if how < 0.45:
        log = changed_choices(rng, *choices_of(log))
    elif how < 0.75:
        log = changed_lines(rng, log)
    elif how < 0.9:
        log = changed_bytes(rng, log, rng.choice(stock.logs)[1])
    elif how < 0.95:
        text = rng.choice(stock.logs)[0]
    return Input("log", text, log, turn=turn)


def place(rng, length):
    """Returns a number of choices, mostly one that the log has."""
    near = (0, 1, length - 1, length, length + 1, 999, 1000, 1001, 2000)
    return b"%d" % max(0, rng.choice((rng.choice(near), rng.randrange(length + 1), rng.randrange(length + 1))))


def path(rng):
    made = b"".join(b"/%d" % rng.choice((1, 1, 1, 2, 2, 3)) for _ in range(rng.choice((0, 1, 1, 2, 3, 6))))
    return rng.choice((made or b"/", made or b"/", made + b"/", b"/0", b"/01", b"//", b"1", b"/99", b"/4294967295", b"/999999999"))


def command(rng, length):
    """Returns a line of a session, with its end."""
    how = rng.random()
    if how < 0.5:
        line = rng.choice((*COMMANDS[:-1], b"go " + place(rng, length), b"go " + place(rng, length), b"back", b"step"))
    elif how < 0.85:
        number = rng.choice((*NUMBERS[:8], b"%d" % rng.randrange(1, 25)))
        line = rng.choice((b"break " + number, b"break " + number, b"clear " + number, b"frame " + path(rng), b"frame /", b"next", b"prev"))
    elif how < 0.95:
        line = rng.choice((b"", *WRONG_COMMANDS, b"x" * rng.choice((9, 4095, 4096))))
    else:
        line = rng.choice((b"go " + rng.choice(GREATER), b"clear " + rng.choice(GREATER), b"quit", b"quit ", b"x" * 4097))
    return line + rng.choice((b"\n", b"\n", b"\n", b"\n", b"\r\n", b"\r\r\n"))


def session_input(rng, stock):
    """Returns a text with a log and commands."""
    text, log = rng.choice(stock.logs)
    turn, length = rng.randrange(1 << 16), len(choices_of(log)[1])
    if rng.random() < 0.8:
        lines = b"".join(command(rng, length) for _ in range(rng.choice((1, 3, 8, 20))))
    else:
        lines = rng.choice(stock.sessions)
    if rng.random() < 0.2:
        lines = changed_bytes(rng, lines, rng.choice(stock.sessions))
    return Input("session", text, log, session=lines, turn=turn)


def word(rng):
    """Returns a word of a command line. No name leads out of the folder that cilk runs in."""
    names = (b"p", b"p", b"./p", b"g", b"h", b"none", b"folder", b"none/g", b"/dev/null", b"/dev/full", b"", b" ", b"p p", b"\xff", b"p\n", b"\xc3\xbc")
    made = rng.choice((SUBCOMMANDS, OPTIONS, names, names, NUMBERS + GREATER, (b"help", b"frob", b"x" * 5000)))
    it = rng.choice(made)
    if rng.random() < 0.1:
        it = changed_bytes(rng, it, b"--log")
    it = it.replace(b"\x00", b"")
    return it if it in names or b"/" not in it else it.replace(b"/", b"_")


def words_input(rng, stock):
    """Returns a text with a log, and words for a command line."""
    text, log = rng.choice(stock.logs)
    words = rng.choice(LINES).split()
    for _ in range(rng.choice((0, 1, 1, 2, 4))):
        at = rng.randrange(len(words) + 1)
        words[at : at + rng.randrange(2)] = [word(rng)]
    return Input("words", text, log, rng.choice(stock.sessions), tuple(words))


MAKERS = {"text": text_input, "log": log_input, "session": session_input, "words": words_input}


def input_of(seed, number, stock):
    """Returns the input of a seed that has this number."""
    rng = random.Random(f"{seed}:{number}")
    return MAKERS[rng.choices(KINDS, SHARES)[0]](rng, stock)
