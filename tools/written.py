"""Programs in Cilk that are written by chance, by the grammar: tools/inputs.py makes texts of them.

Most are accepted: names are declared before they are used, calls have as many arguments as they want, and what is spawned was defined before, or comes to an
end by a parameter that gets less. One place in some three hundred has a mistake.
"""

LEAST = ("0", "1", "2", "3", "7", "31", "100", "65536", "2147483647", "052", "0x1F")
TIGHT = ("+", "-", "*", "+", "-", "&", "|", "^", "<", "<=", ">", ">=", "==", "!=", "&&", "||")
TRAPPING = ("/", "%", "<<", ">>")
ASSIGNMENTS = ("=", "=", "=", "+=", "-=", "*=", "&=", "|=", "^=", "/=", "%=", "<<=", ">>=")
HEADERS = ("cilk.h", "cilk-lib.h", "cilk-lib.cilkh", "stdio.h", "stdlib.h")
MISTAKES = ("unknown", "08", "f()", "1 +", ")", "sync", "spawn f()", "x = y = 1", "break", "int x")
# One place in so many has a mistake.
SELDOM = 300


class Body:
    """What surrounds a statement."""

    def __init__(self, kind, gives, names, inlets=()):
        # "function", "procedure" or "inlet"
        self.kind, self.gives, self.names, self.inlets = kind, gives, names, inlets
        self.loops, self.switches = 0, 0


class Writer:
    def __init__(self, rng):
        self.rng, self.room = rng, rng.choice((5, 15, 40))
        self.names, self.arrays, self.locks = [], {}, []
        # how many arguments each takes, and whether it gives a value
        self.functions, self.procedures = {}, {}

    def chance(self, percent):
        return self.rng.random() * 100 < percent

    def pick(self, *of):
        return self.rng.choice(of)

    # ---- expressions

    def place(self, body):
        if self.arrays and self.chance(20):
            name = self.pick(*self.arrays)
            return f"{name}[{self.expression(body, 1) if self.chance(30) else self.rng.randrange(self.arrays[name])}]"
        return self.pick(*body.names, *self.names) if body.names or self.names else "unknown"

    def leaf(self, body):
        if self.rng.randrange(SELDOM) == 0:
            return self.pick(*MISTAKES)
        if body.kind == "procedure" and self.chance(4):
            return "SYNCHED"
        return self.pick(*LEAST[:5], *LEAST) if self.chance(40) or not (body.names or self.names) else self.place(body)

    def expression(self, body, depth=2):
        if depth == 0 or self.chance(35):
            return self.leaf(body)
        how = self.rng.randrange(12)
        if how == 0:
            return f"{self.pick('-', '+', '!', '~')} {self.leaf(body)}"
        if how == 1:
            return f"({self.expression(body, depth - 1)})"
        if how == 2:
            return f"{self.expression(body, depth - 1)} ? {self.leaf(body)} : {self.expression(body, depth - 1)}"
        if how == 3:
            return f"{self.expression(body, depth - 1)} {self.pick(*TRAPPING)} {self.pick('1', '2', '3', self.leaf(body))}"
        return f"{self.expression(body, depth - 1)} {self.pick(*TIGHT)} {self.expression(body, depth - 1)}"

    def arguments(self, body, count):
        count += self.rng.randrange(SELDOM) == 0
        return ", ".join(self.expression(body, 1) for _ in range(count))

    # ---- statements

    def assignment(self, body):
        if self.chance(25):
            return f"{self.place(body)}{self.pick('++', '--')};" if self.chance(80) else f"++{self.place(body)};"
        return f"{self.place(body)} {self.pick(*ASSIGNMENTS)} {self.expression(body)};"

    def call(self, body, called, spawn=""):
        """Returns a call, or a spawn, of one of these, whose value goes somewhere if it has one."""
        name = self.pick(*called)
        count, gives = called[name]
        made = f"{spawn}{name}({self.arguments(body, count)})"
        if not gives or self.chance(15):
            return f"{made};"
        takers = [it for it, more in body.inlets] if spawn else []
        if takers and self.chance(60):
            taker = self.pick(*takers)
            more = dict(body.inlets)[taker]
            return f"{taker}({made}{''.join(f', {self.expression(body, 1)}' for _ in range(more))});"
        return f"{self.place(body)} {self.pick('=', '=', '+=', '-=', '*=')} {made};"

    def printing(self, body):
        count = self.rng.randrange(3)
        text = " ".join(self.pick("%d", "%d", "a%%") if at < count else self.pick("x", "\\t", "\\\"") for at in range(count + 1))
        return f'printf("{text}\\n"{"".join(f", {self.expression(body, 1)}" for _ in range(text.count("%d")))});'

    def locking(self, body, depth):
        lock = self.pick(*self.locks)
        if self.chance(85):
            return f"Cilk_lock({lock}); {self.assignment(body)} Cilk_unlock({lock});"
        return f"{self.pick('Cilk_lock', 'Cilk_unlock', 'Cilk_lock_init')}({lock}); {self.statement(body, depth)}"

    def choice(self, body, depth):
        labels = self.rng.sample(("case 0:", "case 1:", "case -1:", "case 2147483647:", "default:", "case 0x2:"), self.rng.randrange(1, 4))
        body.switches += 1
        rounds = " ".join(f"{it} {self.statement(body, depth)} {self.pick('break;', 'break;', '')}" for it in labels)
        body.switches -= 1
        return f"switch ({self.expression(body)}) {{ {rounds} }}"

    def loop(self, body, depth):
        name, most = self.place(body), self.rng.randrange(1, 6)
        test = f"{name} < {most}"
        body.loops += 1
        inner = self.statement(body, depth)
        body.loops -= 1
        how = self.rng.randrange(5)
        if how == 0:
            return f"while ({test}) {{ {name}++; {inner} }}"
        if how == 1:
            return f"do {{ {name}++; {inner} }} while ({test});"
        if how == 2:
            return f"for (; {self.pick(test, '')}; {name}++) {{ {inner} if ({name} > {most}) break; }}"
        return f"for ({name} = 0; {test}; {name}++) {inner}"

    def leaving(self, body):
        if body.loops and self.chance(60):
            return f"if ({self.expression(body)}) {self.pick('break;', 'continue;')}"
        if body.kind == "inlet" and self.chance(50):
            return f"if ({self.expression(body)}) abort;"
        return f"if ({self.expression(body)}) return{' ' + self.expression(body) if body.gives else ''};"

    def nested(self, body, depth):
        how = self.rng.randrange(5)
        if how == 0:
            return self.loop(body, depth - 1)
        if how == 1:
            return self.choice(body, depth - 1)
        if how == 2:
            return self.block(body, depth - 1)
        other = f" else {self.statement(body, depth - 1)}" if self.chance(40) else ""
        inner = self.statement(body, depth - 1)
        return f"if ({self.expression(body)}) {'{ ' + inner + ' }' if other else inner}{other}"

    def statement(self, body, depth):
        self.room -= 1
        if depth > 0 and self.room > 0 and self.chance(30):
            return self.nested(body, depth)
        how = self.rng.random()
        if body.kind == "procedure" and self.procedures and how < 0.35:
            return self.call(body, self.procedures, "spawn ")
        if self.functions and how < 0.45:
            return self.call(body, self.functions)
        if body.kind == "procedure" and how < 0.55:
            return "sync;"
        if self.locks and body.kind != "inlet" and how < 0.63:
            return self.locking(body, 0)
        if how < 0.72:
            return self.printing(body)
        return self.leaving(body) if how < 0.79 else self.pick(";", "{ }", "abort;" if body.kind == "inlet" else ";") if how < 0.82 else self.assignment(body)

    def block(self, body, depth):
        """Returns a block with variables of its own, of which one may hide another."""
        before = body.names
        new = [self.pick("x", "y", "k", "t") for _ in range(self.rng.randrange(2))]
        declared = "".join(f"int {it}{' = ' + self.expression(body, 1) if self.chance(60) else ''}; " for it in new)
        body.names = body.names + new
        inner = " ".join(self.statement(body, depth) for _ in range(self.rng.randrange(1, 4)))
        body.names = before
        return f"{{ {declared}{inner} }}"

    # ---- the top level

    def inlets(self, names):
        """Returns the inlets of a procedure with how many more arguments each takes, and their text."""
        found, text = [], ""
        for name in ("i", "j")[: self.pick(0, 0, 1, 1, 2)]:
            more = self.rng.randrange(2)
            body = Body("inlet", False, [*names, "v", "w"][: len(names) + 1 + more])
            parameters = ", ".join(f"int {it}" for it in ("v", "w")[: 1 + more])
            text += f"inlet void {name}({parameters}) {self.block(body, 1)} "
            found.append((name, more))
        return tuple(found), text

    def body(self, kind, gives, parameters):
        names = [it for it in ("x", "y", "z") if it not in parameters][: self.rng.randrange(1, 4)]
        made = "".join(f"int {it}{' = ' + self.pick(*LEAST) if self.chance(50) else ''}; " for it in names)
        names += parameters
        inlets, text = self.inlets(names) if kind == "procedure" else ((), "")
        body = Body(kind, gives, names, inlets)
        inner = " ".join(self.statement(body, 2) for _ in range(self.rng.randrange(1, 7)))
        ending = f"return {self.expression(body)};" if gives else self.pick("", "return;")
        return body, f"{made}{text}", f"{inner} {ending}"

    def definition(self, name, kind):
        gives, count = self.chance(70), self.rng.randrange(3)
        parameters = ["n", "m"][:count]
        self.room = self.pick(5, 15, 40)
        body, declared, inner = self.body(kind, gives, parameters)
        listed = self.procedures if kind == "procedure" else self.functions
        if count and self.chance(40):
            again = f"{name}(n - 1{', m' if count == 2 else ''});"
            spawned = f"spawn {again}" if kind == "procedure" else again
            taken = "x = " if gives and self.chance(80) and "x" in body.names else ""
            declared += f"if (n < 1) return{' n' if gives else ''}; {taken}{spawned} "
        listed[name] = (count, gives)
        head = f"{'cilk ' if kind == 'procedure' else ''}{'int' if gives else 'void'} {name}"
        taken = ", ".join(f"int {it}" for it in parameters) or self.pick("", "void")
        return f"{head}({taken}) {{ {declared}{inner} }}"

    def main(self):
        self.room = 40
        _, declared, inner = self.body("procedure", True, [])
        ready = "".join(f"Cilk_lock_init({it}); " for it in self.locks if self.chance(95))
        return f"cilk int main({self.pick('void', '', 'void', 'int argc, char *argv[]')}) {{ {declared}{ready}{inner} }}"

    def program(self):
        lines = [f"#include <{self.pick(*HEADERS)}>" for _ in range(self.pick(0, 0, 0, 1, 2))]
        for name in ("a", "b", "c")[: self.rng.randrange(4)]:
            lines.append(f"int {name}{' = ' + self.pick('', '-') + self.pick(*LEAST) if self.chance(30) else ''};")
            self.names.append(name)
        for name in ("d", "e")[: self.pick(0, 0, 1, 2)]:
            self.arrays[name] = self.pick(1, 2, 5, 100)
            lines.append(f"int {name}[{self.arrays[name]}];")
        for name in ("l", "o")[: self.pick(0, 0, 1, 2)]:
            lines.append(f"Cilk_lockvar {name};")
            self.locks.append(name)
        for at in range(self.rng.randrange(3)):
            lines.append(self.definition(f"f{at}", "function"))
        for at in range(self.rng.randrange(1, 4)):
            lines.append(self.definition(f"p{at}", "procedure"))
        return "\n".join([*lines, self.main(), ""])


def program(rng):
    return Writer(rng).program().encode()
