"""Computes the specimens' rows under a changed definition: the part of tools/doubt that spares the prover most changes.

Each definition becomes a Python function, and a change replaces one of them. Natural numbers are whole numbers with a cut-off
subtraction, integers are whole numbers, a list is a tuple, a record a dictionary. A Bool's `cond`, && and || look only at what they
need, and so does `judged`; everything else is computed at once. Types are not looked at: a change that computes another row is
refused by the specimens where it has a type, and by the types where it has none; one that meets a number where a list is due
has none. Whatever cannot be computed here is left to the prover.
"""

import functools
import re
import signal
import sys

from doubt_text import HOLD, NUMERAL, Module, Unreadable

sys.setrecursionlimit(30000)
TESTS = ["Partitions", "Sheets", "Pieces", "Held", "Censuses", "Bakings", "BitReads", "Eleven", "FileRows", "Outside"]  # the files of proofs/ whose `hold` is a test that computes
FLOATS = {"Floats", "Degrees"}  # the files of specs/ whose rows are of floats, which are not computed here
LATE = {("Answers", "judged"): 1}  # the parameter that is computed only where it is needed: what comes after the checks
MOST_BITS = 4096  # of a number that is worth computing
SECONDS = 20  # of processor time for the rows under one change


class Slow(Exception):
    """The rows take too long."""


class Function:
    """A function as a value: so many parameters, and what it does with them."""

    def __init__(self, count, body):
        self.count, self.body = count, body


class Made:
    """A value that a constructor has made."""

    def __init__(self, name, parts):
        self.name, self.parts = name, parts


def apply(function, *arguments):
    while arguments:
        if isinstance(function, Made):  # a constructor that has not had all its parts yet
            return Made(function.name, (*function.parts, *arguments))
        if len(arguments) < function.count:
            return Function(function.count - len(arguments), functools.partial(function.body, *arguments))
        function, arguments = function.body(*arguments[: function.count]), arguments[function.count:]
    return function


def minus(a, b):
    return a - b if a > b else 0


# The kit's division by 0 gives 0, and its remainder the whole.
def quotient(a, b):
    return a // b if b else 0


def remainder(a, b):
    return a % b if b else a


def shifted(z, m):
    return quotient(z, m) if z >= 0 else -1 - quotient(-1 - z, m)


def power(a, b):
    if a.bit_length() * b > MOST_BITS:
        raise OverflowError
    return a ** b


def item(values, at, other):
    return values[at] if at < len(values) else other


def repeated(count, value):
    if count > MOST_BITS:
        raise OverflowError
    return (value,) * count


# How the kit's functions are said in Python: their parameters in order, and what they give.
LIBRARY = {
    "cond": (3, "({1} if {0} else {2})"), "not": (1, "(not {0})"), "get_or": (3, "item({0}, {1}, {2})"), "length": (1, "len({0})"),
    "take": (2, "{1}[:{0}]"), "drop": (2, "{1}[{0}:]"), "replicate": (2, "repeated({0}, {1})"), "ltb": (2, "({0} < {1})"),
    "leb": (2, "({0} <= {1})"), "eqb": (2, "({0} == {1})"), "min": (2, "min({0}, {1})"), "max": (2, "max({0}, {1})"),
    "suc": (1, "({0} + 1)"), "pos": (1, "{0}"),
    "negsuc": (1, "(-1 - {0})"), "nat_abs": (1, "abs({0})"), "neg_ℤ": (1, "(-{0})"), "lt_z": (2, "({0} < {1})"),
    "shr_z": (2, "shifted({0}, {1})"), "result_unwrap_or": (2, "({0}.parts[0] if {0}.name == 'Ok' else {1})"),
    "bit_or": (2, "({0} | {1})"), "true": (0, "True"), "false": (0, "False"), "zero": (0, "0"), "[]": (0, "()"),
}
MADE = {"Ok", "Err", "Some", "None", "tt"}  # the kit's constructors that the definitions use
INFIX = {
    "+": "({} + {})", "-": "minus({}, {})", "*": "({} * {})", "/": "quotient({}, {})", "%": "remainder({}, {})", "^": "power({}, {})",
    "++": "({} + {})", "+ℤ": "({} + {})", "-ℤ": "({} - {})", "*ℤ": "({} * {})", "&&": "({} and {})", "||": "({} or {})",
}
# Which values a pattern takes, and what its parts are then.
PATTERNS = {
    "zero": ("{} == 0", []), "suc": ("{} > 0", ["{} - 1"]), "[]": ("not {}", []), "∷": ("{}", ["{}[0]", "{}[1:]"]),
    "pos": ("{} >= 0", ["{}"]), "negsuc": ("{} < 0", ["-1 - {}"]), "true": ("{}", []), "false": ("not {}", []),
}


USED = [Function, Made, apply, minus, quotient, remainder, shifted, power, item, repeated, Unreadable]


class File:
    """A file of definitions, and what its names mean."""

    def __init__(self, part, module):
        self.part, self.module = part, module
        self.counts = {clause.name: self.parameters(clause) for clause in module.clauses if isinstance(clause.parameters, list)}
        data = re.findall(r"^(?:pub )?data .*\n((?: +.*\n)*)", module.text, re.M)
        self.made = {name for text in data for name in re.findall(r"^ +(\S+) :", text, re.M)}

    def parameters(self, clause):
        depth, count = 0, len(clause.given)
        for token in clause.parameters:
            count += depth == 0 and token.text != ")"
            depth += (token.text == "(") - (token.text == ")")
        return count


def python(part, module, name):
    return "f_" + re.sub(r"\W", lambda sign: f"_{ord(sign.group())}_", f"{part}_{module}_{name}")


def variable(name):
    return "v_" + re.sub(r"\W", "_", name)


class Writer:
    """Writes a definition of one file as Python."""

    def __init__(self, files, file):
        self.files, self.file, self.within = files, file, None

    # a definition's file and name, a constructor's name, or a name of the kit's
    def meaning(self, name):
        if "." in name:  # a constructor by its type's other name, as in rgb.Counted
            return "made", name.split(".")[-1]
        if name in self.file.counts:
            return self.file, name
        if name in self.file.made:
            return "made", name
        path, own = self.file.module.brought.get(name, ("", name))
        if "TheVariants" in path:
            return "made", own
        home = self.files.get(tuple(path.split(".")[2:4]))
        if home and own in home.made:
            return "made", own
        if home and own in home.counts:
            return home, own
        if own in LIBRARY:
            return "kit", own
        if own in MADE:
            return "made", own
        raise Unreadable(f"'{name}'")

    def definition(self, name):
        self.within = name
        clauses = [clause for clause in self.file.module.clauses if clause.name == name]
        function, count = python(self.file.part, self.file.module.name, name), self.file.counts[name]
        if count == 0:
            body = self.expression(clauses[0].body, {})
            return f"def {function}():\n  if '{function}' not in kept: kept['{function}'] = {body}\n  return kept['{function}']\n"
        lines = [f"def {function}({', '.join(f'a{at}' for at in range(count))}):\n"]
        for clause in clauses:
            lines.append(self.clause(clause))
        text = "".join(lines) + "  raise Unreadable('no clause')\n"
        return text if text.count(function + "(") < 3 else text + self.remembering(function)

    # A function that asks itself twice would take twice as long at each step.
    def remembering(self, function):
        return (
            f"def once(*a, f={function}):\n  key = ({function!r}, *a)\n  if key not in kept: kept[key] = f(*a)\n"
            f"  return kept[key]\n{function} = once\n"
        )

    def clause(self, clause):
        words, tests, bound, place = clause.given + [token.text for token in clause.parameters], [], {}, 0
        late = LATE.get((self.file.module.name, clause.name))
        while words:
            self.pattern(words, f"a{place}()" if place == late else f"a{place}", tests, bound)
            place += 1
        waiting = {name for name, value in bound.items() if value == f"a{late}()"}
        bound.update({name: f"a{late}" for name in waiting})
        scope = {name: variable(name) + "()" * (name in waiting) for name in bound}
        lines = [f"  if {' and '.join(tests) or 'True'}:\n"]
        lines += [f"    {variable(name)} = {value}\n" for name, value in bound.items()]
        return "".join(lines) + f"    return {self.expression(clause.body, scope)}\n"

    # One pattern, from the front of some words.
    def pattern(self, words, value, tests, bound):
        word = words.pop(0)
        if word == "(":
            self.grouped(words, value, tests, bound)
        elif NUMERAL.fullmatch(word):
            tests.append(f"{value} == {int(word, 0)}")
        elif word in PATTERNS:
            tests.append(PATTERNS[word][0].format(value))
        elif self.is_made(word):
            tests.append(f"{value}.name == {self.meaning(word)[1]!r}")
        else:
            bound[word] = value

    def is_made(self, word):
        try:
            return self.meaning(word)[0] == "made"
        except Unreadable:
            return False

    def grouped(self, words, value, tests, bound):
        inner, depth = [], 1
        while depth:
            inner.append(words.pop(0))
            depth += (inner[-1] == "(") - (inner[-1] == ")")
        inner.pop()
        if "∷" in inner:
            at = inner.index("∷")
            rest = inner[at + 1:]
            inner = ["∷"] + inner[:at] + (["(", *rest, ")"] if "∷" in rest else rest)
        parts = ["{}.parts[%d]" % at for at in range(len(inner))]
        test, parts = PATTERNS.get(inner[0]) or ("{}.name == %r" % self.meaning(inner[0])[1], parts)
        tests.append(test.format(value))
        rest = inner[1:]
        for part in parts:
            if rest:
                self.pattern(rest, f"({part.format(value)})", tests, bound)

    def expression(self, node, scope):
        return getattr(self, "of_" + node.kind)(node, scope)

    def of_number(self, node, scope):
        return str(int(node.text.replace("_", ""), 0))

    def of_group(self, node, scope):
        return self.expression(node.parts[0], scope)

    def of_name(self, node, scope):
        return self.of_call(node, [], scope)

    def of_apply(self, node, scope):
        return self.of_call(node.parts[0], [self.expression(part, scope) for part in node.parts[1:]], scope)

    def of_call(self, head, arguments, scope):
        if head.kind != "name" or head.text in scope:
            value = scope[head.text] if head.kind == "name" else self.expression(head, scope)
            return f"apply({', '.join([value] + arguments)})" if arguments else value
        home, name = self.meaning(head.text)
        if home == "made":
            return f"Made({name!r}, ({''.join(part + ', ' for part in arguments)}))"
        if home == "kit":
            count, form = LIBRARY[name]
        else:
            count, function = home.counts[name], python(home.part, home.module.name, name)
            unsaid = home.module.unsaid(name, self.within) if home is self.file else 0
            arguments = [variable(given) for given, _ in home.module.groups[name][:unsaid]] + arguments if unsaid else arguments
            late = LATE.get((home.module.name, name))
            form = f"{function}({', '.join('lambda: {%d}' % at if at == late else '{%d}' % at for at in range(count))})"
        if len(arguments) >= count:
            value = form.format(*arguments[:count])
            return f"apply({', '.join([value] + arguments[count:])})" if len(arguments) > count else value
        names = [f"p{at}" for at in range(count)]
        value = f"Function({count}, lambda {', '.join(names)}: {form.format(*names)})"
        return f"apply({', '.join([value] + arguments)})" if arguments else value

    def of_infix(self, node, scope):
        if node.text == "∷":
            return self.chain(node, scope)
        if node.text not in INFIX:
            raise Unreadable(f"'{node.text}'")
        return INFIX[node.text].format(*(self.expression(part, scope) for part in node.parts))

    # Many ∷ are one tuple: Python nests no more than so deep.
    def chain(self, node, scope):
        items = []
        while node.kind == "infix" and node.text == "∷":
            items.append(self.expression(node.parts[0], scope))
            node = node.parts[1]
        front = "(" + "".join(item + ", " for item in items) + ")"
        return front if node.kind == "name" and node.text == "[]" else f"({front} + {self.expression(node, scope)})"

    def of_lambda(self, node, scope):
        names = node.text.split()
        body = self.expression(node.parts[0], {**scope, **{name: variable(name) for name in names}})
        return f"Function({len(names)}, lambda {', '.join(map(variable, names))}: {body})"

    def of_let(self, node, scope):
        value, body = node.parts
        inner = self.expression(body, {**scope, node.text: variable(node.text)})
        return f"(lambda {variable(node.text)}: {inner})({self.expression(value, scope)})"

    def of_field(self, node, scope):
        return f"{self.expression(node.parts[0], scope)}[{node.text!r}]"

    def of_record(self, node, scope):
        parts = [self.expression(part, scope) for part in node.parts]
        return "{" + ", ".join(f"{name!r}: {part}" for name, part in zip(node.text.split(), parts)) + "}"


class Rows:
    """The rows of a crate, and whether they hold."""

    def __init__(self, crate, numbers):
        paths = [("specs", path) for path in sorted((crate / "specs").glob("*.antt"))]
        paths += [("proofs", path) for path in sorted((crate / "proofs").glob("*.antt"))]
        paths += [("specs", path) for path in sorted((numbers / "specs").glob("*.antt"))]
        self.files = {(part, path.stem): File(part, Module(path)) for part, path in paths if path.stem != "Lib"}
        self.world = {function.__name__: function for function in USED}
        self.world["kept"], self.uses, self.tests = {}, {}, []
        for file in list(self.files.values()):
            for name in file.counts:
                self.define(file, name)
        for name in TESTS:
            self.test(self.files["proofs", name])

    # What cannot be said in Python fails only where it is needed.
    def define(self, file, name):
        function = python(file.part, file.module.name, name)
        try:
            source = Writer(self.files, file).definition(name)
            exec(source, self.world)
            self.uses.setdefault(function, set(re.findall(r"\bf_\w+", source)))
        except (Unreadable, SyntaxError):
            self.world.pop(function, None)

    # `hold : T (..)`: what stands there is the test
    def test(self, file):
        source = HOLD.sub(r"\g<name> : Bool\n\g<name> = \g<test>\n", file.module.text)
        stated = File(file.part, Module(file.module.path, source))
        for match in HOLD.finditer(file.module.text):
            test = python(file.part, file.module.name, match["name"])
            self.uses.pop(test, None)  # of `hold = tt`
            self.define(stated, match["name"])
            self.tests.append(test)

    # Whether a test needs a function.
    def leans(self, test, function):
        seen, left = set(), {test}
        while left:
            seen |= left
            left = {other for name in left for other in self.uses.get(name, ())} - seen
        return function in seen

    def hold(self, function=None):
        """Whether every row holds, or every one of the tests that need a function."""
        self.world["kept"].clear()
        signal.signal(signal.SIGVTALRM, too_slow)
        signal.setitimer(signal.ITIMER_VIRTUAL, SECONDS)
        try:
            return all(self.world[test]() for test in self.tests if function is None or self.leans(test, function))
        finally:
            signal.setitimer(signal.ITIMER_VIRTUAL, 0)

    def verdict(self, change, text):
        """Under a change: 'fails' where some row is another, or meets a value of another kind; 'holds' where none is; or 'unknown'."""
        file = self.files["specs", change.module]
        function = python("specs", change.module, change.name)
        before = self.world.get(function)
        if change.module in FLOATS:
            return "unknown"
        if not any(self.leans(test, function) for test in self.tests):
            return "holds"
        if before is None:
            return "unknown"
        self.define(File("specs", Module(file.module.path, text)), change.name)
        try:
            return "holds" if self.hold(function) else "fails"
        except (TypeError, AttributeError, KeyError):
            return "fails"
        except (Unreadable, Slow, ArithmeticError, IndexError, NameError, RecursionError, MemoryError):
            return "unknown"
        finally:
            self.world[function] = before


def too_slow(number, frame):
    raise Slow
