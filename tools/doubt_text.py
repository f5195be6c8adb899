"""Reads definitions of antt: the part of tools/doubt that knows how a file of them is written."""

import collections
import re

ROOT = "Rattle.rules.specs."

# An operator's strength and the side to which it groups, as the kit's libraries declare them.
FIXITY = {
    "^": (75, "right"), "*": (70, "left"), "/": (70, "left"), "%": (70, "left"), "∷": (67, "right"),
    "+": (65, "left"), "-": (65, "left"), "++": (65, "left"), "<": (50, "none"), "&&": (35, "left"), "||": (30, "left"),
    "*ℤ": (7, "left"), "+ℤ": (6, "left"), "-ℤ": (6, "left"), "≡": (4, "none"), "×": (2, "right"), "→": (1, "right"),
}
# A dot before a capital is part of a name, as in rgb.Counted; before any other it leads to a field.
TOKEN = re.compile(r"(?P<space>\s+|--[^\n]*)|(?P<mark>[(){};,@.])|(?P<word>WORD(?:\.(?=[A-Z])WORD)*)".replace("WORD", r"(?:«[^»]*»|[^\s(){}.;,@\"«»]+)"))
NUMERAL = re.compile(r"0x[0-9A-Fa-f_]+|[0-9][0-9_]*")
HEAD = re.compile(r"(?:(?:unfoldable|abbrev|pub) )*(?P<name>[^\s:]+)(?: \{[^}]*\})? : (?P<type>.*)")
DATA = re.compile(r"(?:pub )?data ")  # it has constructors, and no body to change
GROUP = re.compile(r"module _(?P<parameters>(?: \([^()]*\))+) where\n")  # definitions that share their first parameters
RECORD = re.compile(r"(?:pub )?record (?P<name>\S+)(?P<parameters>.*) : Type 0 where")
# the tests of a file of specimens: `hold`, or one for each list of rows
HOLD = re.compile(r"^(?P<name>hold[\w-]*) :\s+T (?P<test>.*(?:\n +.*)*)\n(?:unfolding .*\n(?:[ ]+.*\n)*)?(?P=name) = tt\n", re.M)
FIELD = re.compile(r" +(?:pub )?(?P<name>\S+) : ")

Token = collections.namedtuple("Token", "text start end")
# kind: number, name, apply, infix, lambda, let, group, field, record; parts: the nodes below; text: the name, the operator,
# or the names that are bound or given
Node = collections.namedtuple("Node", "kind start end parts text")
# a clause: its parameters' tokens (of a record their types, by name), the body's node, and the names that a group gives it before
Clause = collections.namedtuple("Clause", "name parameters body start given")
Change = collections.namedtuple("Change", "module name start end new kind before after line")


class Unreadable(Exception):
    """A text that this tool has no rule for."""


def tokens(text, start, end):
    found = []
    while start < end:
        match = TOKEN.match(text, start, end)
        if not match:
            raise Unreadable(f"'{text[start]}'")
        if match.lastgroup != "space":
            found.append(Token(match.group(), match.start(), match.end()))
        start = match.end()
    return found


# The names and types of parameters that are written (a b : A) (c : B).
def typed(text):
    return [(name, kind) for names, kind in re.findall(r"\(([^:]*) : ([^()]*)\)", text) for name in names.split()]


class Reader:
    """Reads one expression of antt into nodes: names, numbers, applications, operators, lambdas, lets, records, fields."""

    def __init__(self, text, found):
        self.text, self.found, self.at = text, found, 0

    def peek(self):
        return self.found[self.at].text if self.at < len(self.found) else None

    def take(self, wanted=None):
        if self.at == len(self.found) or wanted not in (None, self.peek()):
            raise Unreadable(f"'{self.peek()}' where '{wanted}' is due")
        self.at += 1
        return self.found[self.at - 1]

    def whole(self):
        node = self.expression(0)
        if self.peek() is not None:
            raise Unreadable(f"'{self.peek()}' after an expression")
        return node

    def expression(self, least):
        left = self.application()
        while self.peek() in FIXITY and FIXITY[self.peek()][0] >= least:
            operator = self.take().text
            strength, side = FIXITY[operator]
            right = self.expression(strength if side == "right" else strength + 1)
            left = Node("infix", left.start, right.end, [left, right], operator)
        return left

    def application(self):
        parts = [self.projection()]
        while self.peek() not in (None, ")", "}", ";", ",", "=", "in") and self.peek() not in FIXITY:
            parts.append(self.projection())
        return parts[0] if len(parts) == 1 else Node("apply", parts[0].start, parts[-1].end, parts, "")

    # A field is one of what stands right before it: f x.width is f (x.width).
    def projection(self):
        node = self.atom()
        while self.peek() == "." and self.found[self.at].start == node.end:
            self.take()
            field = self.take()
            node = Node("field", node.start, field.end, [node], field.text)
        return node

    def atom(self):
        token = self.take()
        readers = {"(": self.grouped, "λ": self.function, "let": self.binding, "record": self.record}
        if token.text in readers:
            return readers[token.text](token)
        if token.text in "{};,@.":
            raise Unreadable(f"'{token.text}'")
        kind = "number" if NUMERAL.fullmatch(token.text) else "name"
        return Node(kind, token.start, token.end, [], token.text)

    # A pair, or more values than two, is a record whose fields are 0, 1 and so on.
    def grouped(self, opening):
        parts = [self.expression(0)]
        while self.peek() == ",":
            self.take()
            parts.append(self.expression(0))
        closing = self.take(")")
        kind, names = ("record", map(str, range(len(parts)))) if len(parts) > 1 else ("group", "")
        return Node(kind, opening.start, closing.end, parts, " ".join(names))

    def function(self, opening):
        names = []
        while self.peek() != ".":
            names.append(self.take().text)
        self.take(".")
        body = self.expression(0)
        return Node("lambda", opening.start, body.end, [body], " ".join(names))

    def binding(self, opening):
        name = self.take().text
        self.take("=")
        value = self.expression(0)
        self.take("in")
        body = self.expression(0)
        return Node("let", opening.start, body.end, [value, body], name)

    def record(self, opening):
        self.take("{")
        names, parts = [], []
        while True:
            names.append(self.take().text)
            self.take("=")
            parts.append(self.expression(0))
            last = self.take().text
            if last == ";" and self.peek() == "}":  # a semicolon behind the last field
                last = self.take().text
            if last == "}":
                return Node("record", opening.start, self.found[self.at - 1].end, parts, " ".join(names))


class Module:
    """A file of definitions: its text, what it uses, and its definitions with their types and clauses."""

    def __init__(self, path, text=None):
        self.path, self.name, self.text = path, path.stem, text or path.read_text()
        self.used = set(re.findall(re.escape(ROOT) + r"(\w+)\.\{", self.text))
        self.brought = {}
        for module, names in re.findall(r"^use (\S+)\.\{([^}]*)\}$", self.text, re.M):
            self.brought.update({name.split()[-1]: (module, name.split()[0]) for name in names.split(",") if name.strip()})
        self.types, self.clauses, self.unread, self.groups = {}, [], [], {}
        self.read()

    def line(self, at):
        return self.text.count("\n", 0, at) + 1

    # A declaration starts at the margin, and what is indented below belongs to it; in a group the margin is two spaces.
    def read(self, start=0, end=None, margin="", given=()):
        one = rf"^{margin}(?![ \n}}])(?!--)(?!use )(?!pub mod).*\n(?:{margin}[ ]+.*\n|\n(?={margin}[ ]))*"
        for match in re.compile(one, re.M).finditer(self.text, start, len(self.text) if end is None else end):
            text = match.group()[len(margin):]
            try:
                self.declaration(text, match.start() + len(margin), given)
            except Unreadable as fault:
                self.unread.append((self.line(match.start()), str(fault)))

    def declaration(self, text, start, given):
        record, head, group = RECORD.match(text), HEAD.match(text), GROUP.match(text)
        if record:
            self.record(record, text, start)
        elif group:
            self.read(start + group.end(), start + len(text), "  ", typed(group["parameters"]))
        elif text.startswith("unfolding ") or DATA.match(text):
            return
        elif head:
            self.types[head["name"]] = " → ".join([kind for _, kind in given] + [" ".join(head["type"].split())])
            self.groups[head["name"]] = given
        else:
            self.clause(text, start, [name for name, _ in given])

    # How many parameters of a definition go without saying in another: those of the group that both are in.
    def unsaid(self, name, within):
        given = self.groups.get(name) or ()
        return len(given) if given is self.groups.get(within) else 0

    def record(self, head, text, start):
        parameters = dict(typed(head["parameters"]))
        at = head.end()
        for line in text[at:].splitlines(keepends=True):
            field = FIELD.match(line)
            if field:
                body = Reader(self.text, tokens(self.text, start + at + field.end(), start + at + len(line))).whole()
                self.clauses.append(Clause(head["name"], parameters, body, start + at, []))
            at += len(line)

    def clause(self, text, start, given):
        found = tokens(self.text, start, start + len(text))
        places = [at for at, token in enumerate(found) if token.text == "="]
        if not places or found[0].text not in self.types:
            raise Unreadable(f"'{found[0].text}' is neither a type nor a clause")
        body = Reader(self.text, found[places[0] + 1:]).whole()
        self.clauses.append(Clause(found[0].text, found[1:places[0]], body, start, given))
