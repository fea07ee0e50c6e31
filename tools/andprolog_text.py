"""Reads andprolog's text: tokens with their places, terms, clauses, and answer lines.

The tools beside the program stand on this module. None of it is trusted for an answer: the program
alone decides what is accepted and what is answered.
"""

import os
import re
import shutil
import sys
from bisect import bisect_right
from dataclasses import dataclass, field

# Terms are nested at most 1,000 deep, each level taking a few calls of the reader.
sys.setrecursionlimit(12_000)
MOST = 9223372036854775808

INFIX = {
    ":-": (1200, 1199, 1199), "-->": (1200, 1199, 1199), ";": (1100, 1099, 1100), "->": (1050, 1049, 1050),
    ",": (1000, 999, 1000), "=>": (975, 974, 974), "&": (950, 949, 950),
    **{name: (700, 699, 699) for name in "= \\= == \\== is =:= =\\= < > =< >= =.. @< @> @=< @>=".split()},
    "+": (500, 500, 499), "-": (500, 500, 499),
    "*": (400, 400, 399), "//": (400, 400, 399), "rem": (400, 400, 399), "mod": (400, 400, 399),
}
PREFIX = {":-": (1200, 1199), "?-": (1200, 1199), "\\+": (900, 900), "-": (200, 200)}
BUILTINS = {("true", 0), ("fail", 0), *((name, 2) for name in "= \\= == \\== is =:= =\\= < > =< >=".split())}
LEFT_OUT = set(
    "! -> \\+ --> :- ?- =.. @< @> @=< @>= call once catch throw halt repeat assert asserta assertz retract abolish clause "
    "findall bagof setof functor arg copy_term compare var nonvar atom number integer float atomic compound ground indep "
    "read write writeq write_canonical print nl get_char put_char op consult atom_length atom_concat atom_chars "
    "atom_codes char_code sub_atom number_codes number_chars".split()
)

TOKEN = re.compile(
    r"""(?P<layout>[ \t\r\n]+|%[^\n]*|/\*.*?\*/)
    |(?P<name>[a-z][A-Za-z0-9_]*)
    |(?P<var>[A-Z_][A-Za-z0-9_]*)
    |(?P<int>[0-9]+)
    |(?P<quoted>'(?:[^'\\\n]|''|\\['\\nt])*')
    |(?P<unclosed>/\*)
    |(?P<symbol>[-+*/\\^<>=~:.?@\#&$]+)
    |(?P<solo>[!;,|()\[\]])
    |(?P<bad>.)""",
    re.VERBOSE | re.DOTALL,
)
ESCAPES = {"\\'": "'", "''": "'", "\\\\": "\\", "\\n": "\n", "\\t": "\t"}


@dataclass(frozen=True)
class Token:
    """A token: its kind (name, var, int, quoted, symbol, solo, end, bad), its text and its place."""

    kind: str
    text: str
    start: int
    stop: int


@dataclass
class Term:
    """A term: kind var, int, atom or node; `at` is the offset of its first byte or of its operator."""

    kind: str
    name: object
    at: int
    args: list = field(default_factory=list)

    @property
    def key(self):
        """Gives the predicate that a goal calls, as a pair of name and arity."""
        return self.name, len(self.args)


class Mistake(Exception):
    """What is wrong in a piece, and where."""

    def __init__(self, at, text, is_bad=False):
        super().__init__(text)
        self.at = at
        # whether a token is bad, and not the order of tokens
        self.is_bad = is_bad


class Source:
    """The text of a program in one or more files, one behind the other, and where each offset stands in them."""

    def __init__(self, files):
        self.text = "".join(text for _, text in files)
        self.lines = [0, *(it.end() for it in re.finditer("\n", self.text))]
        self.names, self.begins, begin = [], [], 0
        for name, text in files:
            self.names.append(name)
            self.begins.append(begin)
            begin += len(text)

    def row(self, at):
        """Gives the number of the offset's line in the whole text, from 1."""
        return bisect_right(self.lines, at)

    def place(self, at):
        """Gives the name of the offset's file, with its line and its column there, both from 1."""
        number = bisect_right(self.begins, at) - 1
        begin, row = self.begins[number], self.row(at)
        return self.names[number], row - self.row(begin) + 1, at - max(self.lines[row - 1], begin) + 1

    def line(self, at):
        """Gives the text of the offset's line, as far as it stands in the offset's file."""
        number = bisect_right(self.begins, at)
        begin, end = self.begins[number - 1], [*self.begins, len(self.text)][number]
        return self.text[max(self.lines[self.row(at) - 1], begin) : end].split("\n")[0].rstrip("\r")


def tokens(text):
    """Yields the tokens of a text; a full stop before layout, a comment or the end is an end token."""
    for found in TOKEN.finditer(text):
        kind, word, stop = found.lastgroup, found.group(), found.end()
        if kind == "layout":
            continue
        if kind == "unclosed" or kind == "int" and int(word) > MOST:
            kind = "bad"
        if word == "." and (stop == len(text) or text[stop] in " \t\r\n%"):
            kind = "end"
        yield Token(kind, word, found.start(), stop)


def pieces(text):
    """Yields the lists of tokens up to each end token; the last one may lack its end."""
    piece = []
    for token in tokens(text):
        piece.append(token)
        if token.kind == "end":
            yield piece
            piece = []
    if piece:
        yield piece


def unquoted(word):
    return re.sub(r"''|\\.", lambda it: ESCAPES.get(it.group(), it.group()), word[1:-1])


class Reader:
    """Reads one piece as a term, by the table of operators (ISO 13211-1, section 6.3)."""

    def __init__(self, piece):
        self.piece = piece
        self.at = 0
        last = piece[-1].stop if piece else 0
        self.beyond = Token("none", "", last, last)
        for token in piece:
            if token.kind == "bad":
                raise Mistake(token.start, self.why_bad(token), is_bad=True)
        if piece[-1].kind != "end":
            raise Mistake(max(last - 1, 0), "the clause has no full stop behind it")

    @staticmethod
    def why_bad(token):
        if token.text == "'":
            return "a quoted name is not closed on its line, or has an unknown escape"
        if token.text == "/*":
            return "a comment is not closed"
        if token.text.isdigit():
            return "integers have 64 bits"
        if token.text == '"':
            return "there are no strings: use a list, or a name in single quotes"
        return f"no token begins with {token.text}"

    def peek(self, ahead=0):
        at = self.at + ahead
        return self.piece[at] if at < len(self.piece) else self.beyond

    def take(self):
        token = self.peek()
        self.at += 1
        return token

    def fail(self, wanted):
        token = self.peek()
        found = "the end of the text" if token.kind == "none" else f"'{token.text}'"
        raise Mistake(token.start, f"expected {wanted}, found {found}")

    def expect(self, text, wanted):
        if self.peek().text != text or self.peek().kind not in ("solo", "symbol"):
            self.fail(wanted)
        return self.take()

    def clause(self):
        """Reads the whole piece as a term of priority at most 1200."""
        term = self.term(1200)
        if self.peek().kind != "end":
            self.fail("an operator or the full stop")
        return term

    def is_opening(self, token):
        """Tells whether a bracket follows the token directly: then it begins functional notation."""
        after = self.peek(1)
        return after.text == "(" and after.kind == "solo" and after.start == token.stop

    def is_operand(self, token):
        """Tells whether an operator stands as an atom: between brackets, commas and bars."""
        before = self.piece[self.at - 1].text if self.at else ""
        after = self.peek(1)
        return token.text in {*INFIX, *PREFIX} and before in ("(", "[", ",", "|") and after.kind == "solo" and after.text in (")", "]", ",", "|")

    def term(self, most):
        left, priority = self.primary(most)
        while True:
            token = self.peek()
            word = token.text if token.kind in ("name", "symbol", "solo") else None
            if word not in INFIX:
                return left
            own, before, behind = INFIX[word]
            if own > most or priority > before:
                return left
            self.take()
            left, priority = Term("node", word, token.start, [left, self.term(behind)]), own

    def primary(self, most):
        token = self.peek()
        if token.kind == "var":
            self.take()
            return Term("var", token.text, token.start), 0
        if token.kind == "int":
            self.take()
            return Term("int", int(token.text), token.start), 0
        if token.kind in ("name", "quoted", "symbol"):
            return self.named(token, most)
        if token.kind == "solo":
            return self.bracketed(token)
        return self.fail("a term")

    def bracketed(self, token):
        if self.is_operand(token) or token.text in (";", "!"):
            self.take()
            if self.peek().text == "(" and self.peek().start == token.stop:
                return self.compound(token.text, token.start), 0
            return Term("atom", token.text, token.start), 0
        if token.text == "(":
            self.take()
            term = self.term(1200)
            self.expect(")", "an operator or ')'")
            return term, 0
        if token.text == "[":
            return self.listed(), 0
        return self.fail("a term")

    def compound(self, name, start):
        self.take()
        args = [self.term(999)]
        while self.peek().text == "," and self.peek().kind == "solo":
            self.take()
            args.append(self.term(999))
        self.expect(")", "an operator, ',' or ')'")
        return Term("node", name, start, args)

    def listed(self):
        start = self.take().start
        if self.peek().text == "]":
            self.take()
            return Term("atom", "[]", start)
        items = [self.term(999)]
        while self.peek().text == "," and self.peek().kind == "solo":
            self.take()
            items.append(self.term(999))
        tail = Term("atom", "[]", start)
        if self.peek().text == "|":
            self.take()
            tail = self.term(999)
        self.expect("]", "an operator, ',', '|' or ']'")
        for item in reversed(items):
            tail = Term("node", ".", start, [item, tail])
        return tail

    def named(self, token, most):
        name = unquoted(token.text) if token.kind == "quoted" else token.text
        if self.is_opening(token):
            self.take()
            return self.compound(name, token.start), 0
        if token.kind != "quoted" and not self.is_operand(token):
            after = self.peek(1)
            if token.text == "-" and after.kind == "int" and after.start == token.stop:
                self.take()
                return Term("int", -int(self.take().text), token.start), 0
            if token.text in PREFIX and PREFIX[token.text][0] <= most:
                self.take()
                own, behind = PREFIX[token.text]
                return Term("node", token.text, token.start, [self.term(behind)]), own
            if token.text in INFIX or token.text in PREFIX:
                self.fail("a term")
        self.take()
        return Term("atom", name, token.start), 0


def read_clause(piece):
    """Reads a piece as a term; a Mistake says where it is none."""
    try:
        return Reader(piece).clause()
    except RecursionError:
        raise Mistake(piece[0].start, "it is nested too deep") from None


def split_clause(term):
    """Gives a clause's head, and its body or None."""
    if term.kind == "node" and term.key == (":-", 2):
        return term.args[0], term.args[1]
    return term, None


def flat(term, name):
    """Gives the operands of a chain of one operator, from left to right."""
    found = []
    while term.kind == "node" and term.key == (name, 2):
        found.append(term.args[0])
        term = term.args[1]
    return [*found, term]


def goals_of(body):
    """Yields the goals of a body, in order; the left sides of `=>` are checks, not goals."""
    stack = [body]
    while stack:
        part = stack.pop()
        if part.kind == "node" and part.name in (",", ";", "&") and len(part.args) == 2:
            stack += reversed(part.args)
        elif part.kind == "node" and part.key == ("=>", 2):
            stack.append(part.args[1])
        else:
            yield part


def variables_of(term):
    """Yields each occurrence of a variable, in order."""
    stack = [term]
    while stack:
        part = stack.pop()
        if part.kind == "var":
            yield part
        stack += reversed(part.args)


def program_path():
    """Gives the program to run: $ANDPROLOG, or `andprolog` beside these tools or above them, or on the path."""
    here = os.path.dirname(os.path.abspath(__file__))
    near = (os.path.join(it, "andprolog") for it in (here, os.path.dirname(here)))
    beside = next((it for it in near if os.path.isfile(it) and os.access(it, os.X_OK)), None)
    found = os.environ.get("ANDPROLOG") or beside or shutil.which("andprolog")
    if not found:
        sys.exit("andprolog: not found: set ANDPROLOG to the program")
    return found


def run_tool(main):
    """Ends the process with the status of `main`, and quietly where it is interrupted or nobody reads what it writes."""
    try:
        status = main()
        sys.stdout.flush()
    except KeyboardInterrupt:
        status = 130
    except BrokenPipeError:
        os.dup2(os.open(os.devnull, os.O_WRONLY), 1)
        status = 141
    sys.exit(status)
