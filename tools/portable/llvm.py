"""Reads a module of LLVM as text, as far as the Rattle kit and its clang write it. What it doesn't know it refuses with its line: an
instruction, a type, an attribute or a word that passed unread would compile and fail where it runs."""

import argparse
import re
from dataclasses import dataclass, field


class Refused(Exception):
    """A line that isn't known: the exception's text has its number, why, and the line."""


def words_of(usage, *names):
    """The words of a command, which has as many as these names."""
    parser = argparse.ArgumentParser(description=usage, formatter_class=argparse.RawDescriptionHelpFormatter)
    for name in names:
        parser.add_argument(name)
    return vars(parser.parse_args()).values()


def refuse(line, why):
    """Refuses a line."""
    raise Refused(f"line {line.number}: {why}: {line.text.strip()[:200]}")


@dataclass(frozen=True)
class Type:
    """A type: `int` of so many bits, `ptr`, `void`, `array` of `count` parts, or `struct`."""

    kind: str
    bits: int = 0
    count: int = 0
    parts: tuple = ()
    is_packed: bool = False

    def has_pointer(self):
        """Whether a pointer is or stands in it."""
        return self.kind == "ptr" or any(part.has_pointer() for part in self.parts)

    def __str__(self):
        if self.kind == "int":
            return f"i{self.bits}"
        if self.kind == "array":
            return f"[{self.count} x {self.parts[0]}]"
        if self.kind == "struct":
            body = f"{{ {', '.join(map(str, self.parts))} }}"
            return f"<{body}>" if self.is_packed else body
        return self.kind


class Layout:
    """Sizes, alignments and offsets, where a pointer that lies in memory takes so many bytes."""

    def __init__(self, pointer):
        self.pointer = pointer

    def size(self, kind):
        """How many bytes a value of this type takes in memory."""
        if kind.kind == "int":
            return rounded((kind.bits + 7) // 8, self.alignment(kind))
        if kind.kind == "ptr":
            return self.pointer
        if kind.kind == "array":
            return kind.count * self.size(kind.parts[0])
        return self.offsets(kind)[-1]

    def alignment(self, kind):
        """At a multiple of how many bytes it lies."""
        if kind.kind == "int":
            return min(it for it in (1, 2, 4, 8, 16) if it * 8 >= min(kind.bits, 128))
        if kind.kind == "ptr":
            return self.pointer
        return 1 if kind.is_packed else max([1, *map(self.alignment, kind.parts)])

    def offsets(self, kind):
        """Where each part of a struct begins; the last is its size."""
        out, at = [], 0
        for part in kind.parts:
            at = rounded(at, 1 if kind.is_packed else self.alignment(part))
            out.append(at)
            at += self.size(part)
        return [*out, rounded(at, self.alignment(kind))]


def rounded(number, step):
    """The number, or the next multiple of the step."""
    return (number + step - 1) // step * step


@dataclass
class Value:
    """An operand. `kind` is `local`, `global`, `number`, `null`, `undef`, `zero`, `bytes`, `parts`, or the instruction that a
    constant expression names; `text` is how it is written; `parts` are the values in it, each with its type. `number` is also how many
    bytes a step of an address has."""

    kind: str
    text: str
    number: int = 0
    parts: list = field(default_factory=list)
    to: Type = None


@dataclass
class Line:
    """A line of the module, and its tokens."""

    number: int
    text: str
    tokens: list = field(default_factory=list)


@dataclass
class Instruction:
    """An instruction: what it is, the name it gives its result, the type that it makes or moves, its operands with their types,
    and what else stands in it."""

    line: Line
    op: str
    dest: str = None
    type: Type = None
    values: list = field(default_factory=list)
    labels: list = field(default_factory=list)
    numbers: list = field(default_factory=list)
    alignment: int = 0
    word: str = ""
    to: Type = None


@dataclass
class Function:
    """A function: its line, whether it is defined for others, its name, its result, its parameters with their names, and its blocks,
    each a label and its instructions. One that is only declared has none."""

    line: Line
    is_public: bool
    name: str
    result: Type
    parameters: list
    blocks: list = None


@dataclass
class Global:
    """A constant: its name, its type and value, and its alignment."""

    line: Line
    name: str
    type: Type
    value: Value
    alignment: int


TOKEN = re.compile(
    r"""\s*(?:;.*|(c?"(?:[^"\\]|\\.)*"|[%@](?:"[^"]*"|[\w.$-]+)|!"[^"]*"|![\w.]*|\#\d+|-?\d+|[A-Za-z_][\w.]*|[<>{}\[\]()=,*:|]))"""
)
# What the optimiser notes, and the code would mean the same without. zeroext says how a number of few bits is handed over: in LLVM
# as it stands there, and in C as any number is.
HINTS = set(
    """zeroext noundef nonnull noalias nocapture readonly writeonly readnone returned immarg nofree nosync norecurse nounwind willreturn
    writable dead_on_unwind nuw nsw nusw exact disjoint nneg samesign inbounds tail notail fastcc dso_local unnamed_addr
    local_unnamed_addr""".split()
)
HINTS_WITH_PARENTHESES = {"range", "captures", "memory", "initializes", "dereferenceable", "dereferenceable_or_null", "align"}
NOTES = {"!range", "!noundef", "!nonnull", "!align", "!dereferenceable", "!noalias", "!alias.scope", "!llvm.loop", "!prof", "!annotation"}
GROUP_WORDS = set(
    """nounwind nobuiltin nocallback nofree nosync norecurse willreturn mustprogress speculatable cold noreturn noinline alwaysinline
    inlinehint optsize minsize memory nocreateundeforpoison uwtable""".split()
)
GROUP_STRINGS = set(
    "probe-stack stack-probe-size target-cpu target-features tune-cpu frame-pointer no-trapping-math stack-protector-buffer-size".split()
)
BINARY = set("add sub mul and or xor shl lshr ashr udiv urem sdiv srem".split())
CASTS = set("zext sext trunc ptrtoint ptrtoaddr inttoptr".split())
PREDICATES = set("eq ne ugt uge ult ule sgt sge slt sle".split())


def tokens_of(line):
    """Fills in a line's tokens, without what is said behind a semicolon."""
    at, text = 0, line.text.rstrip()
    while at < len(text):
        found = TOKEN.match(text, at)
        if not found:
            refuse(line, f"no word is known at '{text[at : at + 20]}'")
        if found.group(1):
            line.tokens.append(found.group(1))
        at = found.end()


class Reader:
    """Reads the tokens of a line from left to right."""

    def __init__(self, line):
        if not line.tokens:
            tokens_of(line)
        self.line, self.tokens, self.at = line, line.tokens, 0

    def peek(self, ahead=0):
        """The next token, or an empty one."""
        return self.tokens[self.at + ahead] if self.at + ahead < len(self.tokens) else ""

    def next(self):
        """Takes the next token."""
        self.at += 1
        return self.peek(-1) or refuse(self.line, "it ends too soon")

    def take(self, word):
        """Takes this token, if it comes next."""
        if self.peek() != word:
            return False
        self.at += 1
        return True

    def want(self, word):
        """Takes this token, which has to come."""
        if not self.take(word):
            refuse(self.line, f"'{word}' is wanted in the place of '{self.peek()}'")

    def number(self):
        """Takes a number."""
        word = self.next()
        return int(word) if re.fullmatch(r"-?\d+", word) else refuse(self.line, f"a number is wanted in the place of '{word}'")

    def name(self, sign):
        """Takes the name of something local (%) or global (@)."""
        word = self.next()
        return word if word[0] == sign else refuse(self.line, f"a name with {sign} is wanted in the place of '{word}'")

    def label(self):
        """Takes a block's name."""
        self.want("label")
        return self.name("%")

    def end(self):
        """Nothing but notes may stand behind."""
        while self.take(","):
            note, which = self.next(), self.next()
            if note not in NOTES or which[0] != "!":
                refuse(self.line, f"the note '{note}' isn't known")
        if self.peek():
            refuse(self.line, f"'{self.peek()}' isn't known there")

    def hints(self):
        """Passes over hints, and tells them."""
        seen = []
        while self.peek() in HINTS or self.peek() in HINTS_WITH_PARENTHESES:
            word = self.next()
            seen.append(word)
            if word in HINTS_WITH_PARENTHESES:
                self.skip_parentheses(word)
        return seen

    def skip_parentheses(self, word):
        """Passes over what stands in parentheses; an alignment may stand without."""
        if word == "align" and self.peek() != "(":
            self.number()
            return
        self.want("(")
        depth = 1
        while depth:
            depth += {"(": 1, ")": -1}.get(self.next(), 0)

    def type(self):
        """Takes a type."""
        word = self.next()
        if re.fullmatch(r"i\d+", word):
            return Type("int", bits=int(word[1:]))
        if word in ("ptr", "void"):
            return Type(word)
        if word == "[":
            count = self.number()
            self.want("x")
            part = self.type()
            self.want("]")
            return Type("array", count=count, parts=(part,))
        is_packed = word == "<" and self.take("{")
        if is_packed or word == "{":
            parts = []
            while not self.take("}"):
                parts.append(self.type())
                self.take(",")
            if is_packed:
                self.want(">")
            return Type("struct", parts=tuple(parts), is_packed=is_packed)
        return refuse(self.line, f"the type '{word}' isn't known")

    def typed(self):
        """Takes a type and a value of it."""
        kind = self.type()
        self.hints()
        return kind, self.value(kind)

    def value(self, kind):
        """Takes a value of this type."""
        began, word = self.at, self.next()
        if word[0] in "%@":
            return Value("local" if word[0] == "%" else "global", word)
        if word in ("true", "false"):
            return Value("number", word, number=int(word == "true"))
        if re.fullmatch(r"-?\d+", word) and kind.kind == "int":
            return Value("number", word, number=int(word))
        plain = {"null": "null", "undef": "undef", "poison": "undef", "zeroinitializer": "zero"}.get(word)
        if plain:
            return Value(plain, word)
        if word.startswith('c"'):
            return Value("bytes", word)
        if word in ("[", "{", "<") and kind.parts:
            return self.parts_of(word, began)
        if word == "getelementptr" or word in CASTS:
            return self.expression(word, began)
        return refuse(self.line, f"the value '{word}' of {kind} isn't known")

    def parts_of(self, word, began):
        """Takes the rest of an aggregate value."""
        if word == "<":
            self.want("{")
        parts, close = [], "]" if word == "[" else "}"
        while not self.take(close):
            parts.append(self.typed())
            self.take(",")
        if word == "<":
            self.want(">")
        return Value("parts", self.written(began), parts=parts)

    def expression(self, word, began):
        """Takes the rest of a constant expression."""
        self.hints()
        self.want("(")
        step = 0
        if word == "getelementptr":
            step = self.step()
            self.want(",")
            parts, to = [self.typed()], None
            self.want(",")
            parts.append(self.typed())
        else:
            parts = [self.typed()]
            self.want("to")
            to = self.type()
        self.want(")")
        return Value(word, self.written(began), number=step, parts=parts, to=to)

    def step(self):
        """In steps of how many bytes an address is counted."""
        kind = self.type()
        return kind.bits // 8 if kind.kind == "int" and kind.bits in (8, 16, 32, 64) else refuse(self.line, f"steps of {kind} aren't known")

    def written(self, began):
        """The tokens since then as they may be written."""
        return " ".join(self.tokens[began : self.at])

    def alignment(self):
        """Takes the alignment of what is loaded, stored or made."""
        self.want(",")
        self.want("align")
        return self.number()


def read_instruction(line):
    """Reads an instruction."""
    r = Reader(line)
    dest = None
    if r.peek(1) == "=":
        dest = r.name("%")
        r.next()
    r.hints()
    op = r.next()
    out = Instruction(line, op, dest)
    # What it flags holds anyway, or nothing is said of its result.
    out.word = " ".join(r.hints())
    reads = READERS.get(op)
    if not reads:
        refuse(line, f"the instruction '{op}' isn't known")
    reads(r, out)
    r.end()
    return out


def read_alloca(r, out):
    """`alloca TYPE, align N`"""
    out.type = r.type()
    out.alignment = r.alignment()


def read_load(r, out):
    """`load TYPE, ptr FROM, align N`"""
    out.type = r.type()
    r.want(",")
    out.values = [r.typed()]
    out.alignment = r.alignment()


def read_store(r, out):
    """`store TYPE VALUE, ptr TO, align N`"""
    out.values = [r.typed()]
    out.type = out.values[0][0]
    r.want(",")
    out.values.append(r.typed())
    out.alignment = r.alignment()


def read_address(r, out):
    """`getelementptr i8, ptr FROM, i64 STEPS`; its number is how many bytes a step has."""
    out.numbers = [r.step()]
    r.want(",")
    out.values = [r.typed()]
    r.want(",")
    out.values.append(r.typed())
    out.type = Type("ptr")


def read_binary(r, out):
    """`add TYPE LEFT, RIGHT`"""
    out.type = r.type()
    left = r.value(out.type)
    r.want(",")
    out.values = [(out.type, left), (out.type, r.value(out.type))]


def read_compare(r, out):
    """`icmp ult TYPE LEFT, RIGHT`"""
    predicate = r.next()
    if predicate not in PREDICATES:
        refuse(r.line, f"the comparison '{predicate}' isn't known")
    read_binary(r, out)
    out.word, out.type = predicate, Type("int", bits=1)


def read_cast(r, out):
    """`zext TYPE VALUE to TYPE`"""
    out.values = [r.typed()]
    r.want("to")
    out.type = r.type()


def read_select(r, out):
    """`select i1 WHICH, TYPE YES, TYPE NO`"""
    out.values = [r.typed()]
    for _ in range(2):
        r.want(",")
        out.values.append(r.typed())
    out.type = out.values[1][0]


def read_freeze(r, out):
    """`freeze TYPE VALUE`"""
    out.values = [r.typed()]
    out.type = out.values[0][0]


def read_extract(r, out):
    """`extractvalue TYPE FROM, INDEX`"""
    out.values = [r.typed()]
    r.want(",")
    out.numbers = [r.number()]
    out.type = out.values[0][0].parts[out.numbers[0]]


def read_insert(r, out):
    """`insertvalue TYPE INTO, TYPE VALUE, INDEX`"""
    out.values = [r.typed()]
    r.want(",")
    out.values.append(r.typed())
    r.want(",")
    out.numbers = [r.number()]
    out.type = out.values[0][0]


def read_phi(r, out):
    """`phi TYPE [ VALUE, %BLOCK ], ..`"""
    out.type = r.type()
    while not out.labels or r.take(","):
        r.want("[")
        out.values.append((out.type, r.value(out.type)))
        r.want(",")
        out.labels.append(r.name("%"))
        r.want("]")


def read_branch(r, out):
    """`br label %TO`, or `br i1 WHICH, label %YES, label %NO`"""
    if r.peek() == "label":
        out.labels = [r.label()]
        return
    out.values = [r.typed()]
    for _ in range(2):
        r.want(",")
        out.labels.append(r.label())


def read_switch(r, out):
    """`switch TYPE VALUE, label %ELSE [ TYPE NUMBER, label %TO .. ]`; the last label is that of all else."""
    out.values = [r.typed()]
    r.want(",")
    otherwise = r.label()
    r.want("[")
    while not r.take("]"):
        out.numbers.append(r.typed()[1].number)
        r.want(",")
        out.labels.append(r.label())
    out.labels.append(otherwise)


def read_return(r, out):
    """`ret void`, or `ret TYPE VALUE`"""
    if not r.take("void"):
        out.values = [r.typed()]


def read_unreachable(_, __):
    """`unreachable`"""


def read_call(r, out):
    """`call TYPE @NAME(TYPE VALUE, ..)`; the function is the last value."""
    r.hints()
    out.type = r.type()
    callee = r.value(Type("ptr"))
    r.want("(")
    while not r.take(")"):
        out.values.append(r.typed())
        r.take(",")
    while re.fullmatch(r"#\d+", r.peek()):
        r.next()
    out.values.append((Type("ptr"), callee))


READERS = {
    "alloca": read_alloca,
    "load": read_load,
    "store": read_store,
    "getelementptr": read_address,
    "icmp": read_compare,
    "select": read_select,
    "freeze": read_freeze,
    "extractvalue": read_extract,
    "insertvalue": read_insert,
    "phi": read_phi,
    "br": read_branch,
    "switch": read_switch,
    "ret": read_return,
    "unreachable": read_unreachable,
    "call": read_call,
    **{op: read_binary for op in BINARY},
    **{op: read_cast for op in CASTS},
}


def read_function(line):
    """Reads the head of a function."""
    r = Reader(line)
    is_defined = r.next() == "define"
    is_public = not (r.take("internal") or r.take("private"))
    r.hints()
    result = r.type()
    name = r.name("@")
    r.want("(")
    parameters = []
    while not r.take(")"):
        kind = r.type()
        r.hints()
        parameters.append((kind, r.name("%") if is_defined else f"%{len(parameters)}"))
        r.take(",")
    while r.peek() in HINTS or re.fullmatch(r"#\d+", r.peek()):
        r.next()
    if is_defined:
        r.want("{")
    r.end()
    return Function(line, is_public, name, result, parameters, [] if is_defined else None)


def read_global(line):
    """Reads a constant. What can be written to isn't known."""
    r = Reader(line)
    name = r.name("@")
    r.want("=")
    if not (r.take("internal") or r.take("private")):
        refuse(line, "a constant for others isn't known")
    r.hints()
    r.want("constant")
    kind = r.type()
    value = r.value(kind)
    alignment = r.alignment()
    r.end()
    return Global(line, name, kind, value, alignment)


def check_group(line):
    """Reads a group of attributes."""
    r = Reader(line)
    r.want("attributes")
    r.next()
    r.want("=")
    r.want("{")
    while not r.take("}"):
        word = r.next()
        if word[0] == '"' and word.strip('"') in GROUP_STRINGS:
            if r.take("="):
                r.next()
        elif word in GROUP_WORDS:
            if r.peek() == "(":
                r.skip_parentheses(word)
        else:
            refuse(line, f"the attribute {word} isn't known")
    r.end()


class Module:
    """A module that is known whole. `items` has its parts in their order: Global, Function, and Line for all else."""

    def __init__(self, text):
        self.items = []
        lines = iter([Line(number, it) for number, it in enumerate(text.split("\n"), 1)])
        for line in lines:
            word = line.text.split(" ")[0]
            if word in ("define", "declare"):
                function = read_function(line)
                self.items.append(function)
                if word == "define":
                    read_body(function, lines)
            elif word[:1] == "@":
                self.items.append(read_global(line))
            elif word == "attributes":
                check_group(line)
                self.items.append(line)
            elif word in ("", ";", "source_filename", "target") or word[0] == "!":
                self.items.append(line)
            else:
                refuse(line, "a line that isn't known")

    def functions(self):
        """Its functions."""
        return [it for it in self.items if isinstance(it, Function)]

    def globals(self):
        """Its constants."""
        return [it for it in self.items if isinstance(it, Global)]


def read_body(function, lines):
    """Reads a function's blocks, up to the line that ends it."""
    for line in lines:
        text = line.text.strip()
        label = re.match(r'("[^"]*"|[\w.$-]+):', line.text)
        if text == "}":
            return
        if label:
            function.blocks.append((f"%{label.group(1)}", []))
        elif text and text[0] != ";":
            if not function.blocks:
                function.blocks.append(("%", []))
            function.blocks[-1][1].append(read_instruction(whole_switch(line, lines)))
    refuse(function.line, "its end is missing")


def whole_switch(line, lines):
    """The line, with those that a switch goes on in."""
    if re.match(r"\s+switch .*\[$", line.text):
        for more in lines:
            line.text += " " + more.text.strip()
            if more.text.strip() == "]":
                break
    return line
