#!/usr/bin/env python3
"""Makes of a module that the Rattle kit lowered for a machine of 64 bits one for a machine of 32 bits:

    narrow.py MODULE.ll TRIPLE DATALAYOUT >OUT.ll

MODULE.ll is what the kit hands to its clang, as text and not optimised. A number of Rattle's type usize stays one of 64 bits, so what
was proved of it holds as it was proved. Only what a pointer takes in a register changes:

 - A pointer that lies in memory keeps its eight bytes, the upper four zero, so each size and each offset stays. It is stored as a
   number of 64 bits and loaded as one. An address of the machine has 32 bits, so nothing of it is lost on the way.
 - An offset is cut to 32 bits by the machine. It lies inside a block, and no block is larger than that (c/narrow.c).
 - A function of C that answers a pair writes it out through a first parameter, and has `_narrow` behind its name: how a pair comes
   back in registers is each machine's own matter.
 - What LLVM moves and fills has a length of 32 bits, which is that of a block; and where it lies at a multiple of some bytes, as far as
   the module tells (aligned.py), that is said: else a machine that can't read across words would take it byte by byte.
 - What says how x86-64 guards its stack, and which processor is meant, is left out.

It is right of a module before LLVM's optimiser alone: that may move any eight bytes through a pointer's register, where four are lost.
All else passes as it is, or is refused with its line."""

import sys
from functools import partial
from math import gcd

from aligned import Aligned
from llvm import BINARY, CASTS, Function, Global, Layout, Module, Refused, Type, refuse, words_of

WIDE = Layout(8)
LONG = Type("int", bits=64)
PAIR = "{ i64, i64 }"
# The functions of C that the proved calls take memory by.
OUTSIDE = {"@rattle_alloc": PAIR, "@rattle_realloc": PAIR, "@rattle_dealloc": "void"}
# What LLVM gives, and whether its length has to be cut: it is the last parameter but one.
INTRINSICS = {"@llvm.memset.p0.i64": True, "@llvm.memmove.p0.p0.i64": True, "@llvm.memcpy.p0.p0.i64": True, "@llvm.trap": False}
# Instructions that speak of registers alone, or of bytes that hold no pointer.
PLAIN = BINARY | CASTS - {"ptrtoaddr"} | set("getelementptr icmp select phi br switch ret unreachable extractvalue insertvalue".split())


class Body:
    """Writes the instructions of a function anew. `places` are what it needs on the stack besides, which is made at its beginning; `known`
    tells how a place lies."""

    def __init__(self, aligned):
        self.lines, self.places, self.made = [], [], 0
        self.aligned, self.known = aligned, None

    def text(self, function):
        """The whole of it."""
        for number, (label, instructions) in enumerate(function.blocks):
            self.known = partial(self.aligned.of, function)
            if label != "%":
                self.lines.append(f"{label[1:]}:")
            if number == 0:
                beginning = len(self.lines)
            for instruction in instructions:
                self.instruction(instruction)
        return [*self.lines[:beginning], *self.places, *self.lines[beginning:], "}"]

    def put(self, text):
        """Writes an instruction."""
        self.lines.append(f"  {text}")

    def fresh(self, text):
        """Writes an instruction whose result has a new name, and tells that."""
        self.made += 1
        self.put(f"%narrow.{self.made} = {text}")
        return f"%narrow.{self.made}"

    def instruction(self, it):
        """Writes an instruction anew."""
        special = getattr(self, f"write_{it.op}", None)
        if special:
            special(it)
        elif it.op in PLAIN:
            self.put(it.line.text.strip())
        else:
            refuse(it.line, f"how '{it.op}' is to be narrowed isn't known")

    def write_alloca(self, it):
        """A place for a pointer has eight bytes."""
        if it.type.kind == "ptr":
            self.put(f"{it.dest} = alloca i64, align {it.alignment}")
        elif it.type.has_pointer():
            refuse(it.line, f"a place for {it.type} isn't known")
        else:
            self.put(it.line.text.strip())

    def write_ptrtoaddr(self, it):
        """Its result has to be as wide as an address, and ptrtoint's hasn't."""
        self.put(it.line.text.strip().replace(" ptrtoaddr ", " ptrtoint "))

    def write_load(self, it):
        """A pointer is loaded as a number, and a pair part by part."""
        (_, at), name = it.values[0], it.dest
        if not it.type.has_pointer():
            self.put(self.as_known(it, at))
        elif it.type.kind == "ptr":
            number = self.fresh(f"load i64, ptr {at.text}, align {it.alignment}")
            self.put(f"{name} = inttoptr i64 {number} to ptr")
        else:
            self.gather(it, name, it.type, at.text, it.alignment)

    def as_known(self, it, at):
        """A load or a store as it is written, at a place of which more may be known."""
        known = max(it.alignment, gcd(self.known(at), WIDE.alignment(it.type)))
        return it.line.text.strip().replace(f", align {it.alignment}", f", align {known}")

    def gather(self, it, name, kind, at, alignment):
        """Loads a struct's parts, and puts them together under a name."""
        whole = "poison"
        for k, (part, offset) in enumerate(self.parts(it, kind)):
            place = self.fresh(f"getelementptr i8, ptr {at}, i64 {offset}")
            held = LONG if part.kind == "ptr" else part
            value = self.fresh(f"load {held}, ptr {place}, align {gcd(alignment, offset)}")
            if part.kind == "ptr":
                value = self.fresh(f"inttoptr i64 {value} to ptr")
            text = f"insertvalue {kind} {whole}, {part} {value}, {k}"
            if k == len(kind.parts) - 1:
                self.put(f"{name} = {text}")
            else:
                whole = self.fresh(text)

    def parts(self, it, kind):
        """The parts of a struct with where they lie on the machine of 64 bits: numbers of whole bytes, and pointers."""
        if kind.kind != "struct" or any(part.kind != "ptr" and (part.kind != "int" or part.bits % 8) for part in kind.parts):
            refuse(it.line, f"how {kind} is moved isn't known")
        return zip(kind.parts, WIDE.offsets(kind))

    def write_store(self, it):
        """A pointer is stored as a number, and a pair part by part."""
        (kind, value), (_, at) = it.values
        if not kind.has_pointer():
            self.put(self.as_known(it, at))
        elif kind.kind == "ptr":
            self.put(f"store i64 {self.number_of(value)}, ptr {at.text}, align {it.alignment}")
        else:
            for k, (part, offset) in enumerate(self.parts(it, kind)):
                place = self.fresh(f"getelementptr i8, ptr {at.text}, i64 {offset}")
                taken = self.fresh(f"extractvalue {kind} {value.text}, {k}")
                if part.kind == "ptr":
                    taken = self.fresh(f"ptrtoint ptr {taken} to i64")
                held = LONG if part.kind == "ptr" else part
                self.put(f"store {held} {taken}, ptr {place}, align {gcd(it.alignment, offset)}")

    def number_of(self, value):
        """A pointer as a number of 64 bits."""
        if value.kind == "local":
            return self.fresh(f"ptrtoint ptr {value.text} to i64")
        return "0" if value.kind in ("null", "undef", "zero") else f"ptrtoint (ptr {value.text} to i64)"

    def write_call(self, it):
        """A call of C with a pair in its answer goes through a place of its own, and a length is cut."""
        *values, (_, callee) = it.values
        if callee.kind != "global":
            refuse(it.line, "a call through a pointer isn't known")
        if INTRINSICS.get(callee.text):
            self.cut_length(values, callee.text)
        elif OUTSIDE.get(callee.text) == PAIR:
            self.call_outside(it, values, callee.text)
        else:
            self.put(it.line.text.strip())

    def cut_length(self, values, name):
        """Its third operand is the length; of its places it is said how they lie."""
        (_, where), (second, what), (_, length), (_, is_volatile) = values
        cut = length.text if length.kind == "number" else self.fresh(f"trunc i64 {length.text} to i32")
        shorter = name.removesuffix("i64") + "i32"
        source = f"ptr align {self.known(what)}" if second.kind == "ptr" else str(second)
        self.put(f"call void {shorter}(ptr align {self.known(where)} {where.text}, {source} {what.text}, i32 {cut}, i1 {is_volatile.text})")

    def call_outside(self, it, values, name):
        """The pair that comes lies as on the machine of 64 bits."""
        self.made += 1
        place = f"%narrow.{self.made}"
        self.places.append(f"  {place} = alloca [{WIDE.size(it.type)} x i8], align 8")
        words = ", ".join([f"ptr {place}", *(f"{kind} {value.text}" for kind, value in values)])
        self.put(f"call void {name}_narrow({words})")
        self.gather(it, it.dest, it.type, place, 8)


def head_of(function):
    """A function's first line anew."""
    line = function.line
    if function.name.startswith("@llvm."):
        if function.name not in INTRINSICS:
            refuse(line, f"how {function.name} is to be narrowed isn't known")
        return line.text.replace(".i64(", ".i32(").replace(" i64,", " i32,") if INTRINSICS[function.name] else line.text
    if function.blocks is None:
        if OUTSIDE.get(function.name) != str(function.result):
            refuse(line, f"the function {function.name} isn't one that c/narrow.c gives")
        if str(function.result) == PAIR:
            kinds = ", ".join(["ptr", *(str(kind) for kind, _ in function.parameters)])
            return f"declare void {function.name}_narrow({kinds})"
    elif function.is_public and function.result.kind not in ("int", "void"):
        refuse(line, f"how a call that answers {function.result} is handed out isn't known")
    return line.text


def constant_of(it):
    """A constant anew: behind each pointer in it stand four zeros."""
    if not it.type.has_pointer():
        return it.line.text
    if it.type.kind != "struct" or it.value.kind != "parts":
        refuse(it.line, f"a constant of {it.type} isn't known")
    kinds, values = [], []
    for (part, value), offset in zip(it.value.parts, WIDE.offsets(it.type)):
        kinds.append(str(part))
        values.append(f"{part} {value.text}")
        if part.kind == "ptr":
            if offset % 8 or value.kind not in ("null", "global", "getelementptr"):
                refuse(it.line, "a pointer in a constant isn't known there")
            kinds.append("i32")
            values.append("i32 0")
        elif part.has_pointer():
            refuse(it.line, f"a constant of {part} in {it.type} isn't known")
    opened, closed = ("<{", "}>") if it.type.is_packed else ("{", "}")
    words = f"{opened} {', '.join(kinds)} {closed} {opened} {', '.join(values)} {closed}"
    return f"{it.name} = private unnamed_addr constant {words}, align {it.alignment}"


def line_of(line, triple, layout):
    """All that is neither a function nor a constant."""
    if line.text.startswith("target datalayout"):
        return f'target datalayout = "{layout}"'
    if line.text.startswith("target triple"):
        return f'target triple = "{triple}"'
    if line.text.startswith("attributes"):
        kept = [it for it in line.tokens[4:-1] if it[0] != '"' and it not in ("=", "uwtable")]
        return f"attributes {line.tokens[1]} = {{ {' '.join(kept)} }}"
    return line.text


def narrow(text, triple, layout):
    """The module anew."""
    if not layout.startswith("e-"):
        raise Refused("only little-endian machines are known: the kit stores a tag as four bytes, and reads one")
    module, out = Module(text), []
    aligned = Aligned(module)
    for it in module.items:
        if isinstance(it, Global):
            out.append(constant_of(it))
        elif isinstance(it, Function):
            out.append(head_of(it))
            out += Body(aligned).text(it) if it.blocks else []
        else:
            out.append(line_of(it, triple, layout))
    return "\n".join(out) + "\n"


def main():
    """Narrows the module that it is told."""
    module, triple, layout = words_of(__doc__, "MODULE.ll", "TRIPLE", "DATALAYOUT")
    try:
        with open(module, encoding="utf-8") as file:
            text = narrow(file.read(), triple, layout)
    except (OSError, Refused) as error:
        sys.exit(f"narrow.py: {module}: {error}")
    sys.stdout.write(text)


if __name__ == "__main__":
    main()
