#!/usr/bin/env python3
"""Writes the library as one file of C11 for machines of 32 bits:

    write_c.py MODULE.ll C_FOLDER >j1939_32.c

MODULE.ll is what narrow.py made and the kit's clang optimised, as text. C_FOLDER has the C that stands around the proved calls:
j1939.c, which tests for NULL, memory.h, narrow.c and heap.c; the file has them whole.

 - Each register is a variable, each block a label; a number of N bits is unsigned, in the next larger type of C, its upper bits zero.
 - Memory is read and written by memcpy, so a type that C expects there doesn't matter, nor how an address is aligned.
 - An address that LLVM doesn't call inbounds is counted as a number, and a shift's distance is cut to the width: what C leaves
   undefined there LLVM only gives no value.
 - Each function that the module exports is held to its declaration in j1939.c.

What isn't known is refused with its line."""

import re
import sys

from llvm import Layout, Module, Refused, Type, refuse, words_of

NARROW = Layout(4)
POINTER = "uint8_t *"
# What comes from outside: memory (narrow.c), and what the optimiser makes of a loop that compares.
OUTSIDE = {"@rattle_alloc_narrow", "@rattle_realloc_narrow", "@rattle_dealloc"}
COMPARES = {"@memcmp", "@bcmp"}
# Nothing is done for these: they tell the optimiser what holds.
TOLD = ("@llvm.lifetime.", "@llvm.assume", "@llvm.experimental.noalias.scope.decl")
MOVES = re.compile(r"@llvm\.(memset|memmove|memcpy)\.(p0\.)+i(32|64)")
OPERATORS = {"add": "+", "sub": "-", "mul": "*", "and": "&", "or": "|", "xor": "^", "shl": "<<", "lshr": ">>", "udiv": "/", "urem": "%"}
SIGNED = {"ashr": ">>", "sdiv": "/", "srem": "%"}
COMPARED = {"eq": "==", "ne": "!=", "gt": ">", "ge": ">=", "lt": "<", "le": "<="}
# An instruction without effect whose result is used once in its block stands where it is used.
PURE = set("getelementptr icmp select freeze extractvalue".split()) | set("zext sext trunc ptrtoint ptrtoaddr inttoptr".split())
PURE |= OPERATORS.keys() | SIGNED.keys()
LONGEST = 160

HEAD = """
/* ---- what was proved
 *
 * Written by tools/portable/write_c.py of what the Rattle kit lowers the proved crate j39_c to. */
#if UINTPTR_MAX != 0xFFFFFFFFu
#error "j1939_32.c is for machines whose pointers have 32 bits"
#endif
#if defined(__BYTE_ORDER__) && __BYTE_ORDER__ != __ORDER_LITTLE_ENDIAN__
#error "j1939_32.c is for little-endian machines"
#endif
#if defined(__GNUC__)
#define NEVER() __builtin_unreachable()
#else
#define NEVER() for (;;) {}
#endif
/* On i386 a number of 64 bits that a caller hands in may lie at a multiple of four. */
#if defined(__GNUC__) && !defined(__i386__)
#define AT(n, p) __builtin_assume_aligned(p, n)
#else
#define AT(n, p) (p)
#endif
void *memcpy(void *to, const void *from, size_t n);
void *memmove(void *to, const void *from, size_t n);
void *memset(void *to, int c, size_t n);
int memcmp(const void *one, const void *other, size_t n);
#define HOLDS(w) \\
    static inline uint##w##_t load_##w(const void *p) { uint##w##_t v; memcpy(&v, p, sizeof v); return v; } \\
    static inline void store_##w(void *p, uint##w##_t v) { memcpy(p, &v, sizeof v); }
HOLDS(8)
HOLDS(16)
HOLDS(32)
HOLDS(64)
static inline uint64_t load_bytes(const void *p, size_t n) { uint64_t v = 0; memcpy(&v, p, n); return v; }
static inline void store_bytes(void *p, size_t n, uint64_t v) { memcpy(p, &v, n); }
#define FAR(p, n) (uint8_t *)((uintptr_t)(p) + (uintptr_t)(n))
#define LD(w, n, p) load_##w(AT(n, p))
#define ST(w, n, p, v) store_##w(AT(n, p), v)
"""
# What LLVM has by name and C hasn't, for each width that is used.
HELPERS = {
    "ctlz": "static inline uint{0}_t ctlz_{0}(uint{0}_t v) {{ uint{0}_t n = 0; while (n < {0} && !(v >> ({0} - 1 - n) & 1)) n++; return n; }}",
    "cttz": "static inline uint{0}_t cttz_{0}(uint{0}_t v) {{ uint{0}_t n = 0; while (n < {0} && !(v >> n & 1)) n++; return n; }}",
    "ctpop": "static inline uint{0}_t ctpop_{0}(uint{0}_t v) {{ uint{0}_t n = 0; for (; v; v &= (uint{0}_t)(v - 1)) n++; return n; }}",
    "bswap": """static inline uint{0}_t bswap_{0}(uint{0}_t v) {{
    uint{0}_t out = 0;
    for (int k = 0; k < {0}; k += 8) out = (uint{0}_t)(out | (uint{0}_t)(v >> k & 255) << ({0} - 8 - k));
    return out;
}}""",
    "fshl": "static inline uint{0}_t fshl_{0}(uint{0}_t a, uint{0}_t b, uint{0}_t n) "
    "{{ n &= {0} - 1; return n ? (uint{0}_t)(a << n | b >> ({0} - n)) : a; }}",
    "fshr": "static inline uint{0}_t fshr_{0}(uint{0}_t a, uint{0}_t b, uint{0}_t n) "
    "{{ n &= {0} - 1; return n ? (uint{0}_t)(a << ({0} - n) | b >> n) : b; }}",
}


def width_of(bits, line):
    """The bits of C's type for a number of so many bits."""
    return next((it for it in (8, 16, 32, 64) if bits <= it), None) or refuse(line, f"a number of {bits} bits isn't known")


class Program:
    """The module as C."""

    def __init__(self, module, declared):
        self.module, self.declared = module, declared
        self.names, self.structs, self.helpers = {}, {}, set()
        for number, function in enumerate(module.functions()):
            plain = re.sub(r"<.*|[^\w:]", "", function.name).split("::")[-1]
            self.names[function.name] = function.name[1:] if function.blocks is None else f"f{number}_{plain}"
        for number, constant in enumerate(module.globals()):
            self.names[constant.name] = f"g{number}"

    def type(self, kind, line):
        """A type in C."""
        if kind.kind == "int":
            return f"uint{width_of(kind.bits, line)}_t "
        if kind.kind == "ptr":
            return POINTER
        if kind.kind == "void":
            return "void "
        if kind.kind == "struct":
            return f"{self.structs.setdefault(kind, f'struct some{len(self.structs)}')} "
        return refuse(line, f"a register of {kind} isn't known")

    def pointer(self, name, line):
        """The address of a constant or a function."""
        if not name.startswith("@") or name not in self.names or self.names[name].startswith("f"):
            refuse(line, f"the address of {name} isn't known")
        return f"({POINTER})&{self.names[name]}"

    def prototype(self, function):
        """A function's first line."""
        is_outside = function.blocks is None
        kinds = [self.type(kind, function.line) for kind, _ in function.parameters]
        words = ", ".join(f"{'void *' if is_outside and kind == POINTER else kind}a{k}" for k, kind in enumerate(kinds)) or "void"
        return f"{'' if is_outside else 'static '}{self.type(function.result, function.line)}{self.names[function.name]}({words})"

    def constants(self):
        """The module's constants, each as its bytes and the addresses among them."""
        for it in self.module.globals():
            parts = []
            self.flatten(it, it.type, it.value, 0, parts)
            fields, values = [], []
            for number, (offset, part) in enumerate(joined(parts)):
                if isinstance(part, bytes):
                    fields.append(f"uint8_t b{number}[{len(part)}];")
                    values.append(f"{{{','.join(map(str, part))}}}")
                elif offset % 4 or it.alignment % 4:
                    refuse(it.line, "an address isn't aligned")
                else:
                    fields.append(f"const void *p{number};")
                    values.append(part)
            if not fields:
                # What has no bytes has a place too, and C has no empty struct.
                fields, values = ["uint8_t b0[1];"], ["{0}"]
            yield f"static const struct {{ _Alignas({it.alignment}) {' '.join(fields)} }} {self.names[it.name]} = {{{', '.join(values)}}};"

    def flatten(self, it, kind, value, offset, out):
        """Takes a constant's value apart: bytes, and addresses as text, each with its offset."""
        size = NARROW.size(kind)
        if value.kind in ("zero", "undef", "null"):
            out.append((offset, bytes(size)))
        elif value.kind == "number":
            out.append((offset, (value.number % (1 << kind.bits)).to_bytes(size, "little")))
        elif value.kind == "bytes":
            escape = re.compile(rb"\\(?:\\|([0-9A-F]{2}))")
            plain = escape.sub(lambda found: bytes([int(found.group(1) or b"5C", 16)]), value.text[2:-1].encode())
            if len(plain) != size:
                refuse(it.line, f"a text of {len(plain)} bytes in the place of {size}")
            out.append((offset, plain))
        elif value.kind == "global":
            out.append((offset, self.pointer(value.text, it.line)))
        elif value.kind == "getelementptr" and value.parts[0][1].kind == "global" and value.parts[1][1].kind == "number":
            far = value.number * value.parts[1][1].number
            out.append((offset, f"{self.pointer(value.parts[0][1].text, it.line)} + {far}"))
        elif value.kind == "parts":
            places = NARROW.offsets(kind) if kind.kind == "struct" else [k * NARROW.size(kind.parts[0]) for k in range(kind.count)]
            for place, (part, inner) in zip(places, value.parts):
                self.flatten(it, part, inner, offset + place, out)
            out.append((offset + size, b""))
        else:
            refuse(it.line, f"the constant '{value.text}' isn't known")

    def adapters(self):
        """What the module exports, as j1939.c declares it."""
        for function in self.module.functions():
            if not function.is_public or function.blocks is None:
                continue
            result, words = self.declared.pop(function.name[1:], (None, None))
            if result is None:
                refuse(function.line, f"{function.name} isn't declared in j1939.c")
            wanted = [kind_of(word, function.line) for word in words]
            if wanted != [kind for kind, _ in function.parameters] or kind_of(result, function.line) != function.result:
                refuse(function.line, f"{function.name} is declared otherwise in j1939.c")
            given = [f"({POINTER})a{k}" if "*" in word else f"a{k}" for k, word in enumerate(words)]
            call = f"{self.names[function.name]}({', '.join(given)});"
            head = f"{result} {function.name[1:]}({', '.join(f'{word} a{k}' for k, word in enumerate(words)) or 'void'})"
            yield f"{head} {{ {call if result == 'void' else f'return ({result}){call}'} }}"
        if self.declared:
            raise Refused(f"j1939.c declares {', '.join(self.declared)}, which the module hasn't")

    def write(self):
        """The whole of it."""
        functions = [it for it in self.module.functions() if not it.name.startswith("@llvm.") and it.name not in COMPARES]
        for it in functions:
            if it.blocks is None and it.name not in OUTSIDE:
                refuse(it.line, f"the function {it.name} isn't known")
        bodies = [Body(self, it).write() for it in functions if it.blocks]
        adapters, constants = list(self.adapters()), list(self.constants())
        heads = [f"{self.prototype(it)};" for it in functions]
        structs = []
        for kind, name in self.structs.items():
            fields = " ".join(f"{self.type(part, None)}f{k};" for k, part in enumerate(kind.parts))
            structs.append(f"{name} {{ {fields} }};")
        helpers = [HELPERS[name].format(bits) for name, bits in sorted(self.helpers)]
        return "\n".join([HEAD, *helpers, *structs, *heads, *constants, "", "\n\n".join(bodies), "", *adapters]) + "\n"


def joined(parts):
    """Joins bytes that stand beside one another, and fills what lies between two parts with zeros."""
    out, at = [], 0
    for offset, part in parts:
        if offset > at:
            out.append((at, bytes(offset - at)))
        out.append((offset, part))
        at = offset + (len(part) if isinstance(part, bytes) else 4)
    whole = []
    for offset, part in out:
        if isinstance(part, bytes) and whole and isinstance(whole[-1][1], bytes):
            whole[-1] = (whole[-1][0], whole[-1][1] + part)
        elif part:
            whole.append((offset, part))
    return whole


def kind_of(word, line):
    """What a type of a declaration in j1939.c is in the module."""
    if "*" in word:
        return Type("ptr")
    bits = re.fullmatch(r"u?int(\d+)_t", word)
    if bits:
        return Type("int", bits=int(bits.group(1)))
    return Type("void") if word == "void" else refuse(line, f"the type '{word}' of j1939.c isn't known")


class Body:
    """A function as C."""

    def __init__(self, program, function):
        self.program, self.function = program, function
        self.types, self.places, self.folded, self.targets = {}, [], {}, set()
        self.labels = {label: f"b{number}" for number, (label, _) in enumerate(function.blocks)}
        self.phis = {label: [it for it in block if it.op == "phi"] for label, block in function.blocks}
        self.block, self.uses = None, {}
        self.variables = {name: f"a{number}" for number, (_, name) in enumerate(function.parameters)}
        self.count_uses()

    def local(self, name):
        """The variable of a register, a parameter or a place."""
        return self.variables.setdefault(name, f"v{len(self.variables)}")

    def count_uses(self):
        """In which blocks each register is used."""
        for label, block in self.function.blocks:
            for it in block:
                froms = it.labels if it.op == "phi" else [label] * len(it.values)
                for (_, value), where in zip(it.values, froms):
                    self.count(value, where if it.op != "phi" else None)

    def count(self, value, where):
        """Counts the registers in a value."""
        if value.kind == "local":
            self.uses.setdefault(value.text, []).append(where)
        for _, part in value.parts:
            self.count(part, where)

    def write(self):
        """The whole function."""
        text = []
        for label, block in self.function.blocks:
            self.block = label
            lines = [it for instruction in block for it in self.instruction(instruction)]
            text.append((label, lines))
        kinds = {}
        for name, kind in self.types.items():
            kinds.setdefault(self.program.type(kind, self.function.line), []).append(name)
        out = [f"{self.program.prototype(self.function)} {{"]
        for kind, names in kinds.items():
            star = "*" if kind == POINTER else ""
            out.append(f"    {kind.rstrip('* ')} {', '.join(star + name for name in names)};")
        out += [f"    {it}" for it in self.places]
        for label, lines in text:
            out += [f"{self.labels[label]}:;"] if label in self.targets else []
            out += [f"    {it}" for it in lines]
        return "\n".join([*out, "}"])

    def instruction(self, it):
        """The statements of an instruction."""
        if it.op == "phi":
            self.types[self.local(it.dest)] = it.type
            return []
        text = getattr(self, f"of_{it.op}", None)
        if text is None and it.op in OPERATORS:
            text = self.of_operator
        elif text is None and it.op in SIGNED:
            text = self.of_signed
        elif text is None:
            refuse(it.line, f"'{it.op}' in C isn't known")
        text = text(it)
        if isinstance(text, list):
            return text
        if it.op in PURE and self.uses.get(it.dest) == [self.block] and len(text) < LONGEST:
            self.folded[it.dest] = f"({text})"
            return []
        return self.assign(it, text)

    def assign(self, it, text):
        """Gives a register its value."""
        if it.dest not in self.uses:
            return [f"(void)({text});"] if it.op == "call" else []
        self.types[self.local(it.dest)] = it.type
        return [f"{self.local(it.dest)} = {text};"]

    # ---- operands

    def value(self, kind, value, line):
        """An operand."""
        if value.kind == "local":
            return self.folded.get(value.text) or self.local(value.text)
        if value.kind == "global":
            return self.program.pointer(value.text, line)
        if value.kind in ("undef", "zero", "null"):
            return f"({self.program.type(kind, line).strip()}){{0}}" if kind.kind == "struct" else ("0", f"({POINTER})0")[kind.kind == "ptr"]
        if value.kind == "number":
            number = value.number % (1 << kind.bits)
            return f"{number}" if number < 1 << 31 else f"{number}u"
        if value.kind == "parts":
            return f"({self.program.type(kind, line).strip()}){{{', '.join(self.value(part, it, line) for part, it in value.parts)}}}"
        if value.kind == "getelementptr":
            return self.sum(self.value(*value.parts[0], line), value.parts[1], value.number, line)
        if value.kind in ("ptrtoint", "ptrtoaddr"):
            return self.cut(value.to, f"(uintptr_t){self.value(*value.parts[0], line)}", line)
        if value.kind == "inttoptr":
            return f"({POINTER})(uintptr_t){self.value(*value.parts[0], line)}"
        return refuse(line, f"the value '{value.text}' isn't known")

    def signed(self, kind, value, line):
        """An operand as a signed number."""
        width = width_of(kind.bits, line)
        if value.kind == "number":
            number = (value.number + (1 << kind.bits - 1)) % (1 << kind.bits) - (1 << kind.bits - 1)
            if number == -(1 << 63):
                return "INT64_MIN"
            return f"INT64_C({number})" if abs(number) >= 1 << 31 else f"({number})"
        text = self.value(kind, value, line)
        if kind.bits == width:
            return f"(int{width}_t){text}"
        return f"((int{width}_t)((uint{width}_t){text} << {width - kind.bits}) >> {width - kind.bits})"

    def cut(self, kind, text, line):
        """A number cut to its type's bits."""
        width = width_of(kind.bits, line)
        return f"(uint{width}_t)({text})" if kind.bits == width else f"(uint{width}_t)(({text}) & {(1 << kind.bits) - 1}u)"

    def sum(self, base, index, step, line):
        """An address and so many steps."""
        kind, value = index
        if value.kind == "number":
            return f"{base} + {self.signed(kind, value, line) if step == 1 else f'({value.number * step})'}"
        return f"{base} + (ptrdiff_t){self.signed(kind, value, line)}{f' * {step}' if step > 1 else ''}"

    # ---- instructions: of each the expression of its result, or a list of statements

    def of_alloca(self, it):
        """Bytes on the stack."""
        name = self.local(it.dest)
        self.places.append(f"_Alignas({it.alignment}) uint8_t {name}[{max(1, NARROW.size(it.type))}];")
        return []

    def held(self, it):
        """How many bits a number has in memory: whole bytes."""
        if it.type.kind == "ptr":
            refuse(it.line, "a pointer in memory isn't known: narrow.py leaves none")
        if it.type.kind != "int" or it.type.bits > 64 or it.type.bits % 8 and it.type.bits != 1:
            refuse(it.line, f"how {it.type} lies in memory isn't known")
        return max(8, it.type.bits)

    def of_load(self, it):
        """A number is read as it lies."""
        at, bits = self.value(*it.values[0], it.line), self.held(it)
        if bits in (8, 16, 32, 64):
            return f"LD({bits}, {it.alignment}, {at})"
        return self.cut(it.type, f"load_bytes({at}, {bits // 8})", it.line)

    def of_store(self, it):
        """And written so."""
        value, at = (self.value(*operand, it.line) for operand in it.values)
        bits = self.held(it)
        if bits in (8, 16, 32, 64):
            return [f"ST({bits}, {it.alignment}, {at}, {value});"]
        return [f"store_bytes({at}, {bits // 8}, {value});"]

    def of_getelementptr(self, it):
        """Inside a block it is C's own sum; else the address is counted as a number."""
        base = self.value(*it.values[0], it.line)
        kind, value = it.values[1]
        if "inbounds" in it.word.split():
            return self.sum(base, (kind, value), it.numbers[0], it.line)
        return f"FAR({base}, {self.value(kind, value, it.line)}{f' * {it.numbers[0]}' if it.numbers[0] > 1 else ''})"

    def of_operator(self, it):
        """Sums and their like, which wrap."""
        left, right = (self.value(*operand, it.line) for operand in it.values)
        if it.op in ("shl", "lshr") and it.values[1][1].kind != "number":
            right = f"({right} & {width_of(it.type.bits, it.line) - 1})"
        if it.op in ("mul", "shl") and it.type.bits < 32:
            left = f"(uint32_t){left}"
        elif it.op == "shl" and it.values[0][1].kind == "number":
            left = f"({self.program.type(it.type, it.line).strip()}){left}"
        elif it.op in ("add", "sub") and it.type.bits > 32 and it.values[0][1].kind == it.values[1][1].kind == "number":
            refuse(it.line, "a sum of two numbers isn't known")
        text = f"{left} {OPERATORS[it.op]} {right}"
        return text if it.op in ("and", "or", "lshr", "udiv", "urem") else self.cut(it.type, text, it.line)

    def of_signed(self, it):
        """Shifts and quotients of signed numbers."""
        left = self.signed(*it.values[0], it.line)
        if it.op == "ashr":
            right = self.value(*it.values[1], it.line)
            right = right if it.values[1][1].kind == "number" else f"({right} & {width_of(it.type.bits, it.line) - 1})"
        else:
            right = self.signed(*it.values[1], it.line)
        return self.cut(it.type, f"{left} {SIGNED[it.op]} {right}", it.line)

    def of_icmp(self, it):
        """A comparison, 0 or 1."""
        kind = it.values[0][0]
        read = self.signed if it.word[0] == "s" else self.value
        left, right = (read(*operand, it.line) for operand in it.values)
        if kind.kind == "ptr":
            left, right = f"(uintptr_t){left}", f"(uintptr_t){right}"
        return f"{left} {COMPARED[it.word[-2:]]} {right}"

    def of_select(self, it):
        """One of two."""
        which, yes, no = (self.value(*operand, it.line) for operand in it.values)
        return f"{which} ? {yes} : {no}"

    def of_freeze(self, it):
        """What LLVM leaves open is something here anyway."""
        return self.value(*it.values[0], it.line)

    def of_zext(self, it):
        """The upper bits are zero already."""
        return f"({self.program.type(it.type, it.line).strip()}){self.value(*it.values[0], it.line)}"

    def of_sext(self, it):
        """The upper bits are the sign's."""
        width = width_of(it.type.bits, it.line)
        return self.cut(it.type, f"(int{width}_t){self.signed(*it.values[0], it.line)}", it.line)

    def of_trunc(self, it):
        """The upper bits go."""
        return self.cut(it.type, self.value(*it.values[0], it.line), it.line)

    def of_ptrtoint(self, it):
        """The number of an address."""
        return self.cut(it.type, f"(uintptr_t){self.value(*it.values[0], it.line)}", it.line)

    of_ptrtoaddr = of_ptrtoint

    def of_inttoptr(self, it):
        """The address of a number."""
        return f"({POINTER})(uintptr_t){self.value(*it.values[0], it.line)}"

    def of_extractvalue(self, it):
        """A part of a pair."""
        return f"{self.value(*it.values[0], it.line)}.f{it.numbers[0]}"

    def of_insertvalue(self, it):
        """A pair with another part."""
        whole, part = (self.value(*operand, it.line) for operand in it.values)
        self.types[self.local(it.dest)] = it.type
        return [f"{self.local(it.dest)} = {whole};", f"{self.local(it.dest)}.f{it.numbers[0]} = {part};"]

    def of_br(self, it):
        """A jump, or one of two."""
        if not it.values or it.labels[0] == it.labels[1]:
            return [self.jump(it.labels[0])]
        return [f"if ({self.value(*it.values[0], it.line)}) {self.jump(it.labels[0])} else {self.jump(it.labels[1])}"]

    def of_switch(self, it):
        """A jump by a number."""
        kind, value = it.values[0]
        cases = [f"case {number % (1 << kind.bits)}u: {self.jump(to)}" for number, to in zip(it.numbers, it.labels)]
        return [f"switch ({self.value(kind, value, it.line)}) {{", *cases, f"default: {self.jump(it.labels[-1])}", "}"]

    def of_ret(self, it):
        """The end."""
        return [f"return {self.value(*it.values[0], it.line)};" if it.values else "return;"]

    def of_unreachable(self, _):
        """Nothing comes here."""
        return ["NEVER();"]

    def jump(self, to):
        """Goes to a block, which gets its registers that hang on where it comes from: all at once."""
        self.targets.add(to)
        moves = []
        for it in self.phis[to]:
            value = next(value for value, label in zip(it.values, it.labels) if label == self.block)
            text = self.value(*value, it.line)
            if it.dest in self.uses and text != self.local(it.dest):
                moves.append((self.local(it.dest), self.program.type(it.type, it.line), text))
        names = {name for name, _, _ in moves}
        if any(set(re.findall(r"\w+", text)) & names for _, _, text in moves):
            first = [f"{kind}n{k} = {text};" for k, (_, kind, text) in enumerate(moves)]
            then = [f"{name} = n{k};" for k, (name, _, _) in enumerate(moves)]
        else:
            first, then = [], [f"{name} = {text};" for name, _, text in moves]
        words = [*first, *then, f"goto {self.labels[to]};"]
        return words[0] if len(words) == 1 else f"{{ {' '.join(words)} }}"

    # ---- calls

    def of_call(self, it):
        """A call of a function of the module or from outside, or of what LLVM gives."""
        *operands, (_, callee) = it.values
        if callee.kind != "global":
            refuse(it.line, "a call through a pointer isn't known")
        values = [self.value(*operand, it.line) for operand in operands]
        if callee.text.startswith(TOLD):
            return []
        moves = MOVES.fullmatch(callee.text)
        if moves:
            return [f"{moves.group(1)}({values[0]}, {values[1]}, (size_t){values[2]});"]
        if callee.text == "@llvm.trap":
            return ["NEVER();"]
        if callee.text.startswith("@llvm."):
            return self.given(it, callee.text, operands, values)
        if callee.text in COMPARES:
            return f"(uint32_t)memcmp({', '.join(values)})"
        text = f"{self.program.names[callee.text]}({', '.join(values)})"
        return [f"{text};"] if it.type.kind == "void" else text

    def given(self, it, name, operands, values):
        """A function of numbers that LLVM gives."""
        found = re.fullmatch(r"@llvm\.([a-z.]+)\.i(\d+)(?:\.i\d+)?", name) or refuse(it.line, f"'{name}' in C isn't known")
        what, bits, kind = found.group(1), int(found.group(2)), operands[0][0]
        if what in ("umin", "umax"):
            return f"{values[0]} {'<' if what == 'umin' else '>'} {values[1]} ? {values[0]} : {values[1]}"
        if what in ("smin", "smax"):
            left, right = (self.signed(*operand, it.line) for operand in operands[:2])
            return f"{left} {'<' if what == 'smin' else '>'} {right} ? {values[0]} : {values[1]}"
        if what in ("ucmp", "scmp"):
            left, right = values[:2] if what == "ucmp" else [self.signed(*operand, it.line) for operand in operands[:2]]
            return self.cut(it.type, f"({left} > {right}) - ({left} < {right})", it.line)
        if what == "usub.sat":
            return f"{values[0]} > {values[1]} ? {values[0]} - {values[1]} : 0"
        if what == "uadd.sat":
            whole = self.cut(kind, f"{values[0]} + {values[1]}", it.line)
            return f"{whole} < {values[0]} ? {(1 << bits) - 1}u : {whole}"
        if what == "abs":
            return f"{self.signed(*operands[0], it.line)} < 0 ? {self.cut(kind, f'0 - {values[0]}', it.line)} : {values[0]}"
        if what in ("uadd.with.overflow", "usub.with.overflow"):
            whole = self.cut(kind, f"{values[0]} {'+-'[what[1] == 's']} {values[1]}", it.line)
            over = f"{whole} < {values[0]}" if what[1] == "a" else f"{values[0]} < {values[1]}"
            return f"({self.program.type(it.type, it.line).strip()}){{{whole}, {over}}}"
        if what == "umul.with.overflow":
            largest = f"{(1 << bits) - 1}u"
            over = f"{values[0]} && {values[1]} > {largest} / {values[0]}"
            return f"({self.program.type(it.type, it.line).strip()}){{{self.cut(kind, f'{values[0]} * {values[1]}', it.line)}, {over}}}"
        if what in HELPERS and bits in (8, 16, 32, 64):
            self.program.helpers.add((what, bits))
            count = 3 if what in ("fshl", "fshr") else 1
            return f"{what}_{bits}({', '.join(values[:count])})"
        return refuse(it.line, f"'{name}' in C isn't known")


def declarations(text):
    """What j1939.c declares of the proved calls: by its name, a call's result and the types of its parameters."""
    out = {}
    for result, name, words in re.findall(r"^(int32_t|void) (j39_\w+)\(([^)]*)\);", text, re.MULTILINE):
        out[name] = result, [re.sub(r"\w+$", "", " ".join(word.split())).strip() for word in words.split(",")]
    return out


def around(folder):
    """The C that stands around the proved calls: its license, the header, and each file whole, without what it includes of the others."""
    text = "/* The library of j1939.h in one file, for little-endian machines of 32 bits.\n"
    text += " *\n * SPDX-License-Identifier: MIT OR Apache-2.0\n *\n"
    text += " * Memory comes from malloc, realloc and free; with -DJ1939_OWN_MEMORY from three calls of your own (memory.h). */\n"
    files = {}
    for name in ("memory.h", "pool.h", "pool.c", "j1939.c", "narrow.c", "heap.c"):
        with open(f"{folder}/{name}", encoding="utf-8") as file:
            files[name] = file.read()
        body = re.sub(r'#include "(?!j1939\.h").*\n', "", files[name])
        if name == "heap.c":
            body = f"#ifndef J1939_OWN_MEMORY\n{body}#endif\n"
        text += f"\n/* ---- {name} */\n\n{body}"
    text += "\n/* The proved calls give memory back through pool.c. */\n#define rattle_dealloc j39_dealloc\n"
    return text, declarations(files["j1939.c"])


def main():
    """Writes the file."""
    name, folder = words_of(__doc__, "MODULE.ll", "C_FOLDER")
    try:
        with open(name, encoding="utf-8") as file:
            module = Module(file.read())
        text, declared = around(folder)
        text += Program(module, declared).write()
    except (OSError, Refused) as error:
        sys.exit(f"write_c.py: {name}: {error}")
    sys.stdout.write(text)


if __name__ == "__main__":
    main()
