"""At multiples of how many bytes the places lie that a module's pointers name, as far as its own words tell.

What the kit moves whole it moves without saying where that lies, and a machine that can't read across words takes it byte by byte. But a
place on the stack and a constant say it; an address is a step from another; a parameter is what all callers hand over; and where a
number is loaded or stored through a pointer at a multiple of eight, what that points to has such a number in it, and lies so wherever
it is: in Rattle a pointer has one type. Only code that looks at an address could go another way where it lies otherwise, so there an
address may be taken from another, and no more."""

from math import gcd

from llvm import Function, Global, refuse

MOST = 16


def slots_of(function):
    """The places on the stack that hold a pointer and nothing else ever touches, each with the pointers that are put there."""
    out = {it.dest: [] for _, instructions in function.blocks for it in instructions if it.op == "alloca" and it.type.kind == "ptr"}
    for _, instructions in function.blocks:
        for it in instructions:
            if it.op == "load" and it.type.kind == "ptr":
                continue
            values = [value for _, value in it.values]
            if it.op == "store" and it.type.kind == "ptr" and values[1].text in out:
                out[values.pop().text].append(values[0])
            for value in values:
                out.pop(value.text, None)
    return out


class Places:
    """What is known of a function's pointers: what they are a step from, and how they lie; of its parameters in `handed` what its
    callers hand over at least."""

    def __init__(self, function, constants):
        self.function, self.constants = function, constants
        self.steps, self.said, self.addresses = {}, {}, set()
        self.handed = {name: 1 if function.is_public else MOST for kind, name in function.parameters if kind.kind == "ptr"}
        slots = slots_of(function)
        for _, instructions in function.blocks:
            for it in instructions:
                self.note(it, slots)

    def note(self, it, slots):
        """What an instruction tells."""
        if it.op != "sub" and any(value.text in self.addresses for _, value in it.values):
            refuse(it.line, "what is done with an address isn't known")
        if it.op in ("ptrtoaddr", "ptrtoint"):
            self.addresses.add(it.dest)
        if it.op == "alloca":
            self.said[it.dest] = it.alignment
        elif it.op == "getelementptr":
            (_, base), (_, steps) = it.values
            self.steps[it.dest] = (base, it.numbers[0] * (steps.number if steps.kind == "number" else 1))
        elif it.op in ("load", "store"):
            _, place = it.values[-1]
            self.tell(place, it.alignment)
            if it.op == "load" and len(slots.get(place.text, ())) == 1:
                self.steps[it.dest] = (slots[place.text][0], 0)

    def tell(self, place, alignment):
        """A place lies so, and with it what it is a step from. Tells whether that wasn't known."""
        if place.kind != "local" or alignment <= self.said.get(place.text, 1):
            return False
        self.said[place.text] = alignment
        if place.text in self.steps:
            base, step = self.steps[place.text]
            self.tell(base, gcd(alignment, step))
        return True

    def alignment(self, place):
        """At a multiple of how many bytes a place lies."""
        if place.kind == "global":
            return self.constants.get(place.text, 1)
        if place.kind != "local":
            return 1
        known = self.handed.get(place.text, 1)
        if place.text in self.steps:
            base, step = self.steps[place.text]
            known = gcd(self.alignment(base), step)
        return max(known, self.said.get(place.text, 1))


class Aligned:
    """What is known of the pointers of a whole module."""

    def __init__(self, module):
        constants = {it.name: it.alignment for it in module.items if isinstance(it, Global)}
        functions = [it for it in module.items if isinstance(it, Function) and it.blocks]
        self.places = {it.name: Places(it, constants) for it in functions}
        self.calls = list(self.pairs(functions))
        while any([self.places[outer].tell(value, inner.said.get(name, 1)) for outer, value, inner, name in self.calls]):
            pass
        while any([self.hand_over(*call) for call in self.calls]):
            pass

    def pairs(self, functions):
        """Each pointer that a function hands over: the function, the pointer, whom it is handed to, and as which parameter."""
        for function in functions:
            for it in (it for _, instructions in function.blocks for it in instructions if it.op == "call"):
                *values, (_, callee) = it.values
                inner = self.places.get(callee.text)
                for (kind, value), (_, name) in zip(values, inner.function.parameters if inner else ()):
                    if kind.kind == "ptr":
                        yield function.name, value, inner, name

    def hand_over(self, outer, value, inner, name):
        """A parameter lies as what each caller hands over at least. Tells whether that is less than before."""
        known = min(inner.handed[name], self.places[outer].alignment(value))
        is_less = known < inner.handed[name]
        inner.handed[name] = known
        return is_less

    def of(self, function, place):
        """At a multiple of how many bytes a place lies that a function names."""
        return self.places[function.name].alignment(place)
