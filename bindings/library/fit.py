"""Fits the module of a proved library, which the kit made for one target, its base, to another target.

The module's functions stay as they are, word for word. What changes is the lines that name the machine, and how the exported functions are called: each gets
a skin that is called as the target's C has it and calls the proved one. How that is, the compiler says itself: it reads the C header and writes a declaration
of each function, once for the base, which has to be what the module has, and once for the target.
"""

import re
from collections import namedtuple

FUNCTION = re.compile(r"^(define|declare) ([^@\n]*) @(\w+)(\(.*)$", re.M)
STRUCTS = re.compile(r"^%struct\..* = type .*\n", re.M)
MACHINE = re.compile(r'^target (?:datalayout|triple) = ".*"\n', re.M)
# What touches memory, with the type that it does it by; and what else may differ where addresses have 32 bits: an address as a number, and one in a constant.
MEMORY = re.compile(r"\b(alloca|load|store|getelementptr) (.*)$", re.M)
ADDRESS = re.compile(r"\b(?:ptrtoaddr|ptrtoint|inttoptr)\b|^@.* (?:constant|global) .*\bptr\b", re.M)
PROCESSOR = re.compile(r' "(?:target-cpu|tune-cpu|target-features)"="[^"]*"')

# Where a skin keeps an answer that the two sides have in different places. No target's C has more bytes of an answer in registers.
ROOM = "alloca [64 x i8], align 16"

# How a function is called: what is said of its answer, the answer's type, the parameters with what is said of them, and the struct, if any, that is left at the
# address that comes first.
Function = namedtuple("Function", "words answer parameters struct")


class Unfit(Exception):
    pass


def parts(text, mark):
    """The pieces of a text between the marks that stand in no brackets."""
    pieces, depth = [""], 0
    for sign in text:
        depth += (sign in "([{") - (sign in ")]}")
        if sign == mark and not depth:
            pieces.append("")
        else:
            pieces[-1] += sign
    return [piece.strip() for piece in pieces if piece.strip()]


def functions(kind, text):
    """The functions that a module defines for others (`define`), or that it declares (`declare`), by name."""
    found = {}
    for which, head, name, tail in FUNCTION.findall(text):
        *words, answer = parts(head, " ")
        if which == kind and not {"internal", "private"} & set(words):
            parameters = [re.sub(r" %\w+$", "", part) for part in parts(parts(tail, " ")[0][1:-1], ",")]
            struct = re.search(r"sret\((.*?)\)", parameters[0]) if parameters else None
            found[name] = Function("".join(f"{word} " for word in words), answer, parameters, struct and struct[1])
    return found


def exported(module):
    return list(functions("define", module))


def types(parameters):
    return [parts(parameter, " ")[0] for parameter in parameters]


def check(module, header, here):
    """Whether the header says what the module has. `here` is what the compiler makes of the header for the module's target."""
    # A pointer beside length 0 may be null.
    if re.search(r"\b(nonnull|dereferenceable)", module):
        raise Unfit("the module takes pointers for addresses of something; null beside length 0 has to be taken")
    # The fields of a struct lie at the same places on every target.
    for fields in re.findall(r"struct[^{};]*\{([^}]*)\}", re.sub(r"/\*.*?\*/", "", header, flags=re.S)):
        other = re.search(r"\*|\b(?!u?int(?:8|16|32|64)_t\b)\w+(?=\s+\w+\s*[;,\[])", fields)
        if other:
            raise Unfit(f"a struct of the header has a field with {other[0]}; only numbers of fixed widths are alike everywhere")
    declared = functions("declare", here)
    for name, proved in functions("define", module).items():
        # On x86-64 an answer in memory comes back as its address, which C does not say.
        answer = "ptr" if declared[name].struct and not proved.struct else declared[name].answer
        said, had = (answer, types(declared[name].parameters)), (proved.answer, types(proved.parameters))
        if said != had:
            raise Unfit(f"{name} differs: {said} by the header, {had} in the module")


def skin(name, proved, in_memory, target):
    """The function as the target calls it. `in_memory`: the proved one leaves its answer at the address that comes first."""
    lines = []
    taken = [f"%p{k}" for k in range(len(target.parameters))]
    ours = list(zip(types(target.parameters), taken))[1 if target.struct else 0 :]
    theirs = types(proved.parameters)[1 if in_memory else 0 :]
    if len(ours) != len(theirs):
        raise Unfit(f"{name} takes {len(theirs)} values as proved and {len(ours)} on the target: it can take pointers and numbers, no structs")
    # Where the address of the answer is passed may hang on that it is said to be one.
    place = f"ptr sret({proved.struct}) " if proved.struct else "ptr "
    passed = [place + (taken[0] if target.struct else "%room")] if in_memory else []
    for (type_, value), wide in zip(ours, theirs):
        # A size_t of 32 bits. No other number differs.
        if (type_, wide) == ("i32", "i64"):
            lines.append(f"{value}.wide = zext i32 {value} to i64")
            value += ".wide"
        elif type_ != wide:
            raise Unfit(f"{name} takes {wide} as proved and {type_} on the target")
        passed.append(f"{wide} {value}")
    call = f'call {proved.answer} @"{name} as proved"({", ".join(passed)})'
    if target.struct if in_memory else proved.answer == "void":
        lines += [call, "ret void"]
    else:
        lines.insert(0, f"%room = {ROOM}")
        lines += [call] if in_memory else [f"%proved = {call}", f"store {proved.answer} %proved, ptr %room"]
        answer = target.struct or target.answer
        lines.append(f"%answer = load {answer}, ptr %room")
        lines += [f"store {answer} %answer, ptr {taken[0]}", "ret void"] if target.struct else [f"ret {answer} %answer"]
    parameters = ", ".join(f"{parameter} {value}" for parameter, value in zip(target.parameters, taken))
    body = "\n".join(f"  {line}" for line in lines)
    return f"define {target.words}{target.answer} @{name}({parameters}) nounwind {{\n{body}\n}}\n"


def check_addresses(module):
    """Whether the module is the same where addresses have 32 bits: a pointer stands alone in memory, or before a number of 64 bits, and no address is a number."""
    for kind, rest in MEMORY.findall(module):
        held = parts(rest, ",")[0]
        together = re.search(r"[\[{<].*\bptr\b", held) and "{ ptr, i64 }" not in parts(held, " ")
        if together or kind == "getelementptr" and re.search(r"\bptr\b", held):
            raise Unfit(f"the module has what lies elsewhere where addresses have 32 bits: {kind} {rest}")
    if other := ADDRESS.search(module):
        raise Unfit(f"the module has what is otherwise where addresses have 32 bits: {other[0]}")


def fit(module, here, there):
    """The module for the target. `here` and `there` are what the compiler makes of the header for the base and for the target."""
    declared, wanted = functions("declare", here), functions("declare", there)
    skins = []
    for name, proved in functions("define", module).items():
        skins.append(skin(name, proved, bool(declared[name].struct), wanted[name]))
        module = re.sub(rf"^define (.*) @{name}\(", rf'define internal \1 @"{name} as proved"(', module, flags=re.M)
    machine, structs = MACHINE.findall(there), STRUCTS.findall(there)
    # Else the fields of a struct may lie at other places.
    if "-i64:64-" not in "".join(machine):
        raise Unfit("the target has numbers of 64 bits at other places than multiples of 8")
    if "-p:32:32-" in "".join(machine):
        check_addresses(module)
    return "".join([*machine, PROCESSOR.sub("", MACHINE.sub("", module)), *structs, *skins])
