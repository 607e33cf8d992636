"""Assembles programs for the scripts beside it (docs/RULES.md, R5 to R15).

A program is text: instructions with ';' or a new line between them. An operand is a variable by its name or number, a label by its
number; an expression has its operators first: `LOAD and x not y`.
"""
import struct

ALONE = "INIT NOT TAND TOR PUSH POP DROP DUP FSWP ESWP END".split()
CODES = {word: code for code, word in enumerate(ALONE)}
CODES |= dict(LOAD=16, AND=17, OR=18, EPUSH=19, STORE=32, SET=33, RES=34, REDGE=35, FEDGE=36, JP=48, JPC=49, JS=50, JSC=51)
OPERATORS = dict(zero=250, one=251)
OPERATORS |= {"not": 252, "and": 253, "or": 254}


def body(instruction, names):
    word, *operands = instruction.split()
    if word.startswith("J"):
        return bytes([CODES[word]]) + struct.pack("<H", int(operands[0]))
    return bytes([CODES[word]] + [OPERATORS.get(x, names.get(x)) if x in OPERATORS or x in names else int(x) for x in operands])


def assemble(depth, inputs, outputs, memory, text, names=()):
    """The program file: header, entries, bodies. The variables may have names, in their order."""
    numbers = {name: i for i, name in enumerate(names)}
    bodies = [body(i, numbers) for i in text.replace("\n", ";").split(";") if i.strip()]
    entries, at = [], 0
    for b in bodies:
        entries.append(struct.pack("<H", at))
        at += len(b)
    header = bytes([1, depth, inputs, outputs, memory]) + struct.pack("<H", len(bodies))
    return header + b"".join(entries + bodies)
