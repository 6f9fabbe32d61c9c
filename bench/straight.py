#!/usr/bin/env python3
"""Translates a program file to one C function on standard output: a local variable a register, one statement an instruction.

usage: straight.py PROGRAM
"""
import sys

# By kind: the statement, with the operands in the order of the file.
STATEMENTS = {
    1: "r{0} = ~(uint64_t)0;",
    2: "r{0} = 0;",
    3: "r{0} = inputs[{1}];",
    4: "r{0} = ~r{1};",
    5: "r{0} = r{1} & r{2};",
    6: "r{0} = r{1} | r{2};",
    7: "outputs[{0}] = r{1};",
}
OUTPUT = 7


def fields(data):
    return [low | high << 8 for low, high in zip(data[::2], data[1::2])]


def instructions(data):
    """Kind and operands of each instruction. The engine wrote the file, so nothing is checked."""
    at = 16
    while at < len(data):
        length = data[at] | data[at + 1] << 8
        yield fields(data[at + 2 : at + length])
        at += length


def main():
    with open(sys.argv[1], "rb") as file:
        data = file.read()
    code = list(instructions(data))
    written = sorted({operands[0] for kind, *operands in code if kind != OUTPUT})
    print("#include <stdint.h>\n")
    print("void straight_run(const uint64_t *inputs, uint64_t *outputs) {")
    print("    uint64_t " + ", ".join(f"r{i}" for i in written) + ";")
    for kind, *operands in code:
        print("    " + STATEMENTS[kind].format(*operands))
    print("}")


main()
