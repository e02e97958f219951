#!/usr/bin/env python3
"""The stack of each exported call: measured, and the most that its code can use.

Standard input: the lines of `sizes stack`. Arguments: the library's object files. A function's frame is read off its
disassembly, along its jumps: return address, pushes, what is taken off the stack pointer, and what a function without calls
uses below it.
The bound of a call is its frame and the deepest chain of calls from it; the C library's memcpy and memset count as their
return addresses. A measured value above its bound fails.
"""

import re
import subprocess
import sys

WORD = 8
OUTSIDE = {"memcpy", "memset"}


def disassembled(path):
    """The instructions of each function: (address, instruction, called function or none)."""
    listing = subprocess.run(["objdump", "-dr", "--no-show-raw-insn", path], check=True, capture_output=True, text=True).stdout
    functions, body = {}, None
    for line in listing.splitlines():
        if head := re.fullmatch(r"[0-9a-f]+ <(.+)>:", line):
            body = functions.setdefault(head.group(1), [])
        elif relocated := re.match(r"\s+[0-9a-f]+: R_X86_64_PLT32\s+(\S+)-0x4", line):
            body[-1] = (*body[-1][:2], relocated.group(1).removeprefix(".text."))
        elif instruction := re.match(r"\s+([0-9a-f]+):\t(.+)", line):
            body.append((int(instruction.group(1), 16), instruction.group(2).strip(), None))
    return functions


def taken(instruction):
    """How many bytes the instruction takes off the stack pointer."""
    if re.match(r"push\b", instruction):
        return WORD
    if re.match(r"pop\b", instruction):
        return -WORD
    if moved := re.match(r"(sub|add)\s+\$(-?0x[0-9a-f]+),%rsp", instruction):
        return int(moved.group(2), 16) * (1 if moved.group(1) == "sub" else -1)
    if re.search(r",%rsp$", instruction) or re.match(r"(enter|leave)\b", instruction):
        raise ValueError(f"the stack pointer is changed by {instruction!r}")
    return 0


def below(instruction):
    """How far below the stack pointer the instruction reaches, in whole words."""
    reached = re.search(r"-(0x[0-9a-f]+)\(%rsp", instruction)
    return -(-int(reached.group(1), 16) // WORD) * WORD if reached else 0


def depths(name, body):
    """The bytes of stack in use before each instruction, followed along its jumps. What no direct jump reaches has the frame's."""
    at = {address: index for index, (address, _, _) in enumerate(body)}
    known, frame, entering = {}, WORD, True
    for _, instruction, _ in body:
        entering = entering and not re.match(r"(call|j|ret)", instruction)
        frame += taken(instruction) if entering else 0
    for start in range(len(body)):
        ways = [] if start in known else [(start, frame if start else WORD)]
        while ways:
            index, depth = ways.pop()
            if known.setdefault(index, depth) != depth:
                raise ValueError(f"{name}: {known[index]} and {depth} bytes at {body[index][0]:x}")
            instruction = body[index][1]
            if re.match(r"ret\b", instruction):
                if depth != WORD:
                    raise ValueError(f"{name}: {depth} bytes at a return")
                continue
            jump = re.match(r"j\w+\s+([0-9a-f]+) <", instruction)
            after = [at[int(jump.group(1), 16)]] if jump else []
            if not re.match(r"(jmp|ud2)\b", instruction) and index + 1 < len(body):
                after.append(index + 1)
            ways += [(next, depth + taken(instruction)) for next in after if next not in known]
    return known


def used(functions, name):
    """Bytes of stack that a call of the function can use."""
    if name in OUTSIDE:
        return WORD
    body = functions[name]
    deepest = WORD
    for index, depth in depths(name, body).items():
        _, instruction, callee = body[index]
        deepest = max(deepest, depth + taken(instruction), depth + below(instruction))
        if callee:
            deepest = max(deepest, depth + used(functions, callee))
    return deepest


def main():
    functions = {}
    for path in sys.argv[1:]:
        of_object = disassembled(path)
        functions.update({name: used(of_object, name) for name in of_object if name.startswith("packet_window_")})
    measured = dict(line.split("\t") for line in sys.stdin)
    calls = measured.pop("calls").strip()
    print("| call | stack, measured | by its code |")
    print("|---|---|---|")
    for name, bound in sorted(functions.items()):
        print(f"| {name.removeprefix('packet_window_')} | {int(measured[name])} | {bound} |")
        if int(measured[name]) > bound:
            sys.exit(f"{name}: more than its code can use")
    print(f"\n{calls} calls were made.")


main()
