#!/usr/bin/env python3
"""Worst-case stack and code size of the archive's exported calls, read from its object file.

Every function's instructions are followed from its entry along all jumps, and the bytes that it has on the stack
are counted at each one: pushes, pops, and what is added to or subtracted from %rsp. The call graph is that of the
call instructions. The depth of a call is its return address, its own bytes where it calls, and the depth of what it
calls there. Anything that cannot be counted so ends the program: recursion, calls through pointers, jumps that leave
a function, other changes of %rsp, ways that meet with different depths, a return with bytes left.

usage: stack.py ARCHIVE [BASELINE]    BASELINE is the archive of the same rules in C, for its size
"""

import re
import subprocess
import sys

RETURN_ADDRESS = 8
AIM = 2048
# Functions of the C library: their return address is counted, their own frame is not.
LIBRARY = {"memcpy", "memmove", "memset", "memcmp", "bcmp"}

FUNCTION = re.compile(r"^([0-9a-f]+) <(.+)>:$")
INSTRUCTION = re.compile(r"^\s*([0-9a-f]+):\t(\S+)\s*([^#<\t]*)(?:<[^>]*>)?[^\t]*(?:\t(.*))?$")
PREFIXES = {"cs", "ds", "data16", "rep", "repz", "repnz", "lock", "notrack", "bnd"}
PADDING = re.compile(r"^(nop[wl]?|xchg|int3)$")


def fail(message):
    sys.exit(f"stack.py: {message}")


def tool(*command):
    done = subprocess.run(command, capture_output=True, text=True)
    if done.returncode != 0:
        fail(f"{' '.join(command)}: {done.stderr.strip()}")
    return done.stdout


class Instruction:
    def __init__(self, address, name, operands, relocation):
        self.address, self.name, self.operands, self.relocation = address, name, operands, relocation

    def target(self):
        """The address that a jump or call names, or None if it goes through a register or memory."""
        return int(self.operands, 16) if re.fullmatch(r"[0-9a-f]+", self.operands) else None


class Function:
    def __init__(self, name, section):
        self.name, self.section = name, section
        self.instructions, self.size = [], 0
        # The most bytes on the stack, return address not counted, and those at each call.
        self.peak, self.calls = 0, []


def read_functions(archive):
    functions, section, current = {}, None, None
    for line in tool("objdump", "-drw", "--no-show-raw-insn", archive).splitlines():
        if line.startswith("Disassembly of section "):
            section = line[len("Disassembly of section "):-1]
            continue
        head = FUNCTION.match(line)
        if head:
            current = functions.setdefault(head[2], Function(head[2], section))
            if int(head[1], 16) != 0:
                fail(f"{head[2]} is not alone in its section")
            continue
        parsed = INSTRUCTION.match(line)
        if parsed:
            current.instructions.append(instruction(parsed))
    for line in tool("nm", "-S", "--defined-only", archive).splitlines():
        parts = line.split(maxsplit=3)
        if len(parts) == 4 and parts[3] in functions:
            functions[parts[3]].size = int(parts[1], 16)
    return functions


def instruction(parsed):
    address, name, operands, relocation = int(parsed[1], 16), parsed[2], parsed[3].strip(), parsed[4]
    while name in PREFIXES and operands:
        name, _, operands = operands.partition(" ")
        operands = operands.strip()
    return Instruction(address, name, operands, relocation)


def moved(function, one):
    """By how much the instruction deepens the stack."""
    last = re.split(r",(?![^(]*\))", one.operands)[-1]
    constant = re.match(r"\$0x([0-9a-f]+),%rsp$", one.operands)
    if one.name in ("push", "pushq"):
        return 8
    if one.name in ("pop", "popq"):
        return -8
    if one.name in ("sub", "subq", "add", "addq") and constant:
        return int(constant[1], 16) * (1 if one.name.startswith("sub") else -1)
    if one.name in ("leave", "enter") or (last == "%rsp" and one.name not in ("cmp", "test", "cmpq", "testq")):
        fail(f"{function.name}: {one.name} {one.operands} changes the stack in a way that is not counted")
    return 0


def callee(function, one, sections):
    """The function that a call or a jump with a relocation goes to."""
    named = re.match(r"[0-9a-f]+: R_X86_64_(?:PLT32|PC32)\s+(.+)-0x4$", one.relocation or "")
    if not named or one.target() is None:
        fail(f"{function.name}: {one.name} {one.operands} at {one.address:x} goes through a pointer")
    return sections.get(named[1], named[1])


def own_table(function, tables):
    """Whether jumps through a register can only be those of a table into the function itself."""
    targets = tables.get(".rodata." + function.name, [])
    return bool(targets) and all(target == function.section for target in targets)


def jump_tables(archive):
    """For each section of data, the sections of code that it holds addresses of."""
    tables, section = {}, None
    for line in tool("objdump", "-r", archive).splitlines():
        head = re.match(r"RELOCATION RECORDS FOR \[(.+)\]:", line)
        entry = re.match(r"[0-9a-f]{8,} R_\S+\s+(\.text\S*?)(?:[+-]0x[0-9a-f]+)?$", line)
        if head:
            section = head[1]
        elif entry and not section.startswith(".text"):
            tables.setdefault(section, []).append(entry[1])
    return tables


class Walk:
    """Follows one function and leaves its peak and its calls in it."""

    def __init__(self, function, sections, tables):
        self.function, self.sections, self.tables = function, sections, tables
        self.at = {one.address: place for place, one in enumerate(function.instructions)}
        self.depths, self.todo, self.table_depths = {}, [], set()

    def reach(self, address, depth):
        if address not in self.at:
            fail(f"{self.function.name}: a jump to {address:x} leaves the function")
        if self.depths.setdefault(address, depth) != depth:
            fail(f"{self.function.name}: two depths of stack at {address:x}")
        self.todo.append(address)

    def follow_all(self):
        self.reach(0, 0)
        self.drain()
        for one in self.function.instructions:
            if one.address in self.depths or PADDING.match(one.name):
                continue
            # Only a jump table leads here.
            if len(self.table_depths) != 1:
                fail(f"{self.function.name}: nothing leads to {one.address:x}")
            self.reach(one.address, next(iter(self.table_depths)))
            self.drain()

    def drain(self):
        seen = set()
        while self.todo:
            address = self.todo.pop()
            if address not in seen:
                seen.add(address)
                self.follow(self.at[address], self.depths[address])

    def follow(self, place, depth):
        function, one = self.function, self.function.instructions[place]
        depth += moved(function, one)
        below = re.search(r"-0x([0-9a-f]+)\(%rsp", one.operands)
        function.peak = max(function.peak, depth + (int(below[1], 16) if below else 0))
        if one.name.startswith("ret"):
            if depth != 0:
                fail(f"{function.name}: returns at {one.address:x} with {depth} bytes on the stack")
            return
        if one.name.startswith("call"):
            function.calls.append((depth, callee(function, one, self.sections)))
        elif one.name.startswith("j"):
            if self.jump(one, depth):
                return
        elif one.name == "ud2":
            return
        self.reach(function.instructions[place + 1].address, depth)

    def jump(self, one, depth):
        """Notes where a jump leads; true if the next instruction is not reached by it."""
        if one.relocation:
            self.function.calls.append((depth, callee(self.function, one, self.sections)))
        elif one.target() is not None:
            self.reach(one.target(), depth)
        elif own_table(self.function, self.tables):
            self.table_depths.add(depth)
        else:
            fail(f"{self.function.name}: the jump at {one.address:x} goes through {one.operands}")
        return one.name == "jmp"


def depth_of(name, functions, above=()):
    """The worst depth of a call, its return address included, and the way to it."""
    if name in above:
        fail(f"recursion: {' > '.join(above + (name,))}")
    if name not in functions:
        if name not in LIBRARY:
            fail(f"{name} is not in the archive and its stack is not known")
        return RETURN_ADDRESS, (name,)
    function = functions[name]
    worst, way = function.peak, ()
    for depth, called in function.calls:
        below, path = depth_of(called, functions, above + (name,))
        if depth + below > worst:
            worst, way = depth + below, path
    return RETURN_ADDRESS + worst, (name,) + way


def reached(name, functions):
    found = {name} if name in functions else set()
    for _, called in functions[name].calls if name in functions else []:
        found |= reached(called, functions)
    return found


def section_sizes(archive):
    """Bytes of code, read-only data, data and bss over all members."""
    sizes = {".text": 0, ".rodata": 0, ".data": 0, ".bss": 0}
    for line in tool("objdump", "-h", archive).splitlines():
        parts = line.split()
        if len(parts) >= 7 and parts[0].isdigit():
            for kind in sizes:
                if parts[1] == kind or parts[1].startswith(kind + "."):
                    sizes[kind] += int(parts[2], 16)
    return sizes


def print_stack(exported, functions):
    print("| call | own frame, bytes | worst stack, bytes | deepest way |")
    print("|---|--:|--:|---|")
    worst = 0
    for name in exported:
        depth, way = depth_of(name, functions)
        worst = max(worst, depth)
        print(f"| `{name}` | {functions[name].peak} | {depth} | {' > '.join(f'`{step}`' for step in way)} |")
    verdict = "below" if worst < AIM else "**not** below"
    print(f"\nThe worst call needs {worst} bytes, {verdict} the aim of {AIM}. No recursion, no call through a pointer.")


def print_sizes(exported, functions, archive, baseline):
    print("| call | own code, bytes | with the functions it calls, bytes |")
    print("|---|--:|--:|")
    for name in exported:
        together = sum(functions[one].size for one in reached(name, functions))
        print(f"| `{name}` | {functions[name].size:,} | {together:,} |")
    for name in sorted(set(functions) - set(exported)):
        print(f"| `{name}`, shared | {functions[name].size:,} | {sum(functions[one].size for one in reached(name, functions)):,} |")
    print("\n| whole | code (.text) | read-only data (.rodata) | data (.data) | zeroed data (.bss) |")
    print("|---|--:|--:|--:|--:|")
    for title, file in (("archive", archive), ("the same rules in C", baseline)):
        if file:
            sizes = section_sizes(file)
            print(f"| {title} | {sizes['.text']:,} | {sizes['.rodata']:,} | {sizes['.data']:,} | {sizes['.bss']:,} |")


def main(arguments):
    if len(arguments) not in (1, 2) or arguments[0].startswith("-"):
        print(__doc__)
        sys.exit(0 if arguments[:1] == ["--help"] else 2)
    archive, baseline = arguments[0], arguments[1] if len(arguments) == 2 else None
    functions = read_functions(archive)
    sections = {function.section: function.name for function in functions.values()}
    tables = jump_tables(archive)
    for function in functions.values():
        Walk(function, sections, tables).follow_all()
    exported = sorted(name for name in functions if name.startswith("stled325_"))
    print("### Stack\n")
    print_stack(exported, functions)
    print("\n### Size\n")
    print_sizes(exported, functions, archive, baseline)


main(sys.argv[1:])
