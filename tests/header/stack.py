#!/usr/bin/env python3
"""How much stack can a call take? Follows the stack pointer through the library's machine code, whatever the inputs, along each
chain of calls, and compares the deepest with JETTYFIG_STACK, and that of a text of few characters with JETTYFIG_SHORT_STACK. Fails
too where that can't be told: on recursion, on a call through a pointer, where the stack pointer is set otherwise than by a constant
or two ways meet at different depths, and on a call of anything but three functions of the C library.

usage: stack.py LIBRARY"""
import pathlib
import re
import subprocess
import sys

ROOT = pathlib.Path(__file__).resolve().parents[2]
HEADER = ROOT / "include" / "jettyfig.h"
OBJDUMP = [ROOT / "tests" / "x86_64", "objdump", "-dr", "--no-show-raw-insn"]
ENTRY = "jettyfig_romanize"
# the function that has the arrays, once for each size; a call with a text of few characters doesn't enter the larger one
ARRAYS = re.compile(r"jettyfig::respond::<=(\d+),=\d+>$")
# what the C library's functions may take: little themselves, but where they are bound at their first call the dynamic linker
# runs there, with all vector registers saved (3,144 bytes with AVX-512)
OUTSIDE = {"memcpy": 4096, "memmove": 4096, "memset": 4096}
WORD, PAGE = 8, 4096


def functions(listing):
    """for each function its instructions: address, operation, operands, and what is called or jumped to, where that is another function"""
    found, name = {}, None
    for line in listing.split("\n"):
        start = re.match(r"[0-9a-f]+ <(.*)>:$", line)
        instruction = re.match(r" *([0-9a-f]+):\t(\S+) *(.*)$", line)
        if start:
            name = start.group(1)
            found[name] = []
        elif instruction and name:
            found[name].append([int(instruction.group(1), 16), *instruction.group(2, 3), None])
        elif "R_X86_64_PLT32" in line:
            called = re.search(r"R_X86_64_PLT32\t(?:\.text\.)?(.*)-0x0*4$", line)
            if not called:
                sys.exit("%s: a call into the midst of something: %s" % (name, line.strip()))
            found[name][-1][3] = called.group(1)
    return found


def probed(name, code):
    """a frame of several pages is taken in steps of a page at most, each touched, in a loop up to where %r11 points: the same code with one
    `sub` of all these steps in its place"""
    for i in range(len(code) - 5):
        (_, one, to, _), (_, two, by, _), (loop, *page, _), (_, *touch, _), (_, *end, _), (_, back, where, _) = code[i:i + 6]
        size = re.match(r"\$(0x[0-9a-f]+),%r11$", by)
        if (one, to, two, back) != ("mov", "%rsp,%r11", "sub", "jne") or not size or int(where.split()[0], 16) != loop:
            continue
        step = re.match(r"\$(0x[0-9a-f]+),%rsp$", page[1])
        step = int(step.group(1), 16) if step and page[0] == "sub" else 0
        whole = 0 < step <= PAGE and int(size.group(1), 16) % step == 0
        if not whole or [touch, end] != [["movq", "$0x0,(%rsp)"], ["cmp", "%r11,%rsp"]]:
            sys.exit("%s: a loop over pages that is not understood" % name)
        for k in range(i, i + 6):
            code[k][1:3] = "nop", ""
        code[i][1:3] = "sub", "$%s,%%rsp" % size.group(1)
    return code


def moved(name, operation, operands):
    """by how many bytes an instruction deepens the stack"""
    if operation.startswith("push"):
        return WORD
    if operation.startswith("pop"):
        return -WORD
    if not operands.endswith(",%rsp") or operation in ("cmp", "test"):
        return 0
    by = re.match(r"\$(0x[0-9a-f]+),", operands)
    if operation not in ("sub", "add") or not by:
        sys.exit("%s: a stack pointer that is no constant: %s %s" % (name, operation, operands))
    number = int(by.group(1), 16)
    number -= (number >> 63) << 64
    return number if operation == "sub" else -number


def walk(name, code):
    """a function's own depth, its return address in it, and each function that it calls with the depth there"""
    places = {instruction[0]: i for i, instruction in enumerate(code)}
    depths, deepest, calls, by_table = [None] * len(code), WORD, [], set()
    ways = [(0, WORD)]
    while ways:
        i, depth = ways.pop()
        while True:
            if i == len(code):
                sys.exit("%s runs past its end" % name)
            if depths[i] is not None:
                if depths[i] != depth:
                    sys.exit("%s: two depths at %x" % (name, code[i][0]))
                break
            depths[i] = depth
            _, operation, operands, other = code[i]
            depth += moved(name, operation, operands)
            deepest = max(deepest, depth)
            if operation.startswith("call"):
                if not other:
                    sys.exit("%s: a call of what is not named: %s" % (name, operands))
                calls.append((other, depth))
            elif operation.startswith("ret") or operation == "ud2":
                break
            elif operation == "jmp" and other:
                calls.append((other, depth - WORD))
                break
            elif operation == "jmp" and operands.startswith("*"):
                if depth == WORD:
                    sys.exit("%s: a jump that may leave it: %s" % (name, operands))
                by_table.add(depth)
                break
            elif operation.startswith("j"):
                to = places[int(operands.split()[0], 16)]
                if operation == "jmp":
                    i = to
                    continue
                ways.append((to, depth))
            i += 1
        # what no way has reached is entered by a table of jumps; if it had another depth, two ways would meet
        left = next((i for i, depth in enumerate(depths) if depth is None and not code[i][1].startswith("nop")), None)
        if not ways and left is not None and by_table:
            if len(by_table) > 1:
                sys.exit("%s: tables of jumps at different depths" % name)
            ways.append((left, *by_table))
    return deepest, calls


def deepest(walked, name, above=()):
    """bytes of the deepest chain of calls from a function on, and the chain, with the depth of each"""
    if name in above:
        sys.exit("recursion: " + ", ".join(above + (name,)))
    if name in OUTSIDE:
        return OUTSIDE[name], [(name, OUTSIDE[name])]
    if name not in walked:
        sys.exit("%s is called, and is not in the library" % name)
    own, calls = walked[name]
    chains = [(own, [(name, own)])]
    for other, depth in calls:
        below, chain = deepest(walked, other, above + (name,))
        chains.append((depth + below, [(name, depth), *chain]))
    return max(chains)


def told(walked, macro, left_out):
    """says the deepest chain of calls without some functions, and whether it passes what the header states"""
    kept = {name: (depth, [call for call in calls if call[0] not in left_out]) for name, (depth, calls) in walked.items()}
    own = {name: (depth, [call for call in calls if call[0] not in OUTSIDE]) for name, (depth, calls) in kept.items()}
    depth, chain = deepest(own, ENTRY)
    print("%d bytes of stack in the library's own frames: %s" % (depth, ", ".join("%s %d" % part for part in chain)))
    depth, chain = deepest(kept, ENTRY)
    stated = int(re.search(r"#define %s (\d+)" % macro, HEADER.read_text(encoding="utf-8")).group(1))
    print("%d with what it calls (%s); %s is %d" % (depth, ", ".join(name for name, _ in chain), macro, stated))
    return depth > stated


def main(library):
    listing = subprocess.run([*OBJDUMP, library], capture_output=True, text=True, check=True).stdout
    walked = {name: walk(name, probed(name, code)) for name, code in functions(listing).items()}
    sizes = sorted((int(ARRAYS.match(name).group(1)), name) for name in walked if ARRAYS.match(name))
    if len(sizes) != 2:
        sys.exit("%d functions have the arrays, and not one for each size: one that is compiled into what calls it makes short texts take as "
                 "much stack as long ones" % len(sizes))
    wrong = told(walked, "JETTYFIG_STACK", ())
    return told(walked, "JETTYFIG_SHORT_STACK", (sizes[1][1],)) or wrong



if __name__ == "__main__":
    sys.exit(main(sys.argv[1]))
