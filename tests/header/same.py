#!/usr/bin/env python3
"""Has include/jettyfig.rs every constant of include/jettyfig.h, with its value?"""
import pathlib
import re
import sys

INCLUDE = pathlib.Path(__file__).resolve().parents[2] / "include"
SIZES = (0, 1, 4095, 4096)
NOT_IN_RUST = {"H"}


def value(expression, n):
    """what a constant's right side comes to"""
    return eval(expression.replace("(size_t)", ""), {"n": n})


def of_header(text):
    """name and values, for each of SIZES where it takes a number of characters"""
    text = re.sub(r"/\*.*?\*/", "", text, flags=re.S)
    found = {name: [int(number)] for name, number in re.findall(r"JETTYFIG_(\w+) = (\d+)", text)}
    for name, argument, right in re.findall(r"(?m)^#define JETTYFIG_(\w+)(\(n\))?(.*)$", text):
        if name not in NOT_IN_RUST:
            found[name] = [value(right.strip(), n) for n in (SIZES if argument else (0,))]
    return found


def of_rust(text):
    found = {name: [value(right, 0)] for name, right in re.findall(r"pub const (\w+): [&\w]+ = (.*);", text)}
    for name, right in re.findall(r"pub const fn (\w+)\(n: usize\) -> usize \{\s*(.*?)\s*\}", text):
        found[name.upper()] = [value(right, n) for n in SIZES]
    body = re.search(r"pub enum Refusal \{(.*?)\}", text, re.S).group(1)
    arms = dict(re.findall(r"(\d+) => Refusal::(\w+),", text))
    for name, number in re.findall(r"(\w+) = (\d+),", body):
        if arms.pop(number, None) == name:
            found["REFUSED_" + re.sub(r"(?<!^)(?=[A-Z])", "_", name).upper()] = [int(number)]
    if arms:
        sys.exit("jettyfig.rs: from_number knows %s, which the enum does not" % arms)
    return found


header = of_header((INCLUDE / "jettyfig.h").read_text(encoding="utf-8"))
rust = of_rust((INCLUDE / "jettyfig.rs").read_text(encoding="utf-8"))
wrong = sorted(name for name in header.keys() | rust.keys() if header.get(name) != rust.get(name))
for name in wrong:
    print("%s: %s in jettyfig.h, %s in jettyfig.rs" % (name, header.get(name), rust.get(name)))
print("%d constants, %d differ" % (len(header), len(wrong)))
sys.exit(1 if wrong or not header else 0)
