"""Looks at every function of crates/*/src outside tests: a public one has an `ensures` and no `requires`,
no body is longer than 40 lines, and every library crate with a public function has a must-fail edit."""
import glob
import os
import re
import sys

HEAD = re.compile(r'^(\s*)(pub(?:\(crate\))? )?(?:const |unsafe |extern "C" )*fn (\w+)')
LONGEST = 40
# `main` and `fmt` take no contract; `drop` is not public.
FREE = {"main", "fmt"}


def functions(path):
    text = open(path, encoding="utf-8").read().split("#[cfg(test)]")[0]
    lines = text.splitlines()
    i = 0
    while i < len(lines):
        m = HEAD.match(lines[i])
        if not m or lines[i - 1].strip() == "#[test]":
            i += 1
            continue
        indent, public, name = m.groups()
        head = []
        while i < len(lines) and not lines[i].rstrip().endswith(("{", ";", "{}")):
            head.append(lines[i])
            i += 1
        head.append(lines[i])
        start = i
        if lines[i].rstrip().endswith("{"):
            while lines[i] != indent + "}":
                i += 1
        i += 1
        yield name, (public or "").strip(), "\n".join(head), i - start


def main():
    bad = []
    for path in sorted(glob.glob("crates/*/src/**/*.rt", recursive=True)):
        for name, public, head, size in functions(path):
            where = f"{path}: fn {name}"
            if public == "pub" and name not in FREE:
                if "ensures" not in head:
                    bad.append(f"{where} is public and ensures nothing")
                if re.search(r"^\s*requires", head, re.M):
                    bad.append(f"{where} is public and has a requires")
            if size > LONGEST:
                bad.append(f"{where} has {size} lines")
    for lib in sorted(glob.glob("crates/*/src/lib.rt")):
        crate = lib.split("/")[1]
        public = any(
            kind == "pub"
            for path in glob.glob(f"crates/{crate}/src/**/*.rt", recursive=True)
            for _, kind, _, _ in functions(path)
        )
        if public and not glob.glob(f"crates/{crate}/must-fail/*.edit"):
            bad.append(f"crates/{crate} has no must-fail edit")
    print("\n".join(bad) if bad else "contracts: every public function is pinned")
    return 1 if bad else 0


sys.exit(main())
