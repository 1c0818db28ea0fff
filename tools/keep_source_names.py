#!/usr/bin/env python3
"""In the files that answer goals, gives the names of the source their underscores back: `c.sift-down` to `c.sift_down`.

usage: python3 tools/keep_source_names.py     once, at the top, after tools/respell.py

The toolchain names a step after the source, and once wrote a dash where the source has an underscore.
"""

import glob
import re

SOURCE = re.compile(r"\b[a-z]\w*_\w+\b")
TOKEN = re.compile(r"[A-Za-z_][\w'+-]*-[\w'+-]*")


def read(path):
    with open(path, encoding="utf-8") as f:
        return f.read()


def main():
    sources = glob.glob("crates/*/src/**/*.rt", recursive=True)
    names = {n for p in sources for n in SOURCE.findall(re.sub(r"//.*", "", read(p))) if n.strip("_").count("_")}
    dashed = {n.strip("_").replace("_", "-"): n for n in names}
    parts = re.compile(r"(?<![\w'])(" + "|".join(sorted(map(re.escape, dashed), key=len, reverse=True)) + r")(?![\w'])")
    for pattern in ("Answers", "Invariants"):
        for path in glob.glob(f"crates/*/proofs/**/{pattern}.antt", recursive=True):
            old = read(path)
            # library names that are imported keep their dashes
            library = set(re.findall(r"[\w'≤<-]+", " ".join(l for l in old.splitlines() if l.startswith("use Rattle.std"))))
            new = TOKEN.sub(lambda m: m[0] if m[0] in library else parts.sub(lambda p: dashed[p[0]], m[0]), old)
            if new != old:
                with open(path, "w", encoding="utf-8") as f:
                    f.write(new)


if __name__ == "__main__":
    main()
