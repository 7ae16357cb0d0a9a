#!/usr/bin/env python3
"""Checks that each definition that docs/GLOSSARY.md names stands in the file that it names.

Prints those that don't, with status 1. Usage: scripts/glossary.py [TOP OF THE REPOSITORY]
"""

import re
import sys
from pathlib import Path

TOP = Path(sys.argv[1] if len(sys.argv) > 1 else Path(__file__).resolve().parent.parent)


def main():
    text = " ".join((TOP / "docs" / "GLOSSARY.md").read_text().split())
    missing = []
    for names, files in re.findall(r"((?:`\w+`, )*`\w+`) in ((?:`\w+/\w+`, )*`\w+/\w+`)", text):
        places = [place.split("/") for place in files.strip("`").split("`, `")]
        paths = [TOP / "crates" / crate / "specs" / f"{module}.antt" for crate, module in places]
        source = "\n".join(path.read_text() for path in paths if path.is_file())
        for name in names.strip("`").split("`, `"):
            if not re.search(rf"^\s*(?:abbrev|unfoldable|record|data|pub)\b[^:=(]*\b{name}\b", source, re.M):
                missing.append(f"{name} in {files}")
    print("".join(line + "\n" for line in missing), end="", file=sys.stderr)
    return 1 if missing else 0


if __name__ == "__main__":
    sys.exit(main())
