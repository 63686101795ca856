"""Compares what is said in two places: the sentences of README's table and the library's, the parts of files that docs/INTERFACES.md shows and
the files, and the version in each language. The last line is 'N passed, M failed'.
"""

import re
import sys
from pathlib import Path

import sirophan

passed = 0
failed = 0


def expect(what: str, holds: bool) -> None:
    global passed, failed
    if holds:
        passed += 1
    else:
        failed += 1
        print(f"failed: {what}")


def refusals() -> None:
    rows = re.findall(r"^\| (\d+) \| (.+?) \|", Path("README.md").read_text(encoding="utf-8"), re.MULTILINE)
    for number, told in rows:
        expect(f"README's sentence of {number}", told.replace("`", "") == sirophan.sentence(int(number)))
    expect("README's table has all refusals", sorted(int(number) for number, _ in rows) == sorted(sirophan.Reason))


def parts() -> None:
    page = Path("docs/INTERFACES.md").read_text(encoding="utf-8")
    shown = re.findall(r"^From `(\S+)`:\n\n((?:    .*\n|\n)+)", page, re.MULTILINE)
    for name, block in shown:
        part = re.sub(r"^    ", "", block.strip("\n") + "\n", flags=re.MULTILINE)
        expect(f"docs/INTERFACES.md shows what is in {name}", part in Path(name).read_text(encoding="utf-8"))
    expect("docs/INTERFACES.md shows a part for each language", len(shown) >= 4)


def versions() -> None:
    for name in ("rust/Cargo.toml", "python/pyproject.toml"):
        found = re.search(r'^version = "(.*)"$', Path(name).read_text(), re.MULTILINE)
        expect(f"the version of {name}", found is not None and found.group(1) == sirophan.__version__)


refusals()
parts()
versions()
print(f"{passed} passed, {failed} failed")
sys.exit(failed > 0)
