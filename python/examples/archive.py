"""archive SHEET FILTER CARDS: the record numbers of the matching cards of a file of any size, and how many of how many match.

The list is held back until the last card has passed. The status is 0 where there is an answer, 2 where there is a refusal, and 3
where a file cannot be read.
"""

import sys
from pathlib import Path

from sirophan import Archive, Refused


def main(sheet: str, filter: str, cards: str) -> int:
    text = Path(filter).read_bytes()
    archive = Archive(cards, sheet)
    try:
        records = [record for _, record in archive.select(text[:-1] if text.endswith(b"\n") else text)]
    except Refused as refused:
        print(f"refused {refused.number} at {refused.place}")
        print(refused.sentence, file=sys.stderr)
        return 2
    for record in records:
        print(record)
    print(f"{len(records)} of {archive.cards_read}", flush=True)
    return 0


if __name__ == "__main__":
    if len(sys.argv) != 4:
        sys.exit("usage: archive SHEET FILTER CARDS")
    try:
        sys.exit(main(*sys.argv[1:]))
    except OSError as error:
        print(error, file=sys.stderr)
        sys.exit(3)
