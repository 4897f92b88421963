"""What compacted journals left out: the door has given more answers than such a journal has records.

`compacted.jsonl` in the door's own folder has a line for each compacted journal that was put in place, as `auditor compact`
printed it. Without its line such a journal can't be told from an older copy, and the door stops.
"""
import json

from .transcript import Damaged

NAME = "compacted.jsonl"


def left_out(keep):
    """How many of the answers that were given are in no record of the journal any more."""
    path = keep / NAME
    if not path.exists():
        return 0
    lines = path.read_bytes().splitlines()
    return sum(_of_line(line, number) for number, line in enumerate(lines, 1) if line.strip())


def _of_line(line, number):
    try:
        counts = json.loads(line)
        records, kept = counts["records"], counts["kept"]
        if type(records) is type(kept) is int and 0 <= kept <= records:
            return records - kept
    except (ValueError, KeyError, TypeError):
        pass
    raise Damaged(f"{NAME}, line {number}: not a line as auditor compact prints it, such as {{\"records\":2,\"kept\":1}}")
