"""What is measured of a call (docs/LOSS.md, "The table")."""

from dataclasses import dataclass
from typing import Optional, Sequence

from ..report.picture_lines import Picture

# Each measure by its name, with what it counts.
MEASURES = {
    "exact": "share of pictures shown exactly as the sender has them",
    "patched": "share of pictures shown with a part patched",
    "held": "share of pictures of which nothing was shown",
    "longest": "most pictures in a row that weren't exact",
    "losses": "runs of pictures that weren't exact",
    "recovery": "pictures from a run's first to the next exact one, the mean",
    "spoilt": "share of pictures that came whole and weren't exact",
    "intra": "share of pictures sent without a reference",
    "reference": "distance of references in pictures, the mean",
    "farthest": "distance of references in pictures, the greatest",
    "bytes": "bytes of a picture's packets, RTP headers included, the mean",
    "packets_sent": "packets of a picture, the mean",
    "psnr": "PSNR of Y of what was shown against what was captured, in dB",
    "seconds": "processor time of the program's two ends, in seconds",
    "megabytes": "the most memory that an end of the program took, in MB",
}


@dataclass(frozen=True)
class Shown:
    """What became of one picture: its mark, and whether all of it came in time."""

    mark: str
    came_whole: bool


def marks_measured(shown: Sequence[Shown]) -> dict[str, Optional[float]]:
    """Shares of the marks, and the runs of pictures that aren't exact."""
    marks = [it.mark for it in shown]
    runs = runs_not_exact(marks)
    found: dict[str, Optional[float]] = {mark: marks.count(mark) / len(marks) for mark in ("exact", "patched", "held")}
    found["longest"] = max(runs, default=0)
    found["losses"] = len(runs)
    found["recovery"] = sum(runs) / len(runs) if runs else None
    spoilt = sum(it.came_whole and it.mark != "exact" for it in shown)
    found["spoilt"] = spoilt / len(shown)
    return found


def runs_not_exact(marks: Sequence[str]) -> list[int]:
    """The lengths of the runs of pictures that aren't exact; the last one may end with the call."""
    runs: list[int] = []
    was_exact = True
    for mark in marks:
        if mark == "exact":
            was_exact = True
            continue
        if was_exact:
            runs.append(0)
        runs[-1] += 1
        was_exact = False
    return runs


def references_measured(pictures: Sequence[Picture]) -> dict[str, Optional[float]]:
    """How far references lie back, and how many pictures have none."""
    back = [it.number - it.reference for it in pictures if it.reference is not None]
    return {
        "intra": sum(it.is_intra for it in pictures) / len(pictures),
        "reference": sum(back) / len(back) if back else None,
        "farthest": max(back, default=None),
    }
