"""Figures of a campaign's table, by matplotlib."""

from pathlib import Path
from typing import Any, Sequence

from ..errors import BadInput
from .advice import Advice, Found
from .curves import Curves, Lines, SHARES
from .intervals import Interval
from .measures import MEASURES

COLOURS = ("#2b8a5a", "#b03a48", "#5b7fa6", "#e6a23c", "#8a5fa8", "#666666", "#17a2b8", "#c2185b")
_MARKERS = "osD^vPX*"
# How far lines are drawn from one another, as a share of the width.
_APART = 0.008
_NAMES = {
    "exact": "pictures shown exactly",
    "spoilt": "pictures that came whole and were shown wrong",
    "psnr": "PSNR of Y, dB",
    "rate": "packets lost",
    "burst": "mean length of a loss, packets",
    "round_trip": "round trip, pictures",
    "recovery": "pictures until exact, mean",
    "longest": "longest run not exact, pictures",
    "reference": "distance of references, pictures",
    "bytes": "bytes a picture",
    "video": "video",
    "sender": "sender",
}


def _pyplot() -> Any:
    import matplotlib

    matplotlib.use("Agg")
    matplotlib.rcParams.update(
        {
            "svg.hashsalt": "campaign",
            "svg.fonttype": "none",
            "font.size": 9,
            "axes.spines.top": False,
            "axes.spines.right": False,
            "legend.frameon": False,
        }
    )
    from matplotlib import pyplot

    return pyplot


def _save(figure: Any, path: Path) -> None:
    metadata = {"Date": None} if path.suffix == ".svg" else {}
    try:
        figure.savefig(path, dpi=110, metadata=metadata)
    except ValueError as fault:
        raise BadInput(str(path), "its name", str(fault)) from None


def draw_curves(panels: dict[str, Lines], curves: Curves, path: Path) -> None:
    """Draws means with their 95 % intervals."""
    size = (max(3.3 * len(panels), 5.5), 3.6)
    figure, (axes,) = _pyplot().subplots(1, len(panels), figsize=size, sharey=True, squeeze=False)
    if _wants_powers(panels, curves.measure):
        axes[0].set_yscale("log")
        axes[0].yaxis.set_major_formatter("{x:g}")
    styles = _styles(panels)
    for axis, (name, lines) in zip(axes, panels.items()):
        axis.set_title(name, fontsize=9)
        _draw_lines(axis, lines, curves, styles)
    axes[0].set_ylabel(_NAMES.get(curves.measure, MEASURES.get(curves.measure, curves.measure)))
    _legend(figure, axes, styles)
    if curves.title:
        figure.suptitle(curves.title, fontsize=10)
    _save(figure, path)


def _styles(panels: dict[str, Lines]) -> dict[str, int]:
    names = dict.fromkeys(name for lines in panels.values() for name in lines)
    return {name: number for number, name in enumerate(names)}


def _draw_lines(axis: Any, lines: Lines, curves: Curves, styles: dict[str, int]) -> None:
    places = sorted({place for points in lines.values() for place in points})
    are_numbers = all(isinstance(it, (int, float)) for it in places)
    span = places[-1] - places[0] if are_numbers else 0
    for name, points in lines.items():
        style, found = styles[name], list(points.values())
        look: dict[str, object] = {"color": COLOURS[style % len(COLOURS)], "marker": _MARKERS[style % len(_MARKERS)]}
        # The first is seen below one that lies on it.
        look |= {"lw": 1.5, "markersize": 4} if style else {"lw": 4, "markersize": 8}
        # Side by side, so that none hides another.
        across = [it + (style - len(styles) / 2) * _APART * span for it in points] if span else list(points)
        halves = _halves(found, curves.measure in SHARES)
        means = [it.mean for it in found]
        axis.errorbar(across, means, halves, label=name, capsize=3, elinewidth=1.5, **look)
    if are_numbers:
        axis.set_xticks(places, [f"{100 * it if curves.by in SHARES else it:g}" for it in places])
    if curves.measure in SHARES:
        axis.yaxis.set_major_formatter(lambda value, _: f"{100 * value:g} %")
    axis.set_xlabel(_NAMES.get(curves.by, curves.by) + (", %" if curves.by in SHARES else ""))
    axis.grid(axis="y", color="#dddddd", lw=0.6)


def _wants_powers(panels: dict[str, Lines], measure: str) -> bool:
    """Whether means lie so far apart that a scale of powers shows them."""
    means = [it.mean for lines in panels.values() for points in lines.values() for it in points.values()]
    return measure not in SHARES and min(means) > 0 and max(means) > 30 * min(means)


def _halves(found: Sequence[Interval], is_share: bool) -> tuple[list[float], list[float]]:
    """How far each interval reaches down and up: none of one value, and none of a share beyond 0
    and 1."""
    halves = [it.half if it.count > 1 else 0.0 for it in found]
    if not is_share:
        return halves, halves
    down = [min(half, it.mean) for half, it in zip(halves, found)]
    return down, [min(half, 1 - it.mean) for half, it in zip(halves, found)]


def _legend(figure: Any, axes: Sequence[Any], styles: dict[str, int]) -> None:
    handles: dict[str, Any] = {}
    for axis in axes:
        for handle, label in zip(*axis.get_legend_handles_labels()):
            handles.setdefault(label, handle)
    columns = min(len(styles), max(2, len(axes)))
    rows = -(-len(styles) // columns)
    figure.tight_layout(rect=(0, 0.07 * rows, 1, 0.94))
    figure.legend(handles.values(), handles.keys(), loc="lower center", ncol=columns)


def draw_advice(advice: Advice, path: Path) -> None:
    """Each choice by its share of exact pictures against delay and bytes, with what is asked and
    what is advised."""
    figure, (left, right) = _pyplot().subplots(1, 2, figsize=(9, 4), sharey=True)
    asked = advice.asked
    for axis, name, place in (
        (left, "delay", lambda one: one.delay),
        (right, "bytes", lambda one: one.bytes),
    ):
        _scatter(axis, advice, place)
        if asked.exact is not None:
            axis.axhline(asked.exact, color="#888888", lw=1, ls="--")
        limit = getattr(asked, name)
        if limit is not None:
            axis.axvline(limit, color="#888888", lw=1, ls="--")
        axis.yaxis.set_major_formatter(lambda value, _: f"{100 * value:g} %")
        axis.grid(color="#dddddd", lw=0.6)
    left.set_ylabel("pictures shown exactly, worst network and video")
    left.set_xticks(sorted({one.delay for one in advice.found}))
    left.set_xlabel("delay from capture to screen, pictures")
    right.set_xlabel("bytes a picture")
    left.legend(loc="best")
    figure.suptitle(f"Asked (dashed): {asked.words()}", fontsize=10)
    figure.tight_layout()
    _save(figure, path)


def _scatter(axis: Any, advice: Advice, place: Any) -> None:
    def dots(many: Sequence[Found], colour: str, label: str, size: int) -> None:
        if many:
            halves = _halves([it.exact for it in many], True)
            where = [place(it) for it in many], [it.exact.mean for it in many]
            look: dict[str, object] = {"color": colour, "label": label, "markersize": size, "lw": 1, "capsize": 2}
            axis.errorbar(*where, halves, fmt="o", **look)

    picked = [it for it in (advice.best, advice.second) if it]
    rest = [it for it in advice.found if it not in picked]
    dots([it for it in rest if it.misses(advice.asked)], "#c8c8c8", "misses what is asked", 4)
    dots([it for it in rest if not it.misses(advice.asked)], "#5b7fa6", "meets it", 4)
    dots(picked[:1], "#2b8a5a", "advised", 10)
    dots(picked[1:], "#e6a23c", "runner-up", 5)
