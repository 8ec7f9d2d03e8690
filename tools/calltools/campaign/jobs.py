"""The calls of a plan: each is a job, which names its program, video and trace by their hashes."""

import io
import json
import random
from dataclasses import asdict, dataclass
from functools import cache
from pathlib import Path
from typing import Any, Iterator, Optional, cast

from .. import lone_ends, made_video, y4m
from ..network import captured, loss
from ..errors import BadInput
from ..report.trace import Drawn, Fates, Network as Timing, trace_of_fates
from ..report.traced_way import PERIOD
from . import plan as plans
from .content import Store, hash_of
from .jitter import BoundedJitter

# Counts up when a measure changes its meaning, so that rows of both don't mix.
EDITION = 1
LABELS = (
    "video",
    "network",
    "sender",
    "every",
    "draw",
    "pictures",
    "loss",
    "rate",
    "burst",
    "to_bad",
    "to_good",
    "lost_in_good",
    "lost_in_bad",
    "packets",
    "delay",
    "jitter",
    "delay_ms",
    "deviation_ms",
    "hold",
    "back",
    "round_trip",
    *plans.OPTIONS,
)


@dataclass(frozen=True)
class Job:
    """One call: what tells it from others, and the hashes of what it is run on."""

    plan: str
    labels: dict[str, Any]
    options: dict[str, str]
    measures: tuple[str, ...]
    program: str
    video: str
    trace: str

    @property
    def key(self) -> str:
        """The hash of all that tells it from others, the plan's name apart."""
        told = {**asdict(self), "plan": "", "edition": EDITION}
        return hash_of(json.dumps(told, sort_keys=True).encode())


class Jobs:
    """Makes the jobs of a plan, and puts what they name into a store."""

    def __init__(self, plan: plans.Plan, program: Path, store: Store) -> None:
        self._plan, self._store = plan, store
        self._name = hash_of(plan.text.encode())[:12]
        self._program = store.put(program.read_bytes())

    def all(self) -> list[Job]:
        """Every call once, draw by draw, so that what is done by an early end tells of all."""
        found: dict[str, Job] = {}
        for draw in range(1, self._plan.draws + 1):
            for video in self._plan.videos:
                name, pictures, form = self._video(video)
                for job in self._of_video(draw, video.name, name, pictures, form):
                    found.setdefault(job.key, job)
        return list(found.values())

    @cache
    def _video(self, video: plans.Video) -> tuple[str, int, str]:
        # Its hash, how many pictures are sent, and its format.
        data = self._video_bytes(video)
        raw = cast(io.RawIOBase, io.BytesIO(data))
        reader = y4m.Y4mReader(io.BufferedReader(raw), video.name)
        form = y4m.format_of(reader.size, str(video.file or video.name))
        count = sum(1 for _ in reader)
        wanted = self._plan.pictures or count
        if count < max(wanted, 2):
            raise BadInput(
                self._plan.path,
                f"video {video.name}",
                f"{wanted} pictures are asked for, and it has {count}",
            )
        return self._store.put(data), wanted, form

    def _video_bytes(self, video: plans.Video) -> bytes:
        if video.file:
            return video.file.read_bytes()
        size = y4m.Size(*y4m.FORMATS[video.made["format"]])
        out = io.BytesIO()
        y4m.write_head(out, size)
        count = self._plan.pictures or 60
        for frame in made_video.frames(size, count, video.made["noise"], video.made["seed"], video.made["step"]):
            y4m.write_frame(out, frame)
        return out.getvalue()

    def _of_video(self, draw: int, label: str, video: str, pictures: int, form: str) -> Iterator[Job]:
        for network in self._plan.networks:
            if draw > 1 and not network.is_drawn():
                continue
            for sender in self._plan.senders:
                for options in self._plan.options:
                    lines, told = self._trace(network, sender, options, draw, pictures)
                    labels = {
                        **dict.fromkeys(LABELS),
                        "video": label,
                        "draw": draw,
                        **told,
                        **options,
                    }
                    labels |= {"sender": sender.kind, "every": sender.every, "loss": network.kind}
                    given = {"format": form, **{key: str(value) for key, value in options.items()}}
                    yield Job(self._name, labels, given, self._plan.measures, self._program, video, lines)

    def _trace(
        self,
        network: plans.Network,
        sender: plans.Sender,
        options: dict[str, Any],
        draw: int,
        pictures: int,
    ) -> tuple[str, dict[str, Any]]:
        """The trace's hash, and the labels that tell of the network."""
        hears = sender.kind == "acknowledged"
        labels: dict[str, Any] = {"network": network.name, "pictures": pictures}
        if network.kind == "trace":
            lines = self._file_lines(network.file, pictures)
            labels["pictures"] = lines.count("S")
        else:
            timing = self._timing(network, options["lead"])
            lines = self._drawn_lines(network, timing, draw, pictures)
            labels |= {key: value for key, value in network.values.items() if key in LABELS}
            labels |= {"packets": timing.packets, "delay": timing.delay, "hold": timing.hold}
            if hears:
                labels |= {
                    "back": timing.back,
                    "round_trip": timing.delay + timing.hold + timing.back + 1,
                }
        if not hears:
            labels["back"] = None
            lines = [line for line in lines if not line.startswith("B")]
        return self._store.put("".join(line + "\n" for line in lines).encode()), labels

    def _file_lines(self, path: Optional[Path], pictures: int) -> list[str]:
        assert path
        lines = lone_ends.read_trace(path)
        sent = lines.count("S")
        if not 0 < sent <= pictures:
            raise BadInput(str(path), "its end", f"it sends {sent} pictures, and the video has {pictures}")
        if sent != lines.count("P"):
            raise BadInput(str(path), "its end", "it doesn't show each picture that it sends")
        return lines

    @cache
    def _drawn_lines(self, network: plans.Network, timing: Timing, draw: int, pictures: int) -> list[str]:
        return list(self._drawn(network, timing, draw, pictures))

    def _drawn(self, network: plans.Network, timing: Timing, draw: int, pictures: int) -> Iterator[str]:
        if network.kind == "capture":
            heard = self._heard(network)
            skip = captured.seeded_skip(heard, draw)
            fates: Fates = captured.Recorded(heard, timing.delay, skip)
            return trace_of_fates(pictures, timing, fates, captured.RecordedMessages(heard))
        forth, back = (self._losses(network, f"{way} {draw}") for way in ("packets", "messages"))
        late = random.Random(f"delays {draw}")
        if "delay_ms" in network.values or "deviation_ms" in network.values:
            delay = float(network.values.get("delay_ms", 0)) / 1_000 / PERIOD
            fates = BoundedJitter(forth, delay, float(network.values.get("deviation_ms", 0)) / 1_000 / PERIOD, late)
        else:
            fates = Drawn(forth, timing.delay, timing.jitter, late)
        return trace_of_fates(pictures, timing, fates, back)

    def _timing(self, network: plans.Network, lead: int) -> Timing:
        """Its times in pictures. Where the plan says no hold, packets may be as late as the lead."""
        values = network.values
        delay = values.get("delay", int(float(values.get("delay_ms", 0)) / 1_000 / PERIOD))
        packets = values.get("packets", 1)
        if network.kind == "capture" and "packets" not in values:
            packets = captured.packets_a_picture(self._heard(network))
        return Timing(packets, delay, values.get("jitter", 0), values.get("hold", lead), values.get("back", 0))

    @cache
    def _heard(self, network: plans.Network) -> list[captured.Heard]:
        assert network.file
        chosen = {key: network.values.get(key) for key in ("port", "ssrc", "clock")}
        return captured.heard_in(network.file, chosen["port"] or 5004, chosen["ssrc"], chosen["clock"])

    def _losses(self, network: plans.Network, seed: str) -> loss.Losses:
        draws, values = random.Random(seed), network.values
        if network.kind == "gilbert":
            return loss.GilbertElliott(values["rate"], values["burst"], draws)
        if network.kind == "independent":
            return loss.Independent(values["rate"], draws)
        if network.kind == "elliott":
            changes, shares = (values["to_bad"], values["to_good"]), (values["lost_in_good"], values["lost_in_bad"])
            return loss.Elliott(*changes, *shares, draws)
        return loss.Pattern(self._pattern(network.file), draws)

    @cache
    def _pattern(self, path: Path) -> list[bool]:
        return loss.read_pattern(path)
