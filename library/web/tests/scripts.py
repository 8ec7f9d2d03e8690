#!/usr/bin/env python3
"""scripts.py FOLDER: writes scripts of calls, which run.py carries out on the native library and run.mjs on the module.

A script has a step a line:

    sender {..}, receiver {..}   begins an end with these parameters; a receiver also at `number`
    video PATH                   the next frames are this file's, from its first one again after its last
    code K ..                    codes the next frame, with messages K .. of those that were said so far
    hear P.I, hear P.*           the receiver takes packet I, or all, of picture P
    changed DRAW EDIT ..         it takes packet DRAW of the picture that was coded last, after edits: f:N flips bit N of
                                 it, h:N one of its first sixteen bytes, c:N cuts it to N bytes, a:HEX appends bytes
    bytes HEX                    it takes these bytes
    play                         the receiver plays
    session {..}                 begins a session with these parameters, a rate and a wait
    arrive P.I SSRC TICKS NOW    packet I, or all, of picture P come to it then, with another SSRC and time; it plays what is
                                 due, and one that is ahead comes again
    garble DRAW SSRC TICKS NOW EDIT ..
                                 likewise packet DRAW of the picture that was coded last, after edits
    datagram NOW HEX             these bytes come to it
    only SSRC                    from now on it takes this stream alone; with 0 any
    turn NOW                     it plays what is due
    ask TRIP NOW                 it asks for what is missing and could come within so many nanoseconds
    bye SSRC NOW, anew NOW       a stream has ended; it begins anew
    back K, last K, reply HEX    the sender takes message K of those said, or the one that was said K before the last, or
                                 these bytes
    target N, forget, reset N    steers the sender; a reset begins both anew

A number that is greater than what there is counts again from 0, so a script needs to know nothing of the packets.
"""

import json
import random
import sys
from pathlib import Path

TOP = Path(__file__).resolve().parents[3]
NETWORKS = ("no_loss", "burst", "late_ack", "out_of_order")
CHANGED = 100_000


def ends(**params: object) -> list[str]:
    return [f"{end} {json.dumps(params)}" for end in ("sender", "receiver")]


def of_trace(name: str, **params: object) -> list[str]:
    """A call over a trace of examples/."""
    steps = {"S": "code", "P": "play", "D": "hear", "B": "back"}
    lines = (TOP / f"examples/{name}.trace").read_text().splitlines()
    made = [f"{steps[line[0]]}{line[1:]}" for line in lines if line and line[0] in steps]
    return [*ends(format="sub-qcif", **params), f"video {TOP}/examples/video.y4m", *made]


def of_log(name: str) -> list[str]:
    """A receiver's log of examples/: packets and plays."""
    data, at, made = (TOP / "examples" / name).read_bytes(), 0, []
    while at < len(data):
        size = int.from_bytes(data[at + 1 : at + 3], "big")
        body = data[at + 3 : at + 3 + size]
        made.append(f"bytes {body.hex()}" if data[at : at + 1] == b"K" else "play")
        at += 3 + size
    return [*ends(format="sub-qcif"), *made]


def lossy(draws: random.Random, video: str, pictures: int, **params: object) -> list[str]:
    """A call that loses and reorders packets and messages; some messages go in headers, and the sender is steered."""
    made = [*ends(**params), f"video {video}"]
    for number in range(pictures):
        in_header = draws.sample(range(64), draws.choice([0, 0, 1, 4]))
        made.append(" ".join(["code", *map(str, in_header)]))
        packets = [f"hear {number}.{place}" for place in range(12) if draws.random() > 0.06]
        draws.shuffle(packets)
        made += packets if number % 5 else [f"hear {number}.*"]
        made.append("play")
        made += [f"last {draws.choice([0, 0, 0, 1, 2, 9])}" for _ in range(3) if draws.random() > 0.1]
        if draws.random() < 0.05:
            made.append(
                draws.choice(["forget", f"target {draws.choice([0, 900, 6000])}", f"hear {max(number - 3, 0)}.0"])
            )
    return [*made, "reset 1800", "code", "hear 0.*", "play"]


def edit(draws: random.Random) -> str:
    kind = draws.choices("fhca", [12, 2, 1, 1])[0]
    return f"{kind}:{draws.randbytes(draws.randrange(1, 9)).hex() if kind == 'a' else draws.randrange(1 << 20)}"


def changed(draws: random.Random, video: str, count: int, **params: object) -> list[str]:
    """A call in which most packets come changed, before they come as they were sent."""
    made, number = [*ends(**params), f"video {video}"], 0
    while count:
        made.append("code")
        for _ in range(min(count, 160)):
            edits = " ".join(edit(draws) for _ in range(draws.choice([1, 1, 2, 4])))
            made.append(f"changed {draws.randrange(1 << 16)} {edits}")
            count -= 1
        made += [
            f"bytes {draws.randbytes(draws.randrange(200)).hex()}",
            f"reply {draws.randbytes(draws.randrange(6)).hex()}",
        ]
        made += [f"hear {number}.*", "play", "last 0"]
        number += 1
    return made


SECOND, TICKS = 10**9, 90_000
OWN, OTHER = 0x48323633, 0xABCDEF


class SessionScript:
    """Steps of a session, each at its time."""

    def __init__(self, draws: random.Random, **params: object) -> None:
        self.draws, self.params = draws, params
        self.steps: list[tuple[float, int, str]] = []

    def at(self, time: float, step: str) -> None:
        self.steps.append((time, len(self.steps), step.replace("NOW", str(round(SECOND * time)))))

    def stream(
        self, begin: float, end: float, rate: float, first: int, source: int = OWN, loss: float = 0.0, **more: float
    ) -> int:
        """Pictures from this number on, whose way gets longer by `step` in the middle, and whose packets jitter."""
        number, draws = first, self.draws
        for number in range(first, first + int((end - begin) * rate)):
            captured = begin + (number - first) / rate
            way = 0.03 + (more.get("step", 0.0) if captured > (begin + end) / 2 else 0.0)
            self.at(captured, "code")
            for place in range(5):
                when = captured + way + more.get("jitter", 0.0) * draws.random()
                if draws.random() < loss:
                    if draws.random() >= more.get("again", 0.0):
                        continue
                    # It comes again after it was asked for.
                    when += 0.05
                ahead = more.get("ahead", 0.0) * (draws.random() < 0.02)
                self.at(when, f"arrive {number}.{place} {source} {round(TICKS * (captured + ahead))} NOW")
                if "again" in more:
                    self.at(when, f"ask {draws.choice([0, 20_000_000, 2**64 - 1])} NOW")
            if draws.random() >= loss:
                self.at(captured + way + 0.03, "last 0")
        return number + 1

    def junk(self, begin: float, end: float, count: int) -> None:
        """Changed packets, of three streams and of any time, and bytes of chance."""
        for _ in range(count):
            time = self.draws.uniform(begin, end)
            source, ticks = self.draws.choice([OWN, OWN, OTHER, 5]), self.draws.choice(
                [time, time + 1.5, self.draws.uniform(0, 40_000)]
            )
            edits = " ".join(edit(self.draws) for _ in range(self.draws.choice([1, 2, 4])))
            self.at(time, f"garble {self.draws.randrange(1 << 16)} {source} {round(TICKS * ticks) % 2**32} NOW {edits}")
            self.at(time, f"datagram NOW {self.draws.randbytes(self.draws.randrange(60)).hex()}")

    def text(self, video: str, rate: int, second: int, wait: float, **sender: object) -> list[str]:
        timing = {"rate": rate, "second": second, "wait": round(SECOND * wait)}
        begun = [
            f"sender {json.dumps(self.params | sender)}",
            f"session {json.dumps(self.params | timing)}",
            f"video {video}",
        ]
        end = max(time for time, _, _ in self.steps)
        turns = [(0.013 * n, -1, f"turn {round(SECOND * 0.013 * n)}") for n in range(int((end + 2) / 0.013))]
        return begun + [step for _, _, step in sorted(self.steps + turns)]


def sessions(draws: random.Random, folder: Path) -> dict[str, list[str]]:
    """Calls in made time."""
    made = {}
    few = {"format": "sub-qcif", "slots": 24, "lead": 12}
    for name, rate, second, wait, more in [
        ("few_and_longer", 5, 1, 0.1, {"step": 0.22}),
        ("lost_and_longer", 30000, 1001, 0.1, {"step": 0.22, "loss": 0.3}),
        ("lost_and_again", 30000, 1001, 0.1, {"loss": 0.2, "again": 0.8, "jitter": 0.02}),
        ("ahead", 30000, 1001, 0.1, {"ahead": 1.9}),
        ("jitter", 25, 1, 0.06, {"jitter": 0.2, "loss": 0.05}),
        ("no_wait", 10, 1, 0.0, {"step": 0.25, "jitter": 0.01}),
    ]:
        script = SessionScript(draws, **few)
        script.stream(1.0, 13.0, rate / second, 0, **more)
        made[f"session_{name}"] = script.text(f"{folder}/sub-qcif.y4m", rate, second, wait, quant=12)
    for format in ("sub-qcif", "qcif", "cif"):
        for clock in (0, 1):
            script = SessionScript(draws, format=format, clock=clock, messages=1 + clock, slots=20, lead=6)
            number = script.stream(100.0, 102.0, 30.0, 0, loss=0.05, jitter=0.1)
            # Two streams, one after the other and side by side, a silence after which the run begins anew, and junk.
            number = script.stream(102.0, 103.2, 30.0, number, OTHER)
            script.at(103.15, f"bye {OTHER} NOW")
            number = script.stream(103.2, 104.0, 30.0, number, jitter=0.1, again=0.5, loss=0.1)
            script.at(103.7, f"only {OWN}")
            script.at(104.0, "only 0")
            script.at(146.0, "anew NOW")
            number = script.stream(145.0, 146.5, 30.0, number, OTHER, loss=0.1)
            words = {"quant": 10, "limit": 1200}
            script.at(146.55, f"sender {json.dumps(script.params | words)}")
            script.stream(146.6, 147.6, 30.0, number)
            script.junk(100.1, 147.5, 1_500)
            made[f"session_{format}_{'custom' if clock else 'standard'}"] = script.text(
                f"{folder}/{format}.y4m", 30, 1, 0.1, **words
            )
    return made


def main(folder: Path) -> None:
    scripts = {f"examples_{name}": of_trace(name, quant=8, limit=1400) for name in NETWORKS}
    scripts |= {f"examples_{name}_fine": of_trace(name, quant=3, limit=1200) for name in NETWORKS}
    scripts["examples_recv"] = of_log("recv.log")
    draws = random.Random(263)
    for format in ("sub-qcif", "qcif", "cif"):
        for clock in (0, 1):
            words = {"format": format, "clock": clock, "messages": 1 + clock}
            video = f"{folder}/{format}.y4m"
            name = f"{format}_{'custom' if clock else 'standard'}"
            scripts[f"lossy_{name}"] = lossy(draws, video, 60, target=0 if clock else 3000, slots=20, lead=5, **words)
            scripts[f"changed_{name}"] = changed(draws, video, CHANGED // 6 + 1, quant=12, limit=1200, **words)
    scripts |= sessions(draws, folder)
    for name, steps in scripts.items():
        (folder / f"{name}.script").write_text("\n".join(steps) + "\n")


if __name__ == "__main__":
    main(Path(sys.argv[1]))
