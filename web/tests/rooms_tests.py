#!/usr/bin/env python3
"""Calls in the rooms of tools/rooms: two browsers in two network namespaces, as two people meet there; and the server by
itself, among pages and programs that mean it ill."""

import asyncio
import contextlib
import json
import random
import socket
import struct
import subprocess
import sys
import tempfile
import time
import unittest
import wave
from math import pi, sin
from pathlib import Path
from typing import Awaitable, Callable, Iterator

import aiohttp
from browsers import FAINT, PAGE, UNNAMED, NamespacesTest, Page

TOOLS = Path(__file__).resolve().parents[2] / "tools"
sys.path.insert(0, str(TOOLS))
from calltools.network import rooms as logic  # noqa: E402

ROOMS = TOOLS / "rooms"
# Opens a page's WebSocket.
Joining = Callable[..., "aiohttp.client._WSRequestContextManager"]
HOST, PORT = "192.0.2.6", 8443
# What either side's microphone hears, in hertz.
TONES = {"Ada": 440, "Bob": 660}
# The loudest frequency of what a page plays, over two seconds.
HEARD = """
const done = arguments[0];
const context = new AudioContext();
const analyser = new AnalyserNode(context, { fftSize: 16384, smoothingTimeConstant: 0 });
context.createMediaStreamSource(document.getElementById("sound").srcObject).connect(analyser);
const bins = new Float32Array(analyser.frequencyBinCount);
setTimeout(() => {
  analyser.getFloatFrequencyData(bins);
  const at = bins.reduce((best, level, place) => level > bins[best] ? place : best, 0);
  done([at * context.sampleRate / analyser.fftSize, bins[at], document.getElementById("sound").paused]);
  context.close();
}, 2000);
"""
# Instead of a camera and a microphone: each second a white picture and a tone begin at the same moment, for 0.4 s.
FLASHES = """
navigator.mediaDevices.getUserMedia = async () => {
  const canvas = Object.assign(document.createElement("canvas"), { width: 352, height: 288 });
  const pen = canvas.getContext("2d");
  const context = new AudioContext();
  const out = new MediaStreamAudioDestinationNode(context);
  const volume = new GainNode(context, { gain: 0 });
  const source = new OscillatorNode(context, { frequency: 880 });
  source.connect(volume).connect(out);
  source.start();
  setInterval(() => {
    const isOn = Date.now() % 1000 < 400;
    volume.gain.value = isOn ? 0.8 : 0;
    pen.fillStyle = isOn ? "#fff" : "#000";
    pen.fillRect(0, 0, 352, 288);
  }, 20);
  return new MediaStream([...canvas.captureStream(30).getTracks(), ...out.stream.getTracks()]);
};
"""
# When picture and sound begin, at the side that shows them: milliseconds by which sound comes later, one a second.
LIPS = """
const done = arguments[0];
const canvas = new OffscreenCanvas(8, 8).getContext("2d", { willReadFrequently: true });
const context = new AudioContext();
const analyser = new AnalyserNode(context, { fftSize: 256, smoothingTimeConstant: 0 });
context.createMediaStreamSource(document.getElementById("sound").srcObject).connect(analyser);
const samples = new Float32Array(256);
const begun = { picture: [], sound: [] };
const was = { picture: true, sound: true };
const note = (kind, isOn) => {
  if (isOn && !was[kind] && performance.now() - (begun[kind].at(-1) ?? 0) > 500) begun[kind].push(performance.now());
  was[kind] = isOn;
};
let ticks = 0;
const timer = setInterval(() => {
  ticks++;
  canvas.drawImage(document.getElementById("other"), 0, 0, 8, 8);
  note("picture", canvas.getImageData(4, 4, 1, 1).data[0] > 128);
  analyser.getFloatTimeDomainData(samples);
  note("sound", Math.max(...samples) > 0.05);
}, 10);
setTimeout(() => {
  clearInterval(timer);
  context.close();
  const nearest = (at) => begun.sound.map((other) => other - at).sort((a, b) => Math.abs(a) - Math.abs(b))[0];
  done([begun.picture.map(nearest).filter((it) => it !== undefined), ticks]);
}, 12000);
"""


def certificate(room: Path) -> tuple[Path, Path]:
    """A certificate that nobody signed, and its key."""
    cert, key = room / "cert.pem", room / "key.pem"
    words = ["-newkey", "ec", "-pkeyopt", "ec_paramgen_curve:prime256v1", "-nodes", "-days", "2", "-subj", "/CN=rooms"]
    subprocess.run(["openssl", "req", "-x509", *words, "-keyout", key, "-out", cert], check=True, capture_output=True)
    return cert, key


def tone(path: Path, hertz: int) -> str:
    """A file of a tone, ten seconds of it."""
    with wave.open(str(path), "wb") as file:
        file.setparams((1, 2, 48_000, 0, "NONE", ""))
        one = b"".join(struct.pack("<h", round(12_000 * sin(2 * pi * hertz * at / 48_000))) for at in range(48_000))
        file.writeframes(10 * one)
    return str(path)


@contextlib.contextmanager
def rooms(*words: object, within: str = "") -> Iterator[str]:
    """The server of rooms; its address, as it says it."""
    before = ["ip", "netns", "exec", within] if within else []
    command = [*before, ROOMS, "--page", PAGE, *map(str, words)]
    with subprocess.Popen(command, stdout=subprocess.PIPE, text=True) as server:
        try:
            yield server.stdout.readline().split()[-1]
        finally:
            server.terminate()


class RoomTest(NamespacesTest):
    """A server in the first namespace, and a browser in each."""

    def setUp(self) -> None:
        super().setUp()
        self.room = Path(self.enterContext(tempfile.TemporaryDirectory()))
        cert, key = certificate(self.room)
        words = ["--at", HOST, "--port", PORT, "--certificate", cert, "--key", key]
        self.address = self.enterContext(rooms(*words, within=self.names[0]))

    def page(self, name: str, place: int, *flags: str) -> Page:
        words = ["--ignore-certificate-errors", *flags]
        page = self.enterContext(Page(*words, within=self.names[place], address=self.address))
        page.until(lambda: page.text("state") == "Ready")
        page.fill("room_name", name)
        page.fill("room_word", "Blue  Kettle" if place else "blue kettle")
        page.press("room_enter")
        return page

    def two(self, *flags: str) -> tuple[Page, Page]:
        made = []
        for place, (name, hertz) in enumerate(TONES.items()):
            heard = tone(self.room / f"{name}.wav", hertz)
            made.append(self.page(name, place, *(flags or (f"--use-file-for-fake-audio-capture={heard}",))))
        ada, bob = made
        ada.until(lambda: ada.text("room_here") == "Bob is here.")
        return ada, bob

    def call(self, caller: Page, callee: Page, name: str) -> None:
        caller.press("room_call")
        callee.until(lambda: callee.text("room_caller") == f"{name} calls you")
        callee.press("room_accept")
        for page in (caller, callee):
            page.begun()

    def test_a_call_in_a_room(self) -> None:
        ada, bob = self.two()
        bob.picture("room_in")
        self.call(ada, bob, "Ada")
        self.lose()
        for page in (ada, bob):
            page.run("document.getElementById('numbers').open = true")
        time.sleep(14)
        for page, other in ((ada, "Bob"), (bob, "Ada")):
            print(f"in a room, 5 % lost: {page.text('share')}; {page.text('figures')}")
            self.assertEqual(page.text("state"), f"A call with {other}")
            self.assert_share(page, 90)
            hertz, level, is_paused = page.driver.execute_async_script(HEARD)
            print(f"heard: {hertz:.0f} Hz at {level:.0f} dB")
            self.assertLess(abs(hertz - TONES[other]), 8)
            self.assertFalse(is_paused)
        self.assertEqual(ada.text("digits"), bob.text("digits"))
        ada.picture("room_call")
        self.reload(bob, ada)
        self.reload(ada, bob)
        self.assertEqual(ada.text("digits"), bob.text("digits"))
        bob.press("hang_up")
        ada.until(lambda: ada.text("news").startswith("Bob has hung up. The call took "))
        self.assertRegex(bob.text("news"), r"^The call took \d+ s")
        self.refuse(ada, bob)

    def reload(self, page: Page, other: Page) -> None:
        """A side that is loaded anew is in its call again, by itself."""
        page.driver.refresh()
        page.until(lambda: page.text("state").startswith("A call with "))
        for one in (page, other):
            one.until(lambda: one.text("other_none") == "" and one.text("share").startswith("exact"))

    def refuse(self, ada: Page, bob: Page) -> None:
        """Declined, cancelled, the room left, and a call after all that."""
        ada.press("room_call")
        bob.until(lambda: bob.text("room_caller") == "Ada calls you")
        bob.picture("room_rings")
        bob.press("room_decline")
        ada.until(lambda: ada.text("room_told") == "Bob declined.")
        bob.press("room_call")
        ada.until(lambda: ada.text("room_caller") == "Bob calls you")
        bob.press("room_cancel")
        ada.until(lambda: ada.text("room_told") == "Bob no longer calls.")
        bob.press("room_leave")
        ada.until(lambda: ada.text("room_here") == "Nobody else is here yet.")
        bob.press("room_enter")
        self.call(bob, ada, "Bob")
        ada.press("hang_up")
        bob.until(lambda: bob.text("news").startswith("Ada has hung up."))

    def test_lips(self) -> None:
        ada, bob = self.two("--mute-audio")
        for page in (ada, bob):
            page.driver.execute_cdp_cmd("Page.addScriptToEvaluateOnNewDocument", {"source": FLASHES})
            page.driver.refresh()
            page.until(lambda: page.driver.find_element("id", "room_call").is_enabled())
            page.run("document.getElementById('size').value = 'sub-qcif'")
        self.call(ada, bob, "Ada")
        time.sleep(8)
        for page in (ada, bob):
            late, ticks = page.driver.execute_async_script(LIPS)
            late.sort()
            print(f"sound after picture, ms: {[round(it) for it in late]}, looked at {ticks} times in 12 s")
            if ticks < 900:
                print("the machine is too busy to tell")
                continue
            self.assertGreaterEqual(len(late), 6)
            self.assertLess(abs(late[len(late) // 2]), 80)


class LookTest(unittest.TestCase):
    """What a room looks like, on localhost over http, and on a small screen."""

    def test_small_dark_and_german(self) -> None:
        address = self.enterContext(rooms("--port", 0))
        pages = []
        for name, language in (("Ada", "de"), ("Bob", "en")):
            page = self.enterContext(Page(address=address, language=language))
            page.until(lambda: page.driver.find_element("id", "room_enter").is_enabled())
            pages.append(page)
        ada, bob = pages
        ada.small()
        ada.dark()
        self.looks(ada, "room_small")
        for page, name in ((ada, "Ada"), (bob, "")):
            page.press("room_enter")
            page.until(
                lambda: page.text("room_told")
                in ("Put in a word for the room first.", "Geben Sie zuerst ein Wort für den Raum ein.")
            )
            page.fill("room_name", name)
            page.fill("room_word", "tea")
            page.press("room_enter")
        ada.until(lambda: ada.text("room_here") == "Jemand ist da.")
        self.looks(ada, "room_small_in")
        self.assertEqual((bob.run(FAINT), bob.run(UNNAMED)), ([], []))
        bob.press("room_call")
        ada.until(lambda: ada.text("room_caller") == "Jemand ruft an")
        self.looks(ada, "room_small_rings")
        ada.press("language")
        ada.press("room_accept")
        for page in pages:
            page.begun()
        self.looks(ada, "room_small_call")
        ada.press("hang_up")
        for page in pages:
            self.assertEqual([it for it in page.complaints() if "favicon" not in it], [])

    def looks(self, page: Page, name: str) -> None:
        page.picture(name)
        self.assertEqual(page.run("return document.documentElement.scrollWidth - innerWidth"), 0)
        self.assertEqual((page.run(FAINT), page.run(UNNAMED)), ([], []))


class ServerTest(unittest.TestCase):
    """The server alone, asked by a program that may say anything."""

    def setUp(self) -> None:
        self.address = self.enterContext(rooms("--port", 0))
        self.port = int(self.address.split(":")[2].strip("/"))

    def ask(self, head: str) -> bytes:
        """The first bytes of the answer to a request."""
        with socket.create_connection(("127.0.0.1", self.port), 10) as net:
            net.sendall(head.replace("\n", "\r\n").encode())
            net.settimeout(10)
            return net.recv(4096)

    def run_pages(self, act: Callable[[Joining], Awaitable[None]]) -> None:
        async def run() -> None:
            async with aiohttp.ClientSession() as session:
                await act(
                    lambda **words: session.ws_connect(f"{self.address}rooms", **{"origin": self.address[:-1], **words})
                )

        asyncio.run(asyncio.wait_for(run(), 120))

    async def is_shut_out(self, page: aiohttp.ClientWebSocketResponse) -> int:
        """Until the server closes a page; its code."""
        while True:
            told = await page.receive(timeout=30)
            if told.type in (aiohttp.WSMsgType.CLOSE, aiohttp.WSMsgType.CLOSED, aiohttp.WSMsgType.ERROR):
                return page.close_code or 0

    def test_the_page_is_framed_nowhere(self) -> None:
        told = self.ask(f"GET / HTTP/1.1\nHost: localhost:{self.port}\nConnection: close\n\n")
        for head in (b"200 OK", b"X-Frame-Options: DENY", b"frame-ancestors 'none'", b"nosniff", b"no-store"):
            self.assertIn(head, told)

    def test_strangers_are_refused(self) -> None:
        """Another name that leads here, another page, another path, another method, a body."""
        own, upgrade = (
            f"Host: localhost:{self.port}\n",
            "Upgrade: websocket\nConnection: Upgrade\nSec-WebSocket-Version: 13\nSec-WebSocket-Key: AAAAAAAAAAAAAAAAAAAAAA==\n",
        )
        for head, wanted in [
            ("GET / HTTP/1.1\nHost: evil.example\n\n", b"403"),
            ("GET / HTTP/1.1\nHost: localhost:1\n\n", b"403"),
            (f"GET / HTTP/1.1\nHost: localhost:{self.port}@evil\n\n", b"40"),
            ("GET / HTTP/1.1\n\n", b"40"),
            (f"GET /rooms HTTP/1.1\n{own}{upgrade}\n", b"403"),
            (f"GET /rooms HTTP/1.1\n{own}{upgrade}Origin: null\n\n", b"403"),
            (f"GET /rooms HTTP/1.1\n{own}{upgrade}Origin: http://evil.example\n\n", b"403"),
            (f"GET /rooms HTTP/1.1\n{own}{upgrade}Origin: https://localhost:{self.port}\n\n", b"403"),
            (f"GET /../tools/rooms HTTP/1.1\n{own}\n", b"404"),
            (f"POST / HTTP/1.1\n{own}Content-Length: 0\n\n", b"405"),
            (f"GET /rooms HTTP/1.1\n{own}Origin: http://localhost:{self.port}\n\n", b"400"),
            ("\0" * 64 + "\n\n", b"400"),
            (f"GET / HTTP/1.1\n{own}X: {'a' * 70_000}\n\n", b"400"),
        ]:
            self.assertIn(wanted, self.ask(head)[:16], head[:60])

    def test_wrong_words_shut_a_page_out(self) -> None:
        """16 MB, one letter too many, wrong fields, no JSON, no text: each ends its own page, and no other one."""
        enter = {"is": "enter", "room": "a", "name": "b", "key": ""}
        wrong = [
            "x" * (1 << 24),
            "x" * 16_385,
            "",
            "[]",
            "5",
            "null",
            "{",
            "[" * 10_000,
            json.dumps({**enter, "room": "a" * 41}),
            json.dumps({**enter, "more": "x"}),
            json.dumps({**enter, "name": 5}),
            json.dumps({"is": "enter"}),
            json.dumps({**enter, "key": "x" * 65}),
            json.dumps({"is": "bye"}),
            json.dumps({"is": []}),
            json.dumps({"is": "decline"}),
            json.dumps({"is": "offer", "to": "", "sdp": "x" * 12_001, "proof": ""}),
            json.dumps({"is": "decline", "to": "x" * 17}),
            json.dumps({"is": "offer", "to": "", "sdp": "", "proof": "x" * 65}),
            json.dumps({"is": "offer", "sdp": "", "proof": ""}),
            json.dumps({"is": "candidate", "to": "", "candidate": "x" * 601, "mid": ""}),
        ]

        async def act(join: Joining) -> None:
            async with join() as true_one:
                await true_one.send_json({**enter, "room": "true"})
                self.assertEqual(await true_one.receive_json(), {"is": "entered"})
                for text in wrong:
                    async with join() as page:
                        with contextlib.suppress(aiohttp.ClientError):
                            await page.send_str(text)
                        self.assertIn(await self.is_shut_out(page), (1006, 1008, 1009), text[:60])
                async with join() as page:
                    await page.send_bytes(b"x")
                    self.assertEqual(await self.is_shut_out(page), 1008)
                async with join() as page:
                    await page.send_json({**enter, "room": "TRUE ", "key": "another"})
                    self.assertEqual([(await page.receive_json())["is"] for _ in range(2)], ["entered", "came"])
                self.assertEqual((await true_one.receive_json())["is"], "came")
                self.assertEqual((await true_one.receive_json())["is"], "left")

        self.run_pages(act)

    async def enters(self, page: aiohttp.ClientWebSocketResponse, name: str, key: str = "") -> dict[str, str]:
        """A page goes into the room r, by its name as its key; what it is told first."""
        await page.send_json({"is": "enter", "room": "r", "name": name, "key": key or name})
        return dict(await page.receive_json())

    def test_a_fifth_one_and_what_is_handed_on(self) -> None:
        """Words go to the one page that they are for, and from whom they say; nobody else's number can be had."""

        async def act(join: Joining) -> None:
            async with contextlib.AsyncExitStack() as stack:
                pages = [await stack.enter_async_context(join()) for _ in range(5)]
                numbers = [logic.number_of(name) for name in "abcde"]
                for place, (page, name) in enumerate(zip(pages, "abcde")):
                    self.assertEqual(await self.enters(page, name), {"is": "full" if name == "e" else "entered"})
                    for other in range(min(place, 4) if place < 4 else 0):
                        self.assertEqual(
                            await page.receive_json(), {"is": "came", "name": "abcd"[other], "from": numbers[other]}
                        )
                        self.assertEqual(
                            await pages[other].receive_json(), {"is": "came", "name": name, "from": numbers[place]}
                        )
                for page, name in ((pages[4], "e"), (pages[1], "b"), (pages[2], "c")):
                    for to in (numbers[0], numbers[3], numbers[4], "nobody"):
                        await page.send_json({"is": "offer", "to": to, "sdp": f"of {name}", "proof": ""})
                for page in (pages[0], pages[3]):
                    for name in "bc":
                        told = {"is": "offer", "from": logic.number_of(name), "sdp": f"of {name}", "proof": ""}
                        self.assertEqual(await page.receive_json(), told)

        self.run_pages(act)

    def test_one_that_comes_back(self) -> None:
        """By its key a page has its number again, also before its old line is known to be gone, and another page never has."""

        async def act(join: Joining) -> None:
            async with join() as one, join() as old, join() as new, join() as thief:
                self.assertEqual(
                    [(await self.enters(page, name))["is"] for page, name in ((one, "a"), (old, "b"))], ["entered"] * 2
                )
                came = {"is": "came", "name": "b", "from": logic.number_of("b")}
                self.assertEqual((await one.receive_json(), (await old.receive_json())["is"]), (came, "came"))
                self.assertEqual((await self.enters(new, "b"))["is"], "entered")
                self.assertEqual(
                    [await one.receive_json() for _ in range(2)], [{"is": "left", "from": came["from"]}, came]
                )
                await self.enters(thief, "b", came["from"])
                self.assertNotEqual((await one.receive_json())["from"], came["from"])
                await old.send_json({"is": "cancel", "to": logic.number_of("a")})
                await new.send_json({"is": "decline", "to": logic.number_of("a")})
                self.assertEqual(await one.receive_json(), {"is": "decline", "from": came["from"]})

        self.run_pages(act)

    def test_too_many_and_too_fast(self) -> None:
        """A page that says too much is shut out; 600 connections that say nothing shut out no call; idle ones are closed."""

        async def act(join: Joining) -> None:
            async with join() as page, contextlib.AsyncExitStack() as idle:
                await self.enters(page, "a")
                async with join() as fast:
                    # It may be shut out before it has said all.
                    with contextlib.suppress(ConnectionResetError):
                        for _ in range(400):
                            await fast.send_json({"is": "decline", "to": ""})
                    self.assertEqual(await self.is_shut_out(fast), 4008)
                socks = [socket.create_connection(("127.0.0.1", self.port)) for _ in range(600)]
                for one in socks:
                    idle.callback(one.close)
                async with join() as silent, join() as late:
                    self.assertEqual((await self.enters(late, "b"))["is"], "entered")
                    self.assertEqual((await page.receive_json())["is"], "came")
                    self.assertEqual(await self.is_shut_out(silent), 1008)

        self.run_pages(act)

    def test_rooms_have_an_end(self) -> None:
        """Without a socket: so many rooms and no more, and none is left after its last page."""
        found = logic.Rooms(most=3)
        told: list[list[dict[str, str]]] = [[] for _ in range(5)]
        members = [logic.Member(one.append) for one in told]
        for number, member in enumerate(members):
            found.take(member, {"is": "enter", "room": str(number), "name": "", "key": ""})
        self.assertEqual([one[0]["is"] for one in told], 3 * ["entered"] + 2 * ["no room"])
        for member in members:
            found.leave(member)
        self.assertEqual(len(found), 0)

    def test_any_words(self) -> None:
        """100,000 texts, words of which a piece is changed: each is read or refused, and nothing else happens."""
        chance = random.Random(5)
        true_ones = [
            json.dumps(words)
            for words in (
                {"is": "enter", "room": "a", "name": "b", "key": "c"},
                {"is": "offer", "to": "1", "sdp": "v=0", "proof": ""},
                {"is": "candidate", "to": "1", "candidate": "candidate:1 1 udp 1 192.0.2.7 9 typ host", "mid": "0"},
                {"is": "leave"},
            )
        ]
        parts = [
            "{",
            "}",
            '"is"',
            ":",
            '"',
            ",",
            "1",
            "[",
            "]",
            "null",
            "\\ud800",
            "x",
            "",
            "\\",
            "1e999",
            '"name":"x",',
            "\0",
        ]
        read = 0
        for _ in range(100_000):
            text = chance.choice(true_ones)
            at = chance.randint(0, len(text))
            text = text[:at] + chance.choice(parts) + text[at + chance.randint(0, 3) :]
            try:
                logic.read_words(text)
                read += 1
            except logic.Refused:
                pass
        print(f"{read} of 100,000 changed texts were words")


if __name__ == "__main__":
    unittest.main()
