#!/usr/bin/env python3
"""The page among people who mean it ill: a stranger's link, a description that points elsewhere, junk at 20,000 a second,
long words. Each is refused, or survived. tools/rooms has its own attackers in rooms_tests.py."""

import contextlib
import socket
import time
import unittest
from pathlib import Path
from typing import Iterator

from browsers import Page

EVIL = Path(__file__).with_name("evil.html")
BAD = "That is no code of a call, or not all of it. Copy it once more."
HEAP = "return performance.memory.usedJSHeapSize / 1e6"


def own_address() -> str:
    """An address of this machine that isn't loopback."""
    with socket.socket(socket.AF_INET, socket.SOCK_DGRAM) as net:
        net.connect(("192.0.2.1", 9))
        return str(net.getsockname()[0])


def came(net: socket.socket) -> list[bytes]:
    """What has come by now."""
    net.setblocking(False)
    found = []
    with contextlib.suppress(BlockingIOError):
        while True:
            found.append(net.recv(2048))
    return found


def way(host: str, port: int, number: int = 1) -> str:
    return f"a=candidate:{number} 1 udp {2_000_000_000 - number} {host} {port} typ host generation 0"


@contextlib.contextmanager
def rung(*more: str) -> Iterator[tuple[Page, Page]]:
    """The page, which a stranger's link rings, and the stranger; these lines stand in the stranger's description."""
    with Page(address=EVIL.as_uri()) as eve, Page() as page:
        code = eve.driver.execute_async_script("offer(arguments[0]).then(arguments[1])", list(more))
        link = f"{page.driver.current_url}#call={code}"
        page.driver.get("about:blank")
        page.driver.get(link)
        page.until(lambda: page.text("caller") == "Eve calls you")
        yield page, eve


@contextlib.contextmanager
def called() -> Iterator[tuple[Page, Page]]:
    """A call with the stranger."""
    with rung() as (page, eve):
        page.press("accept")
        page.until(lambda: page.value("answer"))
        eve.driver.execute_async_script("accept(arguments[0]).then(arguments[1])", page.value("answer"))
        page.until(lambda: page.text("state") == "A call with Eve")
        yield page, eve


class AttackedTest(unittest.TestCase):
    def test_a_stranger_s_link_and_one_that_points_elsewhere(self) -> None:
        """A link rings, and sends nothing by itself. Answered, loopback and multicast are asked nothing, a machine of the
        network gets STUN alone, and few of it."""
        with socket.socket(socket.AF_INET, socket.SOCK_DGRAM) as loop, socket.socket(
            socket.AF_INET, socket.SOCK_DGRAM
        ) as other:
            try:
                host = own_address()
            except OSError:
                self.skipTest("this machine has no address but loopback")
            loop.bind(("127.0.0.1", 0))
            other.bind((host, 0))
            lines = [way("127.0.0.1", loop.getsockname()[1], n) for n in range(50)] + [
                way(host, other.getsockname()[1], 60)
            ]
            with rung(*lines, way("224.0.0.251", 5353, 61), way("169.254.169.254", 80, 62)) as (page, _):
                time.sleep(4)
                self.assertEqual((came(loop), came(other)), ([], []))
                page.press("accept")
                page.until(lambda: page.value("answer"))
                time.sleep(10)
                asked = came(other)
                self.assertEqual(came(loop), [])
                print(f"a machine that a stranger named got {len(asked)} datagrams in 10 s")
                self.assertLess(len(asked), 300)
                self.assertTrue(all(it[:2] == b"\0\1" and it[4:8] == b"\x21\x12\xa4\x42" for it in asked))
                page.run("document.querySelector('#someone_answered [data-cancel]').click()")
                time.sleep(2)
                came(other)
                time.sleep(3)
                self.assertEqual(came(other), [])

    def test_descriptions_of_something_else(self) -> None:
        """More media, no encryption, nothing at all: no call."""
        for more in (
            ["m=video 9 UDP/TLS/RTP/SAVPF 96", "c=IN IP4 0.0.0.0"],
            ["m=application 9 UDP/DTLS/SCTP webrtc-datachannel"],
        ):
            with rung(*more) as (page, _):
                page.press("accept")
                page.until(lambda: page.text("someone_told") == BAD)
                self.assertEqual(page.run("return document.body.dataset.state"), "ready")

    def test_junk_at_20_000_a_second(self) -> None:
        """The stranger is cut off, and the page says so, stays as small as it was, and calls again."""
        with called() as (page, eve):
            before = page.run(HEAP)
            eve.run("flood(20000)")
            begin = time.monotonic()
            page.until(lambda: page.text("news").startswith("Eve sent far more than a call has, and was cut off."))
            print(f"cut off after {time.monotonic() - begin:.1f} s; {before:.0f} MB before, {page.run(HEAP):.0f} now")
            self.assertLess(page.run(HEAP) - before, 60)
            self.assertEqual((page.text("fault"), page.text("state")), ("", "Ready"))
            page.call_yourself()

    def test_junk_beside_a_call(self) -> None:
        """Some 150 datagrams of junk a second don't end a call, and none is shown."""
        with called() as (page, eve):
            eve.run("flood(150)")
            time.sleep(10)
            self.assertEqual((page.text("state"), page.text("fault"), page.complaints()), ("A call with Eve", "", []))

    def test_long_words_and_many(self) -> None:
        with called() as (page, eve):
            eve.run("babble()")
            page.until(lambda: page.text("news").startswith("Eve sent far more than a call has, and was cut off."))
            self.assertEqual((page.text("fault"), page.complaints()), ("", []))


if __name__ == "__main__":
    unittest.main()
