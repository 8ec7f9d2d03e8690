#!/usr/bin/env python3
"""A room of three: browsers in three network namespaces at one bridge, where one loses 10 % of what comes and of what goes; who
comes in later, who goes, who is loaded anew. And what rooms of three and four look like."""

import os
import re
import subprocess
import tempfile
import time
import unittest
from pathlib import Path

from browsers import FAINT, UNNAMED, CallTest, Page
from rooms_tests import certificate, rooms

NAMES = ("Ada", "Bob", "Cleo")
HOSTS = ("192.0.2.6", "192.0.2.7", "192.0.2.8")
PORT = 8443
# Small pictures, ten a second: three browsers share a machine here.
CAMERA = "--use-fake-device-for-media-stream=fps=10"
SECONDS = int(os.environ.get("MEASURED", "40"))
# Milliseconds that a picture waits, so that a busy machine is in time.
WAIT = 400
COUNTS = r"(\w+): (\d+) pictures exact, (\d+) patched, (\d+) held"


def share(before: list[int], now: list[int]) -> float:
    """Of the pictures since then the share in a hundred that is exact."""
    exact, patched, held = (later - sooner for later, sooner in zip(now, before))
    return 100 * exact / max(exact + patched + held, 1)


class ThreeTest(CallTest):
    """Three network namespaces at a bridge, a server of rooms in the first one, and a browser in each."""

    def setUp(self) -> None:
        self.hub, *self.names = [f"room{os.getpid()}{letter}" for letter in "habc"]
        for name in (self.hub, *self.names):
            if subprocess.run(["ip", "netns", "add", name], capture_output=True).returncode:
                self.skipTest("no network namespaces can be had")
            self.addCleanup(subprocess.run, ["ip", "netns", "del", name])
        self.ip("-n", self.hub, "link", "add", "bridge", "type", "bridge")
        self.ip("-n", self.hub, "link", "set", "bridge", "up")
        for place, (name, host) in enumerate(zip(self.names, HOSTS)):
            self.ip(
                "link", "add", "way", "netns", name, "type", "veth", "peer", "name", f"to_{place}", "netns", self.hub
            )
            self.ip("-n", self.hub, "link", "set", f"to_{place}", "master", "bridge", "up")
            self.ip("-n", name, "addr", "add", f"{host}/24", "dev", "way")
            for it in ("way", "lo"):
                self.ip("-n", name, "link", "set", it, "up")
            self.ip("-n", name, "route", "add", "default", "via", "192.0.2.1")
        self.room = Path(self.enterContext(tempfile.TemporaryDirectory()))
        cert, key = certificate(self.room)
        words = ["--at", HOSTS[0], "--port", PORT, "--certificate", cert, "--key", key]
        self.address = self.enterContext(rooms(*words, within=self.names[0]))

    @staticmethod
    def ip(*words: str) -> None:
        subprocess.run(["ip", *words], check=True)

    def lose(self, place: int, percent: int) -> None:
        """From now on so much is lost of what comes to this one, and of what comes from it to the others."""
        for at, name in enumerate(self.names):
            source = [] if at == place else ["-s", HOSTS[place]]
            chance = (
                ["-m", "statistic", "--mode", "random", "--probability", str(percent / 100)] if percent < 100 else []
            )
            rule = ["INPUT", "-p", "udp", *source, *chance, "-j", "DROP"]
            for words in (["-F", "INPUT"], ["-A", *rule] if percent else []):
                if (
                    words
                    and subprocess.run(
                        ["ip", "netns", "exec", name, "iptables", *words], capture_output=True
                    ).returncode
                ):
                    self.skipTest("iptables isn't there")

    def page(self, place: int) -> Page:
        flags = ("--ignore-certificate-errors", "--use-fake-ui-for-media-stream", CAMERA, "--mute-audio")
        page = self.enterContext(Page(*flags, within=self.names[place], address=self.address, camera=False))
        page.until(lambda: page.text("state") == "Ready")
        page.run("document.getElementById('size').value = 'sub-qcif'")
        page.slide("wait", WAIT)
        page.run("document.getElementById('numbers').open = true")
        page.fill("room_name", NAMES[place])
        page.fill("room_word", "Blue  Kettle" if place else "blue kettle")
        page.press("room_enter")
        return page

    def until_others(self, page: Page, count: int) -> None:
        """Until pictures of so many others come."""
        page.until(lambda: page.run("return document.body.dataset.others") == str(count), 90)
        marks = "return [...document.querySelectorAll('figure.other:not([hidden]) .mark')].filter((it) => it.dataset.mark).length"
        page.until(lambda: page.run(marks) == count, 90)

    def shares(self, pages: list[Page]) -> list[dict[str, float]]:
        """For each page, of each other's pictures in some seconds the share in a hundred that is exact."""
        begun = [self.counts(page) for page in pages]
        time.sleep(SECONDS)
        ended = [self.counts(page) for page in pages]
        return [{name: share(before[name], now) for name, now in after.items()} for before, after in zip(begun, ended)]

    def counts(self, page: Page) -> dict[str, list[int]]:
        page.until(lambda: re.findall(COUNTS, page.text("figures")))
        return {name: [int(it) for it in counts] for name, *counts in re.findall(COUNTS, page.text("figures"))}

    def test_one_of_three_loses(self) -> None:
        pages = [self.page(place) for place in range(3)]
        ada, bob, cleo = pages
        ada.until(lambda: ada.text("room_here") == "Bob and Cleo are here.")
        ada.press("room_call")
        for page in (bob, cleo):
            page.until(lambda: page.text("room_caller") == "Ada calls you")
            page.press("room_accept")
        for page in pages:
            self.until_others(page, 2)
        # By who is connected first.
        self.assertIn(ada.text("state"), ("A call with Bob and Cleo", "A call with Cleo and Bob"))
        time.sleep(10)
        before = self.shares(pages)
        print(f"with no loss: {', '.join(re.findall(r'[0-9]+ kbit/s', page.text('figures'))[0] for page in pages)}")
        self.lose(2, 10)
        time.sleep(5)
        lossy = self.shares(pages)
        load = Path("/proc/loadavg").read_text().split()[0]
        for page, name, clean, lost in zip(pages, NAMES, before, lossy):
            told = ", ".join(f"{other} {clean[other]:.1f} and {lost[other]:.1f} %" for other in clean)
            print(f"{name} has exact, with no loss and where Cleo loses 10 %: {told}; {page.text('figures')}")
        print(f"at a load of {load}, {SECONDS} s each")
        for page, clean, lost, other in ((ada, before[0], lossy[0], "Bob"), (bob, before[1], lossy[1], "Ada")):
            self.assertGreaterEqual(lost[other], clean[other] - 1, f"of {other}")
            self.assertEqual(page.complaints(), [])
        ada.picture("three")

    def test_who_comes_and_goes(self) -> None:
        """A third one is let in by one of two, who keeps a record until then. It is loaded anew, goes without a word, and comes
        again; then one hangs up."""
        ada, bob = self.page(0), self.page(1)
        bob.run("document.getElementById('settings').open = true")
        bob.press("keep")
        ada.until(lambda: ada.text("room_here") == "Bob is here.")
        ada.press("room_call")
        bob.until(lambda: bob.text("room_caller") == "Ada calls you")
        bob.press("room_accept")
        for page in (ada, bob):
            self.until_others(page, 1)
        cleo = self.page(2)
        cleo.until(lambda: cleo.text("room_here") == "Ada and Bob are here.")
        cleo.press("room_call")
        bob.until(lambda: bob.text("knock_who") == "Cleo asks to come in")
        bob.picture("knock")
        bob.press("knock_accept")
        bob.until(lambda: bob.text("news").startswith("A record is of two alone: it ends here"))
        for page, others in ((ada, "Bob and Cleo"), (bob, "Ada and Cleo"), (cleo, None)):
            self.until_others(page, 2)
            if others:
                self.assertEqual(page.text("state"), f"A call with {others}")
            page.until(lambda: not page.driver.find_element("id", "knock").is_displayed())
        for page in (ada, bob, cleo):
            self.assert_digits(page)
        cleo.driver.refresh()
        cleo.until(lambda: cleo.text("state").startswith("A call with "))
        for page in (ada, bob, cleo):
            self.until_others(page, 2)
            page.until(lambda: not page.text("other_none") and not page.text("other_none_2"))
        self.lose(2, 100)
        for page in (ada, bob):
            page.until(lambda: "Cleo is gone for a moment." in page.text("other_none") + page.text("other_none_2"), 90)
        self.lose(2, 0)
        for page in (ada, bob, cleo):
            page.until(lambda: not page.text("other_none") and not page.text("other_none_2"), 90)
        cleo.press("hang_up")
        for page, other in ((ada, "Bob"), (bob, "Ada")):
            page.until(lambda: page.text("news") == "Cleo has hung up.")
            self.assertEqual(page.text("state"), f"A call with {other}")
        bob.press("hang_up")
        ada.until(lambda: ada.text("news").startswith("Bob has hung up. The call took "))
        bob.until(lambda: bob.text("save").startswith("Save the call’s record (tar, "))

    def assert_digits(self, page: Page) -> None:
        self.assertRegex(page.text("digits"), r"\w+ (\d{5} ){5}\d{5} · \w+ (\d{5} ){5}\d{5}\.$")


class LookTest(unittest.TestCase):
    """What a call with two and three others looks like, wide and light in English, small and dark in German."""

    def test_rooms_of_three_and_four(self) -> None:
        address = self.enterContext(rooms("--port", 0))
        pages = []
        for name, language in (("Ada", "de"), ("Bob", "en"), ("Cleo", "en"), ("Dan", "en")):
            page = self.enterContext(Page(address=address, language=language))
            page.until(lambda: page.driver.find_element("id", "room_enter").is_enabled())
            page.run("document.getElementById('size').value = 'sub-qcif'")
            page.fill("room_name", name)
            page.fill("room_word", "tea")
            pages.append(page)
        ada, bob, cleo, dan = pages
        ada.small()
        ada.dark()
        for page in (ada, bob, cleo):
            page.press("room_enter")
        ada.until(lambda: ada.text("room_here") == "Bob und Cleo sind da.")
        cleo.until(lambda: cleo.text("room_here") == "Ada and Bob are here.")
        cleo.press("room_call")
        for page in (ada, bob):
            page.press("room_accept")
        for page in (ada, bob, cleo):
            page.until(lambda: page.run("return document.body.dataset.others") == "2")
        time.sleep(4)
        self.looks((ada, bob), "three")
        dan.press("room_enter")
        dan.press("room_call")
        ada.until(lambda: ada.text("knock_who") == "Dan möchte herein")
        self.looks((ada, bob), "knock")
        ada.press("knock_accept")
        for page in pages:
            page.until(lambda: page.run("return document.body.dataset.others") == "3")
        time.sleep(4)
        self.looks((ada, bob), "four")
        ada.press("language")
        self.assertRegex(ada.text("state"), "^A call with (Bob|Cleo|Dan), (Bob|Cleo|Dan), and (Bob|Cleo|Dan)$")
        fifth = self.enterContext(Page(address=f"{address}#room=tea"))
        fifth.press("room_enter")
        fifth.until(lambda: fifth.text("room_told") == "Four are in that room already.")
        for page in pages:
            self.assertEqual([it for it in page.complaints() if "favicon" not in it], [])

    def looks(self, pages: tuple[Page, ...], name: str) -> None:
        for page, how in zip(pages, ("small", "wide")):
            page.picture(f"{name}_{how}")
            self.assertLessEqual(page.run("return document.documentElement.scrollWidth - innerWidth"), 0, how)
            self.assertEqual((page.run(FAINT), page.run(UNNAMED)), ([], []), how)


if __name__ == "__main__":
    unittest.main()
