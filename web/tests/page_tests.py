#!/usr/bin/env python3
"""The telephone in Chromium, as a person meets it: from a file, with Chromium's own made camera and microphone."""

import base64
import json
import os
import re
import tempfile
import time
import unittest
import zlib
from pathlib import Path

from browsers import FAINT, PAGE, UNNAMED, CallTest, NamespacesTest, Page, call_by_link
from selenium import webdriver
from selenium.webdriver.common.keys import Keys


def code_of(**said: object) -> str:
    """A code that says anything."""
    packer = zlib.compressobj(wbits=-15)
    packed = packer.compress(json.dumps(said).encode()) + packer.flush()
    return base64.urlsafe_b64encode(packed).decode().rstrip("=")


# A browser whose memories have 32 bits alone takes no module that asks for more.
NO_LONG_MEMORY = (
    "WebAssembly.validate = () => false; WebAssembly.Memory = class { constructor() { throw new TypeError(); } };"
)


class PageTest(CallTest):
    def test_a_call_over_a_bad_network(self) -> None:
        with Page() as page:
            page.picture("ready")
            page.call_yourself()
            page.run("document.getElementById('numbers').open = true")
            time.sleep(15)
            figures = page.text("figures")
            print(f"5 % lost: {page.text('share')}; {figures}")
            page.picture("call")
            self.assert_share(page, 94)
            self.assertEqual(page.text("fault"), "")
            self.assertRegex(figures, r"[1-9]\d* packets of sound")
            self.assertEqual(
                page.run("return document.getElementById('other_frame').dataset.mark") in ("exact", "patched", "held"),
                True,
            )
            page.slide("loss", 0)
            page.slide("jitter", 0)
            time.sleep(14)
            print(f"none lost: {page.text('share')}")
            self.assert_share(page, 97)
            # Another wait begins the session anew: of the last ten seconds' pictures few are lost by it.
            page.slide("wait", 200)
            time.sleep(12)
            self.assertRegex(page.text("figures"), r"^Camera to screen (2[3-9]|3\d)\d ms")
            print(f"a wait of 200 ms: {page.text('share')}; {page.text('figures')}")
            self.assert_share(page, 97)
            page.slide("loss", 40)
            time.sleep(12)
            print(f"40 % lost: {page.text('share')}; {page.text('figures')}")
            self.assertLess(page.share(), 97)
            page.press("hang_up")
            self.assertRegex(page.text("news"), r"^The call took \d+ s; of 100 pictures \d+ were exact\.$")
            page.call_yourself()
            self.assertEqual(page.complaints(), [])

    def test_an_ordinary_coder_beside_it(self) -> None:
        """At 10 % of loss its picture stands still again and again; with none it moves."""
        with Page() as page:
            page.slide("loss", 10)
            page.call_yourself()
            page.press("beside")
            page.run("document.getElementById('numbers').open = true")
            time.sleep(12)
            page.picture("beside")
            lossy = self.moves(page)
            print(f"10 % lost: {page.text('share')}, VP8 moves in {lossy} %; {page.text('figures')}")
            self.assertLess(lossy, page.share())
            self.assertRegex(
                page.text("figures"), r"VP8: camera to screen \d+ ms, to code [\d.]+ ms, [1-9]\d* key frames$"
            )
            page.slide("loss", 0)
            page.press("beside")
            self.assertFalse(page.driver.find_element("id", "ordinary_view").is_displayed())
            page.press("beside")
            time.sleep(8)
            print(f"none lost: VP8 moves in {self.moves(page)} %; {page.text('figures')}")
            self.assertGreater(self.moves(page), lossy)
            self.assertEqual((page.text("fault"), page.complaints()), ("", []))

    def moves(self, page: Page) -> int:
        page.until(lambda: page.text("ordinary_share"))
        return int(re.findall(r"\d+", page.text("ordinary_share"))[0])

    def test_no_camera(self) -> None:
        with Page(camera=False) as page:
            page.slide("loss", 0)
            page.call_yourself()
            time.sleep(6)
            self.assertEqual(page.text("fault"), "No camera was found, so a made picture goes out.")
            self.assert_share(page, 90)
            self.assertEqual(page.complaints(), [])

    def test_a_camera_that_is_refused(self) -> None:
        with Page("--refused", "--use-fake-device-for-media-stream", camera=False) as page:
            page.call_yourself()
            page.until(lambda: page.text("fault").startswith("The camera isn’t allowed here"))

    def test_small_dark_and_german(self) -> None:
        with Page(language="de") as page:
            page.small()
            page.dark()
            page.until(lambda: page.text("state") == "Bereit")
            page.picture("klein_bereit")
            for _ in range(2):
                self.assertEqual(page.run("return document.documentElement.scrollWidth - innerWidth"), 0)
                self.assertEqual(page.run(FAINT), [])
                self.assertEqual(page.run(UNNAMED), [])
                if page.run("return document.body.dataset.state") == "ready":
                    page.call_yourself()
                    time.sleep(4)
            page.picture("klein_anruf")
            self.assertRegex(page.text("share"), r"^genau \d+ %$")
            page.press("language")
            self.assertRegex(page.text("share"), r"^exact \d+ %$")

    def test_light_contrast_and_names(self) -> None:
        with Page() as page:
            page.until(lambda: page.text("state") == "Ready")
            page.run("document.getElementById('settings').open = true")
            self.assertEqual((page.run(FAINT), page.run(UNNAMED)), ([], []))
            page.call_yourself()
            time.sleep(2)
            self.assertEqual((page.run(FAINT), page.run(UNNAMED)), ([], []))

    def test_by_keys_alone(self) -> None:
        with Page() as page:
            page.until(lambda: page.driver.find_element("id", "call_yourself").is_enabled())
            self.until_focus(page, "call_yourself")
            page.driver.switch_to.active_element.send_keys(Keys.ENTER)
            page.until(lambda: page.run("return document.activeElement.id") == "hang_up")
            page.until(lambda: page.text("state") == "A call with yourself")
            self.until_focus(page, "loss")
            page.driver.switch_to.active_element.send_keys(Keys.ARROW_RIGHT)
            self.assertEqual(page.text("loss_told"), "6 %")
            self.until_focus(page, "hang_up")
            page.driver.switch_to.active_element.send_keys(Keys.SPACE)
            page.until(lambda: page.run("return document.activeElement.id") == "call_yourself")

    def until_focus(self, page: Page, name: str) -> None:
        for _ in range(40):
            if page.run("return document.activeElement.id") == name:
                return
            webdriver.ActionChains(page.driver).send_keys(Keys.TAB).perform()
        self.fail(f"no way to {name} by the tabulator")

    def test_it_loads_nothing_and_isnt_framed(self) -> None:
        with Page() as page:
            names = "return performance.getEntriesByType('resource').map((it) => it.name).filter((it) => !it.startsWith('blob:'))"
            page.until(lambda: page.text("state") == "Ready")
            self.assertEqual(page.run(names), [])
            blocked = page.driver.execute_async_script(
                "const done = arguments[0]; fetch('https://example.org').then(() => done('fetched'), () => done('refused'))"
            )
            self.assertEqual(blocked, "refused")
        outer = (
            PAGE.with_name("outer.html")
            if os.access(PAGE.parent, os.W_OK)
            else Path(tempfile.gettempdir(), "outer.html")
        )
        outer.write_text(f"<iframe id=inner src={json.dumps(PAGE.as_uri())}></iframe>")
        try:
            with Page(address=outer.as_uri()) as page:
                page.driver.switch_to.frame("inner")
                page.until(
                    lambda: page.text("fault") == "The telephone doesn’t run inside another page. Open it by itself."
                )
        finally:
            outer.unlink()

    def test_a_browser_without_long_memory(self) -> None:
        """As Safari has none: the page says so in words, in its language, and nothing else goes wrong."""
        told = {
            "en": "This browser has no 64-bit WebAssembly memory",
            "de": "Dieser Browser hat keinen 64-Bit-Speicher",
        }
        for language, words in told.items():
            with Page(language=language, address="about:blank") as page:
                page.driver.execute_cdp_cmd("Page.addScriptToEvaluateOnNewDocument", {"source": NO_LONG_MEMORY})
                page.driver.get(PAGE.as_uri())
                page.until(lambda: page.text("fault").startswith(words))
                self.assertIn("Safari", page.text("fault"))
                page.picture(f"safari_{language}")
                self.assertEqual(page.complaints(), [])

    def test_strange_codes(self) -> None:
        with Page() as page:
            bad = "That is no code of a call, or not all of it. Copy it once more."
            page.press("invite")
            page.until(lambda: page.value("link"))
            own = page.value("link").split("#call=")[1]
            for code, told in [
                (own, "That is a link for a call, and not the code that answers it."),
                ("abc", bad),
                ("%%%", bad),
                (own[:200], bad),
                ("A" * 9000, bad),
                (code_of(type="answer", sdp="v=0", name="x"), bad),
                (code_of(type="answer", sdp="x" * 100_000, name="x"), bad),
                (code_of(type="answer", sdp=5, name="x"), bad),
                (code_of(type="answer", name=[]), bad),
                (code_of(type="pranswer", sdp="v=0", name=""), bad),
            ]:
                page.fill("answer_code", code)
                page.press("connect")
                page.until(lambda: page.text("someone_told") == told)
            page.run("document.querySelector('#someone_link [data-cancel]').click()")
            page.press("invited")
            page.fill("offer_code", code_of(type="answer", sdp="v=0", name=""))
            page.press("take_code")
            page.until(lambda: page.text("someone_told") == "That is an answer, and not the link of a call.")
            page.fill("offer_code", code_of(type="offer", sdp="v=0", name="<b>Eve</b>" + 90 * "x"))
            page.press("take_code")
            page.until(lambda: page.text("caller") == "<b>Eve</b>" + 30 * "x" + " calls you")
            page.press("accept")
            page.until(lambda: page.text("someone_told") == bad)
            page.press("invited")
            page.fill("offer_code", code_of(type="offer", sdp="v=0", name=""))
            page.press("take_code")
            page.until(lambda: page.text("caller") == "Someone calls you")
            page.press("decline")
            page.until(lambda: page.text("someone_told") == "You declined. Nothing was sent to the other side.")
            page.call_yourself()


class TwoPartiesTest(NamespacesTest):
    """Two browsers in two network namespaces, each of which loses 5 % of the datagrams that come."""

    def test_a_call_by_a_link(self) -> None:
        with Page(within=self.names[0]) as ada, Page(within=self.names[1]) as bob:
            call_by_link(ada, bob)
            self.lose()
            for page in (ada, bob):
                page.run("document.getElementById('numbers').open = true")
            time.sleep(15)
            for page, other in ((ada, "the other side"), (bob, "Ada")):
                print(f"5 % lost on the line: {page.text('share')}; {page.text('figures')}")
                self.assertEqual(page.text("state"), f"A call with {other}")
                self.assert_share(page, 85)
                self.assertRegex(page.text("figures"), r"[1-9]\d{2,} packets of sound")
            self.assertEqual(ada.text("digits"), bob.text("digits"))
            self.assertRegex(ada.text("digits"), r"(\d{5} ){5}\d{5}, nobody")
            ada.picture("two")
            bob.press("camera")
            ada.until(lambda: ada.text("other_none") == "The other side has turned the camera off.")
            bob.press("camera")
            ada.until(lambda: ada.text("other_none") == "")
            bob.press("microphone")
            self.assertEqual(bob.driver.find_element("id", "microphone").get_attribute("aria-pressed"), "false")
            bob.press("hang_up")
            ada.until(lambda: ada.text("news").startswith("The other side has hung up. The call took "))
            self.assertRegex(bob.text("news"), r"^The call took \d+ s")
            # Again, the other way round; and one side is loaded anew.
            call_by_link(bob, ada, "Bob")
            self.assertEqual(ada.text("state"), "A call with Bob")
            bob.driver.refresh()
            bob.until(
                lambda: bob.text("news")
                == "This page was loaded anew in a call with the other side. Make a new link to go on."
            )
            ada.until(lambda: ada.text("news").startswith("The connection was lost."), 30)
            self.assertEqual(ada.complaints(), [])


if __name__ == "__main__":
    unittest.main()
