"""Tests of the page of a call in a real browser, where Chromium and selenium are there."""

import json
import shutil
import unittest
from base64 import b64decode
from collections import Counter
from pathlib import Path
from typing import Any

from page_tests import SMALL, Room, call_of, noisy, samples_of, whole_folder, write_video

try:
    from selenium import webdriver
    from selenium.webdriver.chrome.options import Options
    from selenium.webdriver.chrome.service import Service
except ImportError:
    webdriver = None

_DRIVER = shutil.which("chromedriver")
_FLAGS = ("--headless=new", "--no-sandbox", "--disable-gpu", "--hide-scrollbars", "--window-size=1100,900")
# As a browser reads back who guards its reader: it changes what was drawn.
GUARDED = """const read = CanvasRenderingContext2D.prototype.getImageData;
CanvasRenderingContext2D.prototype.getImageData = function (...words) {
  const image = read.apply(this, words);
  image.data[4] ^= 1;
  return image;
};"""


class Browser:
    """A headless Chromium with one page, driven by selenium."""

    def __init__(self) -> None:
        options = Options()
        for flag in _FLAGS:
            options.add_argument(flag)
        options.set_capability("goog:loggingPrefs", {"browser": "ALL", "performance": "ALL"})
        self.driver = webdriver.Chrome(service=Service(_DRIVER), options=options)

    def ask(self, method: str, **parameters: Any) -> dict[str, Any]:
        """The answer to a command of the DevTools protocol."""
        return self.driver.execute_cdp_cmd(method, parameters)

    def value(self, script: str) -> Any:
        """What a script, or the promise that it makes, comes to."""
        told = self.ask("Runtime.evaluate", expression=script, awaitPromise=True, returnByValue=True)
        if "exceptionDetails" in told:
            raise RuntimeError(str(told["exceptionDetails"]))
        return told["result"].get("value")

    def asked_for(self) -> list[str]:
        """What was loaded since it was asked last."""
        events = [json.loads(row["message"])["message"] for row in self.driver.get_log("performance")]
        return [event["params"]["request"]["url"] for event in events if event["method"] == "Network.requestWillBeSent"]

    def resize(self, width: int, height: int, scale: float = 1, is_phone: bool = False) -> None:
        """The size of the page's window."""
        size = {"width": width, "height": height, "deviceScaleFactor": scale, "mobile": is_phone}
        self.ask("Emulation.setDeviceMetricsOverride", **size)
        self.ask("Emulation.setTouchEmulationEnabled", enabled=is_phone)

    def scheme(self, name: str) -> None:
        """`light` or `dark`."""
        self.ask("Emulation.setEmulatedMedia", features=[{"name": "prefers-color-scheme", "value": name}])

    def key(self, name: str, code: str = "", modifiers: int = 0) -> None:
        """A key is pressed and let go; modifiers 8 is Shift."""
        key = {"key": name, "code": code or name, "modifiers": modifiers}
        text = {"text": name} if len(name) == 1 else {}
        self.ask("Input.dispatchKeyEvent", type="keyDown", **key, **text)
        self.ask("Input.dispatchKeyEvent", type="keyUp", **key)

    def touch(self, *places: tuple[float, float]) -> None:
        """A finger is set down at the first place, drawn over the others and lifted."""
        for number, (x, y) in enumerate(places):
            kind = "touchMove" if number else "touchStart"
            self.ask("Input.dispatchTouchEvent", type=kind, touchPoints=[{"x": x, "y": y}])
        self.ask("Input.dispatchTouchEvent", type="touchEnd", touchPoints=[])


# A promise of the time when what the script says holds.
UNTIL = "new Promise(done => {{ const look = () => {} ? done() : setTimeout(look, 5); look(); }})"
# How dark each mark is in black on white: the share of its square.
DARKNESS = """(() => {
  const colours = { ...coloursOf(document.documentElement), panel: "#ffffff" };
  const share = mark => {
    const canvas = Object.assign(document.createElement("canvas"), { width: 20, height: 20 });
    const pen = canvas.getContext("2d");
    drawMark(pen, { ...colours, [mark]: "#000000" }, mark, 10, 10, 20, "");
    const data = [...pen.getImageData(0, 0, 20, 20).data];
    return data.filter((value, at) => at % 4 === 0 && value < 192).length / 400;
  };
  return [share("exact"), share("patched"), share("held")];
})()"""
SMALL_TARGETS = """[...document.querySelectorAll("#transport button, #transport select")]
  .filter(one => one.offsetWidth < 44 || one.offsetHeight < 44).length"""


@unittest.skipUnless(webdriver and _DRIVER, "no Chromium by selenium: apt install chromium-driver python3-selenium")
class BrowserTest(Room):
    def open(self, page: Path, place: str = "", before: str = "") -> Browser:
        """The page in a browser, in which a script may have run before."""
        browser = Browser()
        self.addCleanup(browser.driver.quit)
        browser.ask("Page.addScriptToEvaluateOnNewDocument", source=before)
        browser.driver.get(page.as_uri() + place)
        self.settled(browser)
        return browser

    def settled(self, browser: Browser) -> tuple[int, str]:
        """The number and the words of the picture, once it is drawn."""
        browser.value(UNTIL.format("page.player.drawn === page.player.place"))
        return browser.value("page.player.number"), self.told(browser, "status")

    def told(self, browser: Browser, name: str) -> str:
        return browser.value(f"document.getElementById('{name}').textContent")

    def box(self, browser: Browser, name: str) -> dict[str, float]:
        return browser.value(f"document.getElementById('{name}').getBoundingClientRect().toJSON()")

    def shows(self, browser: Browser, name: str, number: int) -> bytes:
        samples = f"page.player.videos.{name}.samples({number})"
        return b64decode(browser.value(f"{samples}.then(found => btoa(String.fromCharCode(...found)))"))

    def assert_shows_all(self, page: Path, numbers: tuple[int, ...]) -> None:
        told = call_of(page)["ways"][0]
        browser = self.open(page)
        for name in ("captured", "shown"):
            if told[f"{name}_video"]:
                wanted = samples_of(told[f"{name}_video"])
                for number in numbers:
                    self.assertEqual(self.shows(browser, name, number), wanted[number])

    def test_pictures_are_those_of_the_call(self) -> None:
        """Sample by sample: exactly where they fit, and as the tool means them where they don't."""
        self.assert_shows_all(self.burst_page(), (0, 15, 10))
        lines = "".join(f"{number} exact intra\n" for number in range(40))
        video = write_video(self.room / "noisy.y4m", SMALL, noisy(40))
        report = self.file("report", lines.encode())
        self.assert_shows_all(self.page(report, "--shown", video, "--megabytes", 1), (39, 0, 33))

    def test_nothing_is_loaded_and_nothing_fails(self) -> None:
        browser = self.open(self.burst_page())
        browser.key("End")
        self.settled(browser)
        self.assertEqual({Path(url).name for url in browser.asked_for()}, {"page.html"})
        self.assertEqual(browser.driver.get_log("browser"), [])
        self.assertTrue(browser.value("document.getElementById('fault').hidden"))

    def test_a_browser_that_alters_what_is_read(self) -> None:
        """It says so: its pictures aren't exact."""
        browser = self.open(self.burst_page(), before=GUARDED)
        told = "This browser alters the pictures that a page reads: they aren't exact here."
        self.assertEqual(self.told(browser, "fault"), told)
        self.assertFalse(browser.value("document.getElementById('fault').hidden"))

    def test_keys(self) -> None:
        browser = self.open(self.burst_page(), "#10")
        self.assertEqual(self.settled(browser), (10, "Picture 10 of 0 to 15, held, from 9"))
        self.assertIn("all lost", self.told(browser, "told"))
        self.assertIn("NACK came back", self.told(browser, "told"))
        shift = 8
        steps = [("ArrowRight", 0, 11), ("ArrowLeft", 0, 10), ("r", 0, 9), ("n", 0, 10)]
        steps += [("p", 0, 6), ("Home", 0, 0), ("ArrowRight", shift, 10), ("ArrowLeft", shift, 0)]
        steps += [("End", 0, 15), ("ArrowRight", 0, 15), ("n", 0, 15)]
        for name, modifiers, wanted in steps:
            browser.key(name, modifiers=modifiers)
            self.assertEqual(self.settled(browser)[0], wanted, name)
        self.assertEqual(browser.value("location.hash"), "#15")
        zoom = browser.value("page.timeline.zoom")
        browser.key("+")
        self.assertEqual(browser.value("page.timeline.zoom"), zoom + 1)

    def test_playing(self) -> None:
        """From the start to the end, by Space; the last picture stops it, and so does Space."""
        browser = self.open(self.burst_page())
        label = "document.getElementById('play').getAttribute('aria-label')"
        browser.value("page.player.setSpeed(0.1)")
        browser.key(" ", "Space")
        self.assertEqual(browser.value(f"[page.player.isPlaying, {label}]"), [True, "Stop"])
        browser.key(" ", "Space")
        self.assertEqual(browser.value(f"[page.player.isPlaying, {label}]"), [False, "Play"])
        browser.value("page.player.setSpeed(2)")
        browser.key(" ", "Space")
        browser.value(UNTIL.format("!page.player.isPlaying"))
        self.assertEqual(self.settled(browser), (15, "Picture 15 of 0 to 15, exact, from 14"))
        self.assertEqual(browser.value(label), "Play")

    def test_a_phone(self) -> None:
        """It fits, what is pressed is large enough, and drawing across a picture steps."""
        browser = self.open(self.burst_page())
        browser.resize(390, 844, 2, is_phone=True)
        self.assertEqual(browser.value("document.documentElement.scrollWidth"), 390)
        self.assertEqual(browser.value(SMALL_TARGETS), 0)
        shown = self.box(browser, "shown_figure")
        x, y = shown["x"] + 20, shown["y"] + 80
        browser.touch((x, y), (x + 30, y), (x + 56, y + 3))
        self.assertEqual(self.settled(browser)[0], 4)
        line = self.box(browser, "overview")
        browser.touch((line["x"] + line["width"] * 10.5 / 16, line["y"] + 20))
        self.assertEqual(self.settled(browser)[0], 10)

    def test_two_ways(self) -> None:
        """One is chosen from a list; without a video its figure is gone."""
        folder = whole_folder(self.room / "call")
        folder.call["recv"][0]["source"] = 8
        browser = self.open(self.page(folder.done()))
        options = "[...document.getElementById('way').options].map(option => option.text)"
        self.assertEqual(browser.value(options), ["shown to call", "sent by call"])
        gone = "['captured', 'shown'].filter(name => page.player.figures[name].hidden)"
        self.assertEqual(browser.value(gone), ["captured"])
        change = "dispatchEvent(new Event('change'))"
        browser.value(f"(way => {{ way.value = 1; way.{change}; }})(document.getElementById('way'))")
        self.assertEqual(self.settled(browser), (0, "Picture 0 of 0 to 4, intra"))
        self.assertEqual(browser.value(gone), ["shown"])

    def test_the_scheme_is_the_readers(self) -> None:
        browser = self.open(self.burst_page())
        grounds = []
        for name in ("light", "dark"):
            browser.scheme(name)
            browser.value(UNTIL.format(f"matchMedia('(prefers-color-scheme: {name})').matches"))
            grounds.append(browser.value("coloursOf(document.documentElement).paper"))
            # The time line hears of it by an event of its own.
            browser.value(UNTIL.format("page.timeline.colours().paper === coloursOf(document.documentElement).paper"))
        self.assertNotEqual(*grounds)

    def test_all_that_is_pressed_has_a_name(self) -> None:
        browser = self.open(self.burst_page())
        roles: Counter[str] = Counter()
        for node in browser.ask("Accessibility.getFullAXTree")["nodes"]:
            role = node.get("role", {}).get("value")
            roles[role] += 1
            if role in ("button", "slider", "combobox", "image", "region", "heading"):
                self.assertTrue(node.get("name", {}).get("value"), role)
        self.assertGreaterEqual(roles["button"], 8)
        self.assertEqual((roles["slider"], roles["status"]), (1, 1))

    def test_marks_differ_without_colours(self) -> None:
        exact, patched, held = self.open(self.burst_page()).value(DARKNESS)
        self.assertGreater(exact, 0.9)
        self.assertTrue(0.3 < patched < 0.8, patched)
        self.assertLess(held, 0.3)


if __name__ == "__main__":
    unittest.main()
