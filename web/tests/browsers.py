"""The telephone's page in Chromium, driven by selenium, also in network namespaces: what its tests share."""

import os
import re
import subprocess
import tempfile
import unittest
from pathlib import Path

from selenium import webdriver
from selenium.webdriver.chrome.options import Options
from selenium.webdriver.chrome.service import Service
from selenium.webdriver.support.ui import WebDriverWait

PAGE = Path(os.environ.get("TELEPHONE", Path(__file__).resolve().parents[1] / "telephone.html"))
FLAGS = (
    "--headless=new",
    "--no-sandbox",
    "--disable-gpu",
    "--allow-loopback-in-peer-connection",
    "--autoplay-policy=no-user-gesture-required",
)
CAMERA = ("--use-fake-device-for-media-stream", "--use-fake-ui-for-media-stream")
# Where the tests leave what they saw, to be looked at.
PICTURES = os.environ.get("PICTURES")


class Page:
    """A browser with the page."""

    def __init__(
        self, *flags: str, language: str = "en", address: str = "", camera: bool = True, within: str = ""
    ) -> None:
        options = Options()
        if within:
            options.binary_location = browser_within(within)
            options.add_argument("--remote-debugging-pipe")
        for flag in (*FLAGS, *(CAMERA if camera else ()), f"--accept-lang={language}", f"--lang={language}", *flags):
            options.add_argument(flag)
        if "--refused" in flags:
            kinds = ("media_stream_camera", "media_stream_mic")
            options.add_experimental_option(
                "prefs", {f"profile.default_content_setting_values.{it}": 2 for it in kinds}
            )
        options.set_capability("goog:loggingPrefs", {"browser": "ALL"})
        self.driver = webdriver.Chrome(service=Service("/usr/bin/chromedriver"), options=options)
        self.driver.set_window_size(1280, 1000)
        self.driver.get(address or PAGE.as_uri())

    def __enter__(self) -> "Page":
        return self

    def __exit__(self, *_: object) -> None:
        self.driver.quit()

    def text(self, name: str) -> str:
        return self.driver.find_element("id", name).text

    def run(self, script: str, *words: object) -> object:
        return self.driver.execute_script(script, *words)

    def until(self, test, seconds: float = 60) -> None:
        WebDriverWait(self.driver, seconds, 0.2).until(lambda _: test())

    def press(self, name: str) -> None:
        button = self.driver.find_element("id", name)
        self.until(lambda: button.is_enabled() and button.is_displayed())
        button.click()

    def slide(self, name: str, value: int) -> None:
        script = "const it = document.getElementById(arguments[0]); it.value = arguments[1]; it.dispatchEvent(new Event(arguments[2]))"
        for event in ("input", "change"):
            self.run(script, name, value, event)

    def value(self, name: str) -> str:
        return str(self.run("return document.getElementById(arguments[0]).value", name))

    def fill(self, name: str, words: str) -> None:
        self.run("document.getElementById(arguments[0]).value = arguments[1]", name, words)

    def begun(self, seconds: float = 60) -> None:
        """Until pictures come."""
        self.until(lambda: self.run("return document.getElementById('mark').dataset.mark || ''") != "", seconds)

    def call_yourself(self) -> None:
        self.press("call_yourself")
        self.begun()

    def share(self) -> int:
        """Of the last 300 pictures how many in a hundred are exact, as the page says it."""
        return int("".join(it for it in self.text("share") if it.isdigit()))

    def small(self) -> None:
        metrics = {"width": 360, "height": 780, "deviceScaleFactor": 2, "mobile": True}
        self.driver.execute_cdp_cmd("Emulation.setDeviceMetricsOverride", metrics)

    def dark(self) -> None:
        features = [{"name": "prefers-color-scheme", "value": "dark"}]
        self.driver.execute_cdp_cmd("Emulation.setEmulatedMedia", {"features": features})

    def picture(self, name: str) -> None:
        if PICTURES:
            self.driver.save_screenshot(f"{PICTURES}/{name}.png")

    def complaints(self) -> list[str]:
        return [it["message"] for it in self.driver.get_log("browser") if it["level"] in ("SEVERE", "WARNING")]


def browser_within(name: str) -> str:
    """A script that starts the browser in a network namespace; it is told what to do through a pipe."""
    path = Path(tempfile.gettempdir()) / f"chromium_in_{name}"
    path.write_text(f'#!/bin/sh\nexec ip netns exec {name} chromium "$@"\n')
    path.chmod(0o755)
    return str(path)


def call_by_link(caller: Page, callee: Page, name: str = "Ada", server: str = "", seconds: float = 60) -> None:
    """One makes a link, the other one answers it, and the answer is put in."""
    caller.fill("name", name)
    caller.press("invite")
    caller.until(lambda: caller.value("link"))
    callee.driver.get("about:blank")
    callee.driver.get(caller.value("link"))
    callee.until(lambda: callee.text("caller") == f"{name} calls you")
    callee.fill("servers", server)
    callee.press("accept")
    callee.until(lambda: callee.value("answer"))
    caller.fill("answer_code", callee.value("answer"))
    caller.press("connect")
    caller.begun(seconds)
    callee.begun(seconds)


# What a reader of screens needs: a name for whatever is pressed or is a picture, no name twice, and headings in order.
UNNAMED = """
const named = (it) => it.getAttribute("aria-label") || it.textContent.trim() || it.title || it.labels?.[0]?.textContent.trim();
const all = [...document.querySelectorAll("button, select, input, textarea, summary, [role=img]")];
const ids = [...document.querySelectorAll("[id]")].map((it) => it.id);
return [...all.filter((it) => !named(it)).map((it) => it.outerHTML.slice(0, 80)), ...ids.filter((it, n) => ids.indexOf(it) !== n)];
"""
# Contrast of each text that is seen, by WCAG's formula; below 4.5 it is hard to read.
FAINT = """
const linear = (c) => (c /= 255) <= 0.03928 ? c / 12.92 : ((c + 0.055) / 1.055) ** 2.4;
const light = ([r, g, b]) => 0.2126 * linear(r) + 0.7152 * linear(g) + 0.0722 * linear(b);
const colour = (words) => words.match(/[\\d.]+/g).map(Number);
const ground = (it) => { for (; it; it = it.parentElement) { const c = colour(getComputedStyle(it).backgroundColor); if (c.length < 4 || c[3] > 0) return c; } return [255, 255, 255]; };
const faint = [];
for (const it of document.querySelectorAll("body *")) {
  const own = [...it.childNodes].some((node) => node.nodeType === 3 && node.textContent.trim());
  if (!own || !it.checkVisibility() || it.closest(":disabled, script, style, option")) continue;
  const [a, b] = [light(colour(getComputedStyle(it).color)), light(ground(it))].sort((x, y) => y - x);
  const contrast = (a + 0.05) / (b + 0.05);
  if (contrast < 4.5) faint.push(`${it.id || it.textContent.slice(0, 20)}: ${contrast.toFixed(1)}`);
}
return faint;
"""


class CallTest(unittest.TestCase):
    def assert_share(self, page: Page, least: int) -> None:
        """At least so many of a hundred pictures are exact, where the machine has time for them."""
        page.run("document.getElementById('numbers').open = true")
        page.until(lambda: page.text("figures"))
        sent = int(re.findall(r"(\d+) pictures sent", page.text("figures"))[0])
        minutes, seconds = map(int, page.text("clock").split(":"))
        if sent < 20 * (60 * minutes + seconds - 1):
            print(f"the machine is too busy to tell: {page.text('figures')}")
        else:
            self.assertGreaterEqual(page.share(), least, page.text("figures"))


class NamespacesTest(CallTest):
    """Two network namespaces with a line between them, each of which may lose 5 % of the datagrams that come."""

    def setUp(self) -> None:
        self.names = [f"page{os.getpid()}{letter}" for letter in "ab"]
        for name in self.names:
            if subprocess.run(["ip", "netns", "add", name], capture_output=True).returncode:
                self.skipTest("no network namespaces can be had")
            self.addCleanup(subprocess.run, ["ip", "netns", "del", name])
        ways = [f"{name}_way" for name in self.names]
        self.ip(
            "link",
            "add",
            ways[0],
            "netns",
            self.names[0],
            "type",
            "veth",
            "peer",
            "name",
            ways[1],
            "netns",
            self.names[1],
        )
        for name, device, host in zip(self.names, ways, ("192.0.2.6", "192.0.2.7")):
            self.ip("-n", name, "addr", "add", f"{host}/24", "dev", device)
            for it in (device, "lo"):
                self.ip("-n", name, "link", "set", it, "up")
            self.ip("-n", name, "route", "add", "default", "via", "192.0.2.1")

    @staticmethod
    def ip(*words: str) -> None:
        subprocess.run(["ip", *words], check=True)

    def lose(self) -> None:
        rule = "-A INPUT -p udp -m statistic --mode random --probability 0.05 -j DROP".split()
        for name in self.names:
            if subprocess.run(["ip", "netns", "exec", name, "iptables", *rule], capture_output=True).returncode:
                self.skipTest("iptables isn't there")
