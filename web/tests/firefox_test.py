#!/usr/bin/env python3
"""The telephone in Firefox, which is driven by its own protocol (WebDriver BiDi): a call with itself, with its made camera."""

import asyncio
import json
import os
import subprocess
import sys
import tempfile
from pathlib import Path

import aiohttp

PAGE = Path(__file__).resolve().parents[1] / "telephone.html"
PORT = 9333
PREFERENCES = {
    "media.navigator.streams.fake": True,
    "media.navigator.permission.disabled": True,
    "remote.active-protocols": 1,
    "media.peerconnection.ice.loopback": True,
    "media.peerconnection.ice.obfuscate_host_addresses": False,
}


class Firefox:
    """A connection to a browser, with one page."""

    def __init__(self, socket: aiohttp.ClientWebSocketResponse) -> None:
        self.socket, self.count, self.page = socket, 0, ""

    async def do(self, method: str, **params: object) -> dict:
        self.count += 1
        await self.socket.send_json({"id": self.count, "method": method, "params": params})
        while True:
            told = json.loads((await self.socket.receive()).data)
            if told.get("id") == self.count:
                if told["type"] == "error":
                    raise RuntimeError(told["message"])
                return told["result"]

    async def open(self, address: str) -> str:
        """The page at an address; answers the browser's version."""
        session = await self.do("session.new", capabilities={})
        self.page = (await self.do("browsingContext.getTree"))["contexts"][0]["context"]
        await self.do("browsingContext.navigate", context=self.page, url=address, wait="complete")
        return session["capabilities"]["browserVersion"]

    async def run(self, script: str) -> str:
        to = {"context": self.page}
        told = await self.do("script.evaluate", expression=script, target=to, awaitPromise=True, userActivation=True)
        return told.get("result", {}).get("value", "")

    async def text(self, name: str) -> str:
        return await self.run(f"document.getElementById('{name}').textContent")

    async def until(self, name: str, words: str) -> None:
        for _ in range(120):
            if await self.text(name) == words:
                return
            await asyncio.sleep(0.5)
        sys.exit(f"{name} is {await self.text(name)}, and not {words}")


async def connected(session: aiohttp.ClientSession) -> Firefox:
    for _ in range(120):
        try:
            return Firefox(await session.ws_connect(f"ws://127.0.0.1:{PORT}/session", max_msg_size=0))
        except aiohttp.ClientError:
            await asyncio.sleep(0.5)
    sys.exit("Firefox doesn't answer")


async def main() -> None:
    async with aiohttp.ClientSession() as session:
        fox = await connected(session)
        version = await fox.open(PAGE.as_uri())
        await fox.until("state", "Ready")
        await fox.run("document.getElementById('call_yourself').click()")
        await fox.until("state", "A call with yourself")
        await fox.run("document.getElementById('numbers').open = true")
        await asyncio.sleep(15)
        share, fault = await fox.text("share"), await fox.text("fault")
        print(f"Firefox {version}, 5 % lost: {share}; {await fox.text('figures')}")
        if fault or int("".join(filter(str.isdigit, share)) or 0) < 85:
            sys.exit(f"{share} {fault}")


with tempfile.TemporaryDirectory() as profile:
    lines = (f"user_pref({json.dumps(name)}, {json.dumps(value)});\n" for name, value in PREFERENCES.items())
    (Path(profile) / "user.js").write_text("".join(lines))
    words = ["firefox-esr", "--headless", "--profile", profile, "--remote-debugging-port", str(PORT), "about:blank"]
    how = {
        "stdout": subprocess.DEVNULL,
        "stderr": subprocess.DEVNULL,
        "env": {**os.environ, "HOME": profile, "LANG": "C.UTF-8"},
    }
    with subprocess.Popen(words, **how) as browser:
        try:
            asyncio.run(main())
        finally:
            browser.terminate()
