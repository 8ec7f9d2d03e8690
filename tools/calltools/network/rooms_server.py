"""The server of rooms: the telephone's page, and a WebSocket for each page."""

import asyncio
import json
import logging
import re
import ssl
from collections import Counter
from pathlib import Path
from typing import Awaitable, Callable, Optional

from aiohttp import WSCloseCode, WSMsgType, web

from ..errors import BadInput
from .rooms import Allowance, MOST_TEXT, Member, Refused, Rooms, Words, read_words

# Connections in all, the oldest that are in no room are closed first; and of one address that isn't this machine.
MOST_CONNECTIONS, MOST_OF_AN_ADDRESS = 400, 32
# Words at once, and a second: a call with three others has some hundred and twenty, half of them in its first second.
_BURST, _RATE = 240, 20
# Seconds in which a page goes into a room, after which one that doesn't answer is gone, and in which it takes its words.
_IDLE, _HEARTBEAT, _PATIENCE = 10.0, 20.0, 10.0
# Words that wait for a page.
_MOST_WAITING = 200
# The WebSocket's own code for a page that says too much.
TOO_FAST = 4_008
# Where the page is told the way to the rooms.
_PLACE = '<meta name="rooms" content="">'
_PATH = "/rooms"
_HOST = re.compile(r"(?:[A-Za-z0-9.-]{1,253}|\[[0-9A-Fa-f:.]{2,45}\])(?::[0-9]{1,5})?")
_HEADERS = {
    "Content-Security-Policy": "frame-ancestors 'none'",
    "X-Frame-Options": "DENY",
    "Cross-Origin-Opener-Policy": "same-origin",
    "Cross-Origin-Resource-Policy": "same-origin",
    "Permissions-Policy": "camera=(self), microphone=(self)",
    "Referrer-Policy": "no-referrer",
    "X-Content-Type-Options": "nosniff",
    "Cache-Control": "no-store",
}

Handler = Callable[[web.Request], Awaitable[web.StreamResponse]]


def page_text(path: Path) -> str:
    """The telephone, told that there are rooms where it comes from."""
    text = path.read_text(encoding="utf-8")
    if text.count(_PLACE) != 1:
        raise BadInput(str(path), "its head", "this is no page of the telephone that knows of rooms")
    return text.replace(_PLACE, _PLACE.replace('""', f'"{_PATH}"'))


class _Page:
    """A page's WebSocket. What it is told waits, in bounded number, until it takes it."""

    def __init__(self, socket: web.WebSocketResponse) -> None:
        self.socket = socket
        self.member = Member(self._tell)
        self._waiting: asyncio.Queue[Words] = asyncio.Queue(_MOST_WAITING)
        self.is_stuck = asyncio.Event()
        self.is_shut_out = False

    def _tell(self, words: Words) -> None:
        try:
            self._waiting.put_nowait(words)
        except asyncio.QueueFull:
            self.is_stuck.set()

    async def write(self) -> None:
        """Writes what waits, until it is cancelled or the page takes nothing."""
        try:
            while True:
                text = json.dumps(await self._waiting.get())
                await asyncio.wait_for(self.socket.send_str(text), _PATIENCE)
        except (ConnectionError, RuntimeError, asyncio.TimeoutError):
            self.is_stuck.set()


class RoomServer:
    """Serves the page and its rooms. A WebSocket's page comes from this server (its origin), and by this server's own
    name, so that no other page, and no other name that leads here, gets in."""

    def __init__(self, page: str, names: frozenset[str], scheme: str) -> None:
        """`names` are hosts with their ports, as a browser's address line has them."""
        self._page, self._names, self._scheme = page, names, scheme
        self.rooms = Rooms()
        self.refused: Counter[str] = Counter()
        self._places: dict[asyncio.Transport, Optional[Member]] = {}
        app = web.Application(middlewares=[self._checked], client_max_size=1)
        app.router.add_get("/", self._index)
        app.router.add_get(_PATH, self._room)
        self._runner = web.AppRunner(app, access_log=None, keepalive_timeout=_IDLE)
        # Nobody fills a terminal, or a log, with requests that are none.
        logging.getLogger("aiohttp.server").setLevel(logging.CRITICAL)

    async def open(self, host: str, port: int, tls: Optional[ssl.SSLContext]) -> int:
        """Listens; answers at which port."""
        await self._runner.setup()
        turns = asyncio.get_running_loop()
        try:
            self._net = await turns.create_server(self._accepted, host, port, ssl=tls, backlog=128)
        except OSError as fault:
            await self._runner.cleanup()
            raise BadInput(host, f"port {port}", str(fault.strerror)) from None
        return int(self._net.sockets[0].getsockname()[1])

    def answer_to(self, names: frozenset[str]) -> None:
        """From now on these are this server's names."""
        self._names = names

    async def close(self) -> None:
        self._net.close()
        await self._runner.cleanup()

    def _accepted(self) -> asyncio.Protocol:
        server = self._runner.server
        assert server
        open_ones = [one.transport for one in server.connections if one.transport and not one.transport.is_closing()]
        idle = [one for one in open_ones if not self._is_in_room(one)]
        for one in idle[: max(0, len(open_ones) + 1 - MOST_CONNECTIONS)]:
            one.abort()
        answer: asyncio.Protocol = server()
        return answer

    def _is_in_room(self, transport: asyncio.Transport) -> bool:
        member = self._places.get(transport)
        return bool(member and member.room is not None)

    @web.middleware
    async def _checked(self, request: web.Request, handler: Handler) -> web.StreamResponse:
        host = request.headers.get("Host", "")
        if not _HOST.fullmatch(host) or host.lower() not in self._names:
            raise web.HTTPForbidden(text="this server has another name")
        return await handler(request)

    async def _index(self, request: web.Request) -> web.StreamResponse:
        return web.Response(text=self._page, content_type="text/html", headers=_HEADERS)

    async def _room(self, request: web.Request) -> web.StreamResponse:
        if request.headers.get("Origin") != f"{self._scheme}://{request.headers['Host'].lower()}":
            self.refused["origin"] += 1
            raise web.HTTPForbidden(text="this is no page of this server")
        assert request.transport
        if self._has_too_many(request):
            self.refused["address"] += 1
            raise web.HTTPTooManyRequests(text="there are too many connections of this address")
        socket = web.WebSocketResponse(heartbeat=_HEARTBEAT, compress=False, max_msg_size=MOST_TEXT)
        await socket.prepare(request)
        await self._serve(_Page(socket), request.transport)
        return socket

    def _has_too_many(self, request: web.Request) -> bool:
        own = request.remote
        if own in ("127.0.0.1", "::1"):
            return False
        names = [one.get_extra_info("peername") or ("",) for one in self._places]
        return [name[0] for name in names].count(own) >= MOST_OF_AN_ADDRESS

    async def _serve(self, page: _Page, transport: asyncio.Transport) -> None:
        turns = asyncio.get_running_loop()
        self._places[transport] = page.member
        writer, watch = asyncio.ensure_future(page.write()), asyncio.ensure_future(self._watch(page))
        allowed = Allowance(_BURST, _RATE, turns.time())
        try:
            async for message in page.socket:
                if message.type != WSMsgType.TEXT:
                    raise Refused("no text")
                if not allowed.take(turns.time()):
                    await self._shut_out(page, "rate", TOO_FAST)
                    break
                self.rooms.take(page.member, read_words(message.data))
        except Refused as fault:
            await self._shut_out(page, str(fault), WSCloseCode.POLICY_VIOLATION)
        finally:
            self.rooms.leave(page.member)
            writer.cancel()
            del self._places[transport]
            if not page.is_shut_out:
                watch.cancel()
            await asyncio.wait([watch], timeout=_PATIENCE)

    async def _shut_out(self, page: _Page, why: str, code: int) -> None:
        self.refused[why] += 1
        await page.socket.close(code=code, message=why.encode())

    async def _watch(self, page: _Page) -> None:
        """Closes a page that goes into no room, or takes nothing."""
        while True:
            try:
                await asyncio.wait_for(page.is_stuck.wait(), _IDLE)
                break
            except asyncio.TimeoutError:
                if page.member.room is None:
                    break
        page.is_shut_out = True
        await self._shut_out(page, "idle", WSCloseCode.POLICY_VIOLATION)
