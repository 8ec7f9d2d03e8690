"""UDP between two addresses, with what strangers send kept apart."""

import errno
import socket
from typing import Any, Callable, Optional, Sequence

from ..errors import BadInput
from .loop import Loop

LOOPBACK = "127.0.0.1"
# The longest datagram that an entry of a log holds.
MOST_BYTES = 65_535
# What is read at once at most, so that the rest of the call has its turn.
_AT_ONCE = 64
_BUFFER = 1 << 20
# What the system says of a network or a host that isn't there (now).
_UNREACHED = (errno.ECONNREFUSED, errno.EHOSTUNREACH, errno.ENETUNREACH, errno.EHOSTDOWN)

Address = tuple[str, int]


def resolved(host: str, port: int, family: int = 0) -> tuple[int, Address]:
    """The family and the address of a host's port."""
    try:
        found = socket.getaddrinfo(host, port, family, socket.SOCK_DGRAM)
    except OSError as fault:
        raise BadInput(host, f"port {port}", f"no such host: {fault.strerror}") from None
    return found[0][0], named(found[0][4])


def named(address: Sequence[Any]) -> Address:
    """A socket's address as a host and a port, with the scope of one that leads nowhere without it (RFC 4007)."""
    host, port, *more = address
    scope = more[1] if len(more) == 2 else 0
    return f"{host}%{scope}" if scope else host, port


def full(family: int, address: Address) -> tuple[Any, ...]:
    """The same as a socket takes it: a scope stands apart from the host there."""
    return socket.getaddrinfo(*address, family, socket.SOCK_DGRAM)[0][4]


def _bound(family: int, at: Address) -> socket.socket:
    net = socket.socket(family, socket.SOCK_DGRAM)
    net.setblocking(False)
    net.setsockopt(socket.SOL_SOCKET, socket.SO_RCVBUF, _BUFFER)
    try:
        net.bind(full(family, at))
    except OSError as fault:
        net.close()
        why = "it is taken" if fault.errno == errno.EADDRINUSE else str(fault.strerror)
        raise BadInput(at[0], f"port {at[1]}", why) from None
    return net


class AnyChannel:
    """What a party asks of a channel, encrypted or not."""

    def __init__(self) -> None:
        self.on_datagram: Callable[[bytes], None] = lambda _: None
        self.bytes_in = self.bytes_out = self.unreached = 0

    def send(self, data: bytes) -> None:
        """A datagram goes out."""
        raise NotImplementedError


class Channel(AnyChannel):
    """Datagrams to and from one address.

    The system hands on what comes from there, and another socket of the same port gets what
    comes from anyone else: that is counted and dropped, and fills no queue of the call's.
    """

    def __init__(self, loop: Loop, at: Address, to: Optional[Address] = None) -> None:
        super().__init__()
        family, own = resolved(*at)
        self._loop = loop
        self._net = _bound(family, own)
        self._others: Optional[socket.socket] = None
        self.address: Address = named(self._net.getsockname())
        self.strangers = self.long = 0
        if to:
            self.connect(to)
        loop.on_readable(self._net.fileno(), self._read)

    def connect(self, to: Address) -> None:
        """From now on only what comes from there is taken."""
        family, address = resolved(*to, self._net.family)
        # Both sockets may have the port, and no later one: the permission is taken back.
        self._net.setsockopt(socket.SOL_SOCKET, socket.SO_REUSEADDR, 1)
        others = socket.socket(family, socket.SOCK_DGRAM)
        others.setblocking(False)
        others.setsockopt(socket.SOL_SOCKET, socket.SO_REUSEADDR, 1)
        try:
            self._net.connect(full(family, address))
            others.bind(full(family, self.address))
        except OSError as fault:
            why = f"{fault.strerror} from {self.address[0]}"
            raise BadInput(to[0], f"port {to[1]}", why) from None
        for net in (self._net, others):
            net.setsockopt(socket.SOL_SOCKET, socket.SO_REUSEADDR, 0)
        self._others = others
        self._drop(self._net)  # what came before may be from anyone
        self._loop.on_readable(others.fileno(), lambda: self._drop(others))

    def send(self, data: bytes) -> None:
        """A datagram goes out, or is lost where the network takes none now."""
        try:
            self.bytes_out += self._net.send(data)
        except OSError as fault:
            self.unreached += fault.errno in _UNREACHED

    def _read(self) -> None:
        for _ in range(_AT_ONCE):
            try:
                data = self._net.recv(MOST_BYTES + 1)
            except BlockingIOError:
                return
            except OSError as fault:
                self.unreached += fault.errno in _UNREACHED
                continue
            self.bytes_in += len(data)
            if len(data) > MOST_BYTES:
                self.long += 1
            else:
                self.on_datagram(data)

    def _drop(self, net: socket.socket) -> None:
        for _ in range(_AT_ONCE):
            try:
                net.recv(1)
            except OSError:
                return
            self.strangers += 1

    def close(self) -> None:
        for net in (self._net, self._others):
            if net:
                self._loop.on_readable(net.fileno(), None)
                net.close()
