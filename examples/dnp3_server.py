"""Where a DNP3 outstation listens, on this machine alone, and its connections to masters.

Whoever owns a `Server` opens it in a loop of asyncio, and calls `tick` ten times a second (TICK).
"""
import asyncio
import errno
import socket

from protocols import (ACK, ASK_STATUS, CONFIRMED_DATA, DATA, FROM_OUTSTATION, LINK_STATUS, NOT_SUPPORTED, PRIMARY, RESET_LINK,
                       TEST_LINK, Assembler, Frames, ProtocolError, frame, segments)

# What the link answers to the functions of a master's frames.
REPLIES = {RESET_LINK: ACK, TEST_LINK: ACK, CONFIRMED_DATA: ACK, ASK_STATUS: LINK_STATUS, DATA: None}
# Seconds between ticks; how many octets wait of a peer, and how many connections stand that no master has.
TICK, WAITING, STRANGERS = 0.1, 65536, 8


class Link(asyncio.Protocol):
    """A connection: the data link layer (clause 9) and the transport function (clause 8). One frame is taken at a turn of the
    loop, and none while the peer doesn't read, so a peer takes no more than its share."""

    def __init__(self, server):
        self.server, self.outstation = server, server.outstation
        self.frames, self.assembler, self.number, self.master = Frames(), Assembler(), 0, 0
        self.transport, self.is_full, self.is_planned, self.peer = None, False, False, ""
        self.has_told = False

    def connection_made(self, transport):
        self.transport = transport
        self.peer = "{}:{}".format(*transport.get_extra_info("peername")[:2])
        self.server.join(self)

    def data_received(self, data):
        self.frames.octets += data
        if len(self.frames.octets) > WAITING:
            self.transport.pause_reading()
        self.plan()

    def plan(self):
        if not (self.is_planned or self.is_full or self.transport.is_closing()):
            self.is_planned = True
            asyncio.get_running_loop().call_soon(self.turn)

    def turn(self):
        self.is_planned = False
        if self.transport.is_closing():
            return
        try:
            taken = self.frames.next()
        except ProtocolError as why:
            self.end(f"{why}: the connection is ended")
            return
        if taken is None:
            self.transport.resume_reading()
            return
        self.take(taken)
        self.plan()

    def take(self, taken):
        outstation = self.outstation
        if outstation.is_silent:
            return
        if taken.destination != outstation.address:
            self.tell_once(f"a frame for link address {taken.destination} is ignored; this is {outstation.address}")
            return
        if not taken.control & PRIMARY or not self.server.seat(self):
            return
        self.master, function = taken.source, taken.control & 0x0F
        reply = REPLIES.get(function, NOT_SUPPORTED)
        if reply is not None:
            self.transport.write(self.frame(reply))
        if function in (DATA, CONFIRMED_DATA):
            fragment = self.assembler.take(taken.user)
            if fragment is not None:
                self.send(outstation.take(fragment))

    def tell_once(self, text):
        if not self.has_told:
            self.outstation.say(text)
        self.has_told = True

    def send(self, fragments):
        for fragment in fragments:
            carried = segments(fragment, self.number)
            self.number = (self.number + len(carried)) % 64
            self.transport.write(b"".join(self.frame(FROM_OUTSTATION, it) for it in carried))

    def frame(self, control, user=b""):
        return frame(control, self.master, self.outstation.address, user)

    def pause_writing(self):
        self.is_full = True

    def resume_writing(self):
        self.is_full = False
        self.plan()

    def connection_lost(self, why):
        self.server.part(self, why)

    def end(self, why=None):
        if why:
            self.outstation.say(why)
        self.transport.abort()


class Server:
    """Where an outstation listens on this machine, and its connections. The master has the one whose first request came first;
    what others do on theirs ends them alone."""

    def __init__(self, outstation, port):
        self.outstation, self.port, self.links, self.taken = outstation, port, [], None
        self.is_open, self.has_begun, self.listener, self.task = False, False, None, None

    @property
    def place(self):
        return f"127.0.0.1:{self.port}"

    def open(self):
        """Listens; fails where the port can't be had."""
        connection = socket.create_server(("127.0.0.1", self.port), backlog=16)
        self.is_open = True
        self.task = asyncio.get_running_loop().create_task(self.listen(connection))

    async def listen(self, connection):
        self.listener = await asyncio.get_running_loop().create_server(lambda: Link(self), sock=connection)
        if not self.is_open:
            self.close()

    def close(self):
        """The link fails: nobody can connect, and who is connected is cut."""
        self.is_open = False
        if self.listener:
            self.listener.close()
        for link in list(self.links):
            link.end()

    def join(self, link):
        self.links.append(link)
        strangers = [it for it in self.links if it is not self.taken and not it.transport.is_closing()]
        if len(strangers) > STRANGERS:
            strangers[0].end()

    def seat(self, link):
        """Whether a connection is the master's; another one that asks for something is ended."""
        if self.taken is None:
            self.taken, self.has_begun = link, True
            self.outstation.say(f"a master connects from {link.peer}")
        if self.taken is not link:
            link.end(f"a second master, {link.peer}, is turned away")
        return self.taken is link

    def part(self, link, why):
        self.links.remove(link)
        if link is self.taken:
            self.taken = None
            self.outstation.leave()
            self.outstation.say(f"the connection is lost: {why.strerror}" if isinstance(why, OSError) and why.strerror
                                else "the master's connection has ended")

    def tick(self, now):
        if self.taken and not self.taken.is_full:
            self.taken.send(self.outstation.due(now))


def why_not(port, why):
    """Why a port can't be listened on, in words."""
    is_taken = why.errno == errno.EADDRINUSE
    fault = "is in use by another program" if is_taken else f"can't be listened on: {why.strerror}"
    return f"127.0.0.1:{port} {fault}"
