"""segrx's C library from Python, by ctypes: receives DOCSIS 3.0 upstream channel bonding.

It takes a shared object, which the C compiler makes of the installed archive:

    gcc -shared -o libsegrx.so -Wl,--whole-archive $(pkg-config --libs segrx) -Wl,--no-whole-archive

It is the one that SEGRX_LIBRARY names, or else the loader's libsegrx.so. The installed segrx.h says
what each call does; of what it asks of its callers nothing is left to those of this module.

    with Receiver(2, [Flow(100, 0, 16, 2)], [Row(0, 17, 0), Row(0, 17, 1)]) as receiver:
        receiver.grant(0, 1, 17, 64)
        receiver.burst(0, 1, True, bytes.fromhex("8000000000000000 000000021111aabb"))
        for flow, frame in receiver.frames():
            print(flow, frame.hex())
"""

import ctypes
import enum
import os
import threading
from ctypes import c_bool, c_size_t, c_uint8, c_uint16, c_uint32, c_uint64, c_void_p

# The statuses of segrx.h, those from a number on by their names.
NAMES = {
    0: "OK NULL NO_CHANNEL NO_FLOW NUMBER_RANGE UNKNOWN_RULE UNKNOWN_DECISION NOTHING",
    8: "ROOM_TOO_SMALL CLOSED FLOW_CLOSING OUT_OF_MEMORY UNFINISHED NOT_KEPT",
    14: "LATE REPEAT BEYOND LENGTH_RANGE",
    20: "NO_CHANNELS TOO_MANY_CHANNELS NO_FLOWS TOO_MANY_FLOWS FLOW_COUNT",
    25: "BAD_FLOW SAME_SFID SID_RANGE SAME_SID ROW_OF_NO_FLOW",
    33: "GRANT_RANGE GRANT_KNOWN UNKNOWN_SID TOO_MANY_GRANTS GRANT_OUT_OF_MEMORY",
    38: "NO_GRANT TOO_LONG BAD_CHECK TOO_SHORT POINTER_PAST BURST_OUT_OF_MEMORY",
}
NUMBERS = {name: n + k for n, names in NAMES.items() for k, name in enumerate(names.split())}
Status = enum.IntEnum("Status", NUMBERS)
Rule = enum.IntEnum("Rule", "DECIDED PASSED PASSED_OR_SLID", start=0)
Decision = enum.IntEnum("Decision", "GAP GAP_TO SKIP_TO", start=0)

# What a call returns: that it is done, what became of a segment, or a refusal. Others are raised.
RETURNED = {Status.OK, Status.LATE, Status.REPEAT, Status.BEYOND}
RETURNED |= {*range(Status.GRANT_RANGE, Status.BURST_OUT_OF_MEMORY)} - {Status.GRANT_OUT_OF_MEMORY}


class Error(Exception):
    """A call that answers another status, which is in `status`."""

    def __init__(self, status):
        super().__init__(f"segrx: {status.name}")
        self.status = status


def checked(kind):
    """A type of arguments whose numbers have to fit, which ctypes doesn't look at."""

    def from_param(value):
        made = kind(value)
        if made.value != value:
            raise OverflowError(f"{value} is no {kind.__name__}")
        return made

    return type(kind.__name__, (), {"from_param": staticmethod(from_param)})


class Plain(ctypes.Structure):
    """A struct of the header, whose numbers have to fit."""

    def __init__(self, *values, **named):
        super().__init__(*values, **named)
        given = {**dict(zip([name for name, _ in self._fields_], values)), **named}
        if any(getattr(self, name) != value for name, value in given.items()):
            raise OverflowError(f"{type(self).__name__}: {given}")


class Flow(Plain):
    _fields_ = [("sfid", c_uint32), ("first", c_uint16), ("window", c_uint16)]
    _fields_ += [("clusters", c_uint8)]


class Row(Plain):
    _fields_ = [("flow", c_size_t), ("sid", c_uint16), ("channel", c_uint8)]


class FrameHead(Plain):
    _fields_ = [("flow", c_size_t), ("length", c_size_t)]


class Waiting(Plain):
    _fields_ = [("frames", c_size_t), ("requests", c_size_t)]


class Request(Plain):
    _fields_ = [("flow", c_size_t), ("units", c_uint16), ("sequence", c_uint16)]
    _fields_ += [("channel", c_uint8), ("cluster", c_uint8)]


class Counts(Plain):
    _fields_ = [(name, c_uint64) for name in "kept late repeat beyond lost frames skipped".split()]


SIZE, U16, U32 = checked(c_size_t), checked(c_uint16), checked(c_uint32)
# What each function takes; all but the first a handle before it.
TAKES = {
    "new": [U32, c_void_p, SIZE, c_void_p, SIZE, U32, c_void_p],
    "grant": [SIZE, U32, U16, U32],
    "burst_waiting": [SIZE, U32, c_bool, c_void_p, SIZE, c_void_p],
    "decide": [SIZE, U32, U16],
    "go_on": [SIZE],
    "lend_frame": [c_void_p, c_void_p],
    "next_request": [c_void_p],
    "counts": [SIZE, c_void_p],
    "restart": [SIZE, U16, c_void_p],
    "close": [],
    "free": [],
}


def functions():
    library, found = ctypes.CDLL(os.environ.get("SEGRX_LIBRARY", "libsegrx.so")), {}
    for name, takes in TAKES.items():
        found[name] = getattr(library, f"segrx_receiver_{name}")
        found[name].argtypes = takes if name == "new" else [c_void_p, *takes]
        found[name].restype = lambda number: Status(number)
    return found


FUNCTIONS = functions()


def memory_of(kind, values):
    """Memory with copies of these values and room for one more, so that there is some, and how many
    they are. The library asks for memory that is writable and that nothing else uses."""
    values = list(values)
    return (kind * (len(values) + 1))(*values), len(values)


class Receiver:
    """A receiver, which a `with` frees at its end. Only the thread that made it may use it."""

    def __init__(self, channels, flows, rows, rule=Rule.DECIDED):
        self._thread, self._handle = threading.get_ident(), c_void_p()
        # How many frames and requests waited behind the last burst.
        self.waiting = Waiting()
        setup = *memory_of(Flow, flows), *memory_of(Row, rows)
        status = FUNCTIONS["new"](channels, *setup, rule, ctypes.byref(self._handle))
        if status != Status.OK:
            raise Error(status)

    def _call(self, name, *given, returned=RETURNED):
        if threading.get_ident() != self._thread:
            raise RuntimeError("another thread made the receiver")
        if not self._handle:
            raise ValueError("the receiver is freed")
        status = FUNCTIONS[name](self._handle, *given)
        if status not in returned:
            raise Error(status)
        return status

    def _given(self, name, *given):
        """Whether something waited."""
        return self._call(name, *given, returned={Status.OK, Status.NOTHING}) == Status.OK

    def grant(self, channel, number, sid, size):
        """OK, or why the grant is refused."""
        return self._call("grant", channel, number, sid, size)

    def burst(self, channel, grant, check_is_right, segment):
        """OK, LATE, REPEAT or BEYOND, or why the burst is refused. Then `waiting` says how many
        frames and requests wait."""
        copy = ctypes.create_string_buffer(bytes(segment), len(segment) + 1)
        given = channel, grant, check_is_right, copy, len(segment), ctypes.byref(self.waiting)
        return self._call("burst_waiting", *given)

    def decide(self, flow, decision, number=0):
        self._call("decide", flow, decision, number)

    def go_on(self, flow):
        self._call("go_on", flow)

    def frames(self):
        """The frames that wait, each with its flow before it. Each is taken as it is asked for."""
        head, lent = FrameHead(), c_void_p()
        while self._given("lend_frame", ctypes.byref(lent), ctypes.byref(head)):
            yield head.flow, ctypes.string_at(lent, head.length)

    def requests(self):
        """The requests that wait. Each is taken as it is asked for."""
        while self._given("next_request", ctypes.byref(request := Request())):
            yield request

    def counts(self, flow):
        self._call("counts", flow, ctypes.byref(counts := Counts()))
        return counts

    def restart(self, flow, first):
        self._call("restart", flow, first, ctypes.byref(counts := Counts()))
        return counts

    def close(self):
        self._call("close")

    def free(self):
        self._call("free")
        self._handle = None

    def __enter__(self):
        return self

    def __exit__(self, *_):
        if self._handle:
            self.free()
