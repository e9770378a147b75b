"""Tests of the module: what it adds to the C library, and that each struct is the header's."""

import ctypes
import threading
import unittest

from segrx import Decision, Error, Flow, Receiver, Row, Status

FLOW, ROWS = Flow(sfid=100, first=0, window=4, clusters=2), [Row(0, 17, 0), Row(0, 17, 1)]
FRAME = bytes.fromhex("0100000211112222")


def segment(number, units=0, payload=FRAME):
    words = [0x8000 if payload else 0, number << 3 | 1, units, 0]
    return b"".join(word.to_bytes(2, "big") for word in words) + payload


def named(struct):
    return {name: getattr(struct, name) for name, _ in struct._fields_}


class Calls(unittest.TestCase):
    def setUp(self):
        self.receiver = self.enterContext(Receiver(2, [FLOW], ROWS))

    def send(self, channel, bytes_sent):
        self.assertEqual(self.receiver.grant(channel, 1, 17, len(bytes_sent)), Status.OK)
        return self.receiver.burst(channel, 1, True, bytes_sent)

    def status(self, call, *given):
        with self.assertRaises(Error) as raised:
            call(*given)
        return raised.exception.status

    def test_frames_requests_and_counts(self):
        wanted = [(2, Status.OK), (2, Status.REPEAT), (2, Status.REPEAT), (0, Status.OK)]
        wanted += [(3, Status.OK), (9, Status.BEYOND), *[(0, Status.LATE)] * 6]
        for number, verdict in wanted:
            self.assertEqual(self.send(1, segment(number, 100 + number)), verdict, number)
        self.assertEqual(self.send(0, segment(4, payload=b"\xff" * 5)), Status.OK)
        self.receiver.decide(0, Decision.GAP_TO, 2)
        self.receiver.decide(0, Decision.SKIP_TO, 11)
        self.receiver.close()
        self.assertEqual([*self.receiver.frames()], [(0, FRAME)] * 3)
        requests = [named(request) for request in self.receiver.requests()]
        self.assertEqual(requests[5], dict(flow=0, units=109, sequence=9, channel=1, cluster=1))
        self.assertEqual(len(requests), 12)
        counts = dict(kept=4, late=6, repeat=2, beyond=1, lost=7, frames=3, skipped=5)
        self.assertEqual(named(self.receiver.counts(0)), counts)

    def test_how_much_waits_behind_a_burst(self):
        for number, waits in ((1, (0, 0)), (0, (2, 1))):
            self.send(0, segment(number, units=1 - number))
            self.assertEqual((self.receiver.waiting.frames, self.receiver.waiting.requests), waits)
        frames = self.receiver.frames()
        self.assertEqual(next(frames), (0, FRAME))
        self.assertEqual(self.send(0, segment(2)), Status.OK)
        self.assertEqual(self.receiver.waiting.frames, 2)
        self.assertEqual([*frames], [(0, FRAME)] * 2)

    def test_refusals_are_returned(self):
        self.assertEqual(self.receiver.burst(0, 1, False, b""), Status.NO_GRANT)
        self.assertEqual(self.receiver.grant(0, 1, 17, 7), Status.GRANT_RANGE)
        self.assertEqual(self.receiver.grant(0, 1, 17, 8), Status.OK)
        self.assertEqual(self.receiver.burst(0, 1, False, b""), Status.BAD_CHECK)

    def test_other_statuses_are_raised(self):
        receiver = self.receiver
        self.assertEqual(self.status(receiver.grant, 2, 1, 17, 8), Status.NO_CHANNEL)
        self.assertEqual(self.status(receiver.burst, 0, 1, True, bytes(65536)), Status.LENGTH_RANGE)
        self.assertEqual(self.status(receiver.decide, 1, Decision.GAP), Status.NO_FLOW)
        self.assertEqual(self.status(receiver.restart, 0, 8192), Status.NUMBER_RANGE)
        self.assertEqual(self.status(receiver.decide, 0, 3), Status.UNKNOWN_DECISION)
        receiver.close()
        self.assertEqual(self.status(receiver.go_on, 0), Status.CLOSED)
        self.assertEqual(self.status(Receiver, 0, [FLOW], ROWS), Status.NO_CHANNELS)
        self.assertEqual(self.status(Receiver, 2, [], []), Status.NO_FLOWS)
        self.assertEqual(self.status(Receiver, 2, [FLOW], ROWS, 3), Status.UNKNOWN_RULE)

    def test_numbers_that_do_not_fit(self):
        with self.assertRaises(ctypes.ArgumentError):
            self.receiver.grant(0, 1, 65536 + 17, 8)
        with self.assertRaises(ctypes.ArgumentError):
            self.receiver.decide(-1, Decision.GAP)
        with self.assertRaises(OverflowError):
            Flow(100, 0, 65536 + 16, 2)
        with self.assertRaises(OverflowError):
            Row(flow=0, sid=17, channel=256)

    def test_a_restart(self):
        self.send(0, segment(0, payload=b"\x00\x00\x00\x00"))
        counts = self.receiver.restart(0, 8000)
        self.assertEqual((counts.kept, counts.frames, counts.skipped), (1, 0, 4))
        self.assertEqual(self.send(0, segment(8000)), Status.OK)

    def test_longest_frame(self):
        frame = b"\x01\x00" + (65535 - 14).to_bytes(2, "big") + bytes(65535 - 12)
        self.assertEqual(self.send(0, segment(0, payload=frame[:65527])), Status.OK)
        self.assertEqual([*self.receiver.frames()], [(0, frame[:65527])])

    def test_another_thread_and_a_freed_receiver(self):
        raised = []

        def use():
            try:
                self.receiver.close()
            except RuntimeError as error:
                raised.append(error)

        thread = threading.Thread(target=use)
        thread.start()
        thread.join()
        self.assertEqual(len(raised), 1)
        self.receiver.free()
        with self.assertRaises(ValueError):
            self.receiver.close()


if __name__ == "__main__":
    unittest.main()
