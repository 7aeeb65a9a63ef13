"""What the package adds to the library: values, errors, waits, threads, clocks, journals."""
from __future__ import annotations

import signal
import threading
import time
import unittest

from yakyrombe import (BadJournal, Error, JournalFull, Message, NoQueue, NotOpen, NotStored,
                       NotWaiting, QueueExists, System, TimedOut, VirtualClock, Wait, Waiting,
                       WouldWait)


def one(**options: object):
    """A system of one process, with a queue of two messages of eight bytes."""
    system = System(**options)  # type: ignore[arg-type]
    queue = system.processes[0].open("/q", create=True, max_messages=2, message_size=8)
    return system, queue


class Calls(unittest.TestCase):
    def test_the_highest_priority_comes_first_and_then_the_oldest(self) -> None:
        system, queue = one()
        queue.send(b"low", 1)
        queue.send(b"high", 9)
        self.assertEqual(queue.receive(), Message(b"high", 9))
        queue.send(b"later", 1)
        self.assertEqual([queue.receive().data for _ in range(2)], [b"low", b"later"])
        system.close()

    def test_messages_have_all_bytes_and_may_be_empty(self) -> None:
        _, queue = one()
        for data in [b"", b"\0\1\xff", bytes(range(248, 256))]:
            queue.send(data, 32767)
            self.assertEqual(queue.receive(), Message(data, 32767))

    def test_attributes_and_the_flag(self) -> None:
        _, queue = one()
        queue.send(b"a")
        self.assertEqual(queue.attributes, (2, 8, 1, False))
        self.assertFalse(queue.set_nonblocking(True).nonblocking)
        queue.receive()
        with self.assertRaises(WouldWait):
            queue.receive()

    def test_notices(self) -> None:
        system, queue = one()
        queue.notify(7)
        with self.assertRaises(Error):
            queue.notify(8)
        self.assertIsNone(system.processes[0].next_notice())
        queue.send(b"a")
        self.assertEqual(system.processes[0].next_notice(), 7)
        with self.assertRaises(Error):
            queue.unnotify()

    def test_each_error_has_its_class_and_number(self) -> None:
        system, queue = one()
        process = system.processes[0]
        cases = [
            (NoQueue, 2, lambda: process.open("/none")),
            (QueueExists, 17, lambda: process.open("/q", create=True, exclusive=True)),
            (Error, 22, lambda: process.open("q", create=True)),
            (Error, 36, lambda: process.open("/" + "n" * 256, create=True)),
            (Error, 90, lambda: queue.send(b"longer than it may be")),
            (Error, 22, lambda: queue.send(b"", 32768)),
            (NotOpen, 9, lambda: process.open("/q", "r").send(b"")),
            (NotStored, 95, lambda: list(system.entries())),
            (TimedOut, 110, lambda: queue.receive(timeout=0)),
        ]
        for kind, number, call in cases:
            with self.assertRaises(kind) as caught:
                call()
            self.assertEqual(caught.exception.errno, number)
            self.assertTrue(caught.exception.strerror)
        for process_count in [0, 33]:
            with self.assertRaises(ValueError):
                System(process_count)
        with self.assertRaises(ValueError):
            process.open("/q", "rwx")

    def test_a_closed_queue_and_a_closed_system_fail(self) -> None:
        system, queue = one()
        with queue:
            queue.send(b"a")
        with self.assertRaises(NotOpen):
            queue.receive()
        system.close()
        system.close()
        with self.assertRaises(Error):
            system.processes[0].open("/q")

    def test_a_bounded_journal_is_full_at_some_time(self) -> None:
        system, queue = one(bounds=(3, 100))
        queue.send(b"a")
        with self.assertRaises(JournalFull):
            queue.send(b"b")
        self.assertEqual(len(list(system.entries())), 2)

    def test_a_prepaid_system_makes_calls(self) -> None:
        _, queue = one(prepaid=True)
        queue.send(b"a")
        self.assertEqual(queue.receive().data, b"a")


class Waits(unittest.TestCase):
    def test_a_wait_is_answered_by_another_thread(self) -> None:
        system, queue = one(processes=2)
        other = system.processes[1].open("/q")
        thread = threading.Timer(0.05, other.send, (b"late", 3))
        thread.start()
        self.assertEqual(queue.receive(), Message(b"late", 3))
        thread.join()

    def test_a_full_queue_makes_a_send_wait(self) -> None:
        system, queue = one(processes=2)
        other = system.processes[1].open("/q")
        for data in [b"1", b"2"]:
            queue.send(data)
        with self.assertRaises(TimedOut):
            queue.send(b"3", timeout=0.01)
        wait = queue.start_send(b"3")
        assert wait is not None
        self.assertFalse(wait.is_answered)
        self.assertEqual(other.receive().data, b"1")
        self.assertTrue(wait.is_answered)
        self.assertIsNone(wait.result())
        self.assertEqual([other.receive().data for _ in range(2)], [b"2", b"3"])

    def test_a_wait_in_two_parts_is_collected_or_cancelled(self) -> None:
        system, queue = one(processes=2)
        other = system.processes[1].open("/q")
        wait = queue.start_receive()
        assert isinstance(wait, Wait)
        with self.assertRaises(Waiting):
            queue.send(b"no")
        self.assertIsNone(wait.cancel())
        with self.assertRaises(NotWaiting):
            wait.result()
        wait = queue.start_receive()
        assert isinstance(wait, Wait)
        other.send(b"yes")
        self.assertEqual(wait.cancel(), Message(b"yes", 0))

    def test_a_deadline_passes_in_real_time(self) -> None:
        _, queue = one()
        start = time.monotonic()
        with self.assertRaises(TimedOut):
            queue.receive(timeout=0.12)
        self.assertGreaterEqual(time.monotonic() - start, 0.12)

    def test_an_interrupt_ends_a_wait_and_withdraws_it(self) -> None:
        system, queue = one(processes=2)
        other = system.processes[1].open("/q")
        signal.setitimer(signal.ITIMER_REAL, 0.05)
        before = signal.signal(signal.SIGALRM, signal.default_int_handler)
        with self.assertRaises(KeyboardInterrupt):
            queue.receive()
        signal.signal(signal.SIGALRM, before)
        other.send(b"kept")
        self.assertEqual(queue.receive().data, b"kept")

    def test_a_process_refuses_a_second_thread(self) -> None:
        system, queue = one(processes=2)
        thread = threading.Thread(target=queue.receive)
        thread.start()
        time.sleep(0.05)
        with self.assertRaises(RuntimeError):
            queue.send(b"from here")
        system.processes[1].open("/q").send(b"end")
        thread.join()

    def test_threads_pass_every_message_once(self) -> None:
        system, _ = one(processes=8)
        queues = [it.open("/q", create=True) for it in system.processes]
        got: list[bytes] = []

        def receive(mine: int) -> None:
            for _ in range(100):
                got.append(queues[mine].receive().data)

        def send(mine: int) -> None:
            for k in range(100):
                queues[mine].send(b"%d %d" % (mine, k))

        threads = [threading.Thread(target=send if i % 2 else receive, args=(i,)) for i in range(8)]
        for thread in threads:
            thread.start()
        for thread in threads:
            thread.join()
        self.assertEqual(len(set(got)), 400)


class Journals(unittest.TestCase):
    def test_a_journal_lists_the_calls_and_is_checked(self) -> None:
        system, queue = one(journal=True)
        queue.send(b"a b")
        lines = list(system.entries())
        self.assertEqual(lines[0], '0 1 open bc limits 2 8 "/q" -> fd 0 created\n')
        self.assertIn('"a%20b" -> queued', lines[1])
        system.check()

    def test_a_long_line_is_read(self) -> None:
        system = System(journal=True)
        queue = system.processes[0].open("/q", create=True, message_size=65536)
        queue.send(b"\0" * 65536)
        self.assertGreater(len(list(system.entries())[-1]), 3 * 65536)

    def test_a_system_continues_from_a_journal(self) -> None:
        system, queue = one(journal=True)
        queue.send(b"kept", 4)
        again = System.resume("".join(system.entries()), 2)
        self.assertEqual(again.processes[1].open("/q").receive(), Message(b"kept", 4))

    def test_a_bad_journal_names_its_line(self) -> None:
        with self.assertRaises(BadJournal) as caught:
            System.resume('0 1 open bc "/q" -> fd 0 created\nnonsense\n', 1)
        self.assertEqual(caught.exception.line, 2)


class Clocks(unittest.TestCase):
    def test_hours_pass_at_once_in_virtual_time(self) -> None:
        clock = VirtualClock()
        _, queue = one(clock=clock)
        start = time.monotonic()
        with self.assertRaises(TimedOut):
            queue.receive(timeout=3600)
        self.assertEqual(clock.seconds, 3600)
        clock.advance(0.5)
        self.assertEqual(clock.seconds, 3600.5)
        self.assertLess(time.monotonic() - start, 5)
        with self.assertRaises(ValueError):
            clock.advance(-1)


if __name__ == "__main__":
    unittest.main()
