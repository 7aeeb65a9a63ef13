"""POSIX message queues inside one program, over a library of proved calls.

    from yakyrombe import System

    with System() as system:
        [process] = system.processes
        orders = process.open("/orders", create=True, max_messages=10, message_size=64)
        orders.send(b"sweep the floor", priority=1)
        orders.send(b"put out the fire", priority=9)
        print(orders.receive())     # Message(data=b'put out the fire', priority=9)
"""
from .clock import Clock, RealClock, VirtualClock
from .errors import (BadJournal, Error, JournalFull, NoQueue, NotOpen, NotStored, NotWaiting,
                     QueueExists, TimedOut, Waiting, WouldWait)
from .queues import Attributes, Message, Process, Queue, System, Wait

__all__ = ["Attributes", "BadJournal", "Clock", "Error", "JournalFull", "Message", "NoQueue",
           "NotOpen", "NotStored", "NotWaiting", "Process", "Queue", "QueueExists", "RealClock",
           "System", "TimedOut", "VirtualClock", "Wait", "Waiting", "WouldWait"]
__version__ = "0.1.0"
