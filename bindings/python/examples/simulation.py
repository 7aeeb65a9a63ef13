"""A sensor sends a value every 10 ms, and an alarm every 70; a slow display takes 15 ms for each
message, the alarms first. One thread plays all of them, in virtual time."""
from __future__ import annotations

from yakyrombe import System, TimedOut, VirtualClock

END = 0.150


def main() -> None:
    """Runs the simulation and prints what the display showed."""
    clock = VirtualClock()
    with System(2, journal=True, clock=clock) as system:
        sensor, display = system.processes
        values = sensor.open("/values", "w", create=True, max_messages=20, message_size=16)
        shown = display.open("/values", "r")
        sends = sorted([(k * 0.010, b"value %d" % k, 0) for k in range(15)]
                       + [(k * 0.070, b"alarm %d" % k, 9) for k in range(1, 3)])
        while clock.seconds < END:
            while sends and sends[0][0] <= clock.seconds:
                _, data, priority = sends.pop(0)
                values.send(data, priority)
            due = sends[0][0] if sends else END
            try:
                message = shown.receive(timeout=max(0.0, due - clock.seconds))
            except TimedOut:
                continue
            print(f"{clock.seconds * 1000:4.0f} ms: {message.data.decode()}")
            clock.advance(0.015)
        print(f"{shown.attributes.messages} messages are left")
        system.check()


if __name__ == "__main__":
    main()
