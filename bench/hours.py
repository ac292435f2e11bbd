#!/usr/bin/env python3
"""Measures what looks at hours: a downlink on a gateway with many bookings. files.py measures reports.

    bench/hours.py

It prints the microseconds of one DownBook by how many bookings the gateway has. It is timed through `desk lines`: of two streams
the one ends with 50,000 of them more, each refused since it collides with a booking, so that the bookings stay as many. All times
are the least of five runs.
"""

import argparse
import os
import subprocess
import sys
import tempfile

from normal_operation import DEVICES, ROOT, SECOND, Stream

# between two uplinks, in microseconds: so far apart their downlinks keep every hour
APART = 10_000_000

MORE = 50_000

RUNS = 5


class OneGateway(Stream):
    """Every frame is heard by the first gateway alone."""

    def hearing(self):
        return [0]


def downlinks(count):
    """A stream that ends with that many bookings at one gateway, and one with further downlinks that collide with the last."""
    stream = OneGateway(1)
    stream.register()
    for device in range(DEVICES):
        stream.join(device)
    up = [0] * DEVICES
    down = [0] * DEVICES
    for place in range(count):
        device = place % DEVICES
        stream.now += APART
        stream.data(device, up[device])
        up[device] += 1
        stream.answer(device, down[device], 0)
        down[device] += 1
    # a device that sends at the same time as the last one, so that their downlinks would too
    other = count % DEVICES
    stream.now -= SECOND
    stream.data(other, up[other])
    begun = len(stream.lines)
    for _ in range(MORE):
        stream.answer(other, down[other], 0)
        # no DownDone
        stream.lines.pop()
    return stream.lines[:begun], stream.lines


def seconds(lines, refused):
    """The processor's seconds, the least of the runs. The last `refused` lines are refused."""
    least = None
    with tempfile.TemporaryFile() as given, tempfile.TemporaryFile() as told:
        given.write("".join(line + "\n" for line in lines).encode())
        for _ in range(RUNS):
            given.seek(0)
            told.seek(0)
            program = subprocess.Popen([ROOT / "desk", "lines"], stdin=given, stdout=told)
            _, status, used = os.wait4(program.pid, 0)
            if status != 0:
                sys.exit(f"desk ended with {status}")
            took = used.ru_utime + used.ru_stime
            least = took if least is None else min(least, took)
        told.seek(0)
        answers = told.read().splitlines()
    for place, (line, answer) in enumerate(zip(lines, answers, strict=True)):
        if (b'"ResultCode":"Success"' in answer) != (place < len(lines) - refused):
            sys.exit(f"{line}\n{answer.decode()}")
    return least


def main():
    argparse.ArgumentParser(description=__doc__, formatter_class=argparse.RawDescriptionHelpFormatter).parse_args()
    # the first call may prove and build the program
    subprocess.run([ROOT / "desk", "lines"], stdin=subprocess.DEVNULL, check=True)
    for count in (100, 10_000, 100_000):
        before, after = downlinks(count)
        took = (seconds(after, MORE) - seconds(before, 0)) / MORE
        print(f"DownBook: {count} bookings, {took * 1_000_000:.1f} microseconds", flush=True)


if __name__ == "__main__":
    main()
