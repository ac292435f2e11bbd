#!/usr/bin/env python3
"""Measures `desk lines` on streams of normal operation.

    bench/normal_operation.py [--program FILE] [--sizes 2000,10000,50000] [--seed 1] [--write FILE]

A stream is one owner, 8 gateways and 200 devices, which join, and then send data frames that 1 to 3 gateways hear. Every
tenth data frame is answered in its first window, and each downlink is reported as sent. Now and then the operator sets the
limit of a gateway's band: lower and higher again where there are downlinks, and 0 where there are none. For each size it
prints the lines a second, how the time grows from size to size, and the peak memory, and how many times as
long a plain Python program over dictionaries takes (dictionaries.py). Every answer has to be a success, and the two
programs have to give the same octets. With --write the largest stream goes into a file, and nothing is measured.
"""

import argparse
import json
import random
import subprocess
import sys
import tempfile
import time
from pathlib import Path

ROOT = Path(__file__).resolve().parent.parent

sys.path.append(str(ROOT / "checks"))
from common import add_program, ready  # noqa: E402

GATEWAYS = 8
DEVICES = 200

# 2024-02-01 00:00 UTC, in microseconds
BEGINNING = 1_706_745_600_000_000

# after this many data frames a limit is set, at the gateways in turn, in each round of them the next of these
FRAMES_A_LIMIT = 500
LIMITS = [("B3", 18_000_000), ("B1", 0), ("B3", 36_000_000), ("B1", 3_600_000)]

# between two uplinks: no downlink then collides with another, and no hour comes near its limit
SECOND = 1_000_000

FREQUENCIES = [868_100_000, 868_300_000, 868_500_000]
BASE = 0x01A0_0000
JOIN_EUI = 0x70B3_D57E_D000_0001
FIRST_DEV_EUI = 0x0004_A30B_001A_0000


class Stream:
    """Messages in order, each with the next number of its sender."""

    def __init__(self, seed, devices=DEVICES):
        self.random = random.Random(seed)
        self.devices = devices
        self.lines = []
        self.transactions = {}
        self.now = BEGINNING
        self.uplinks = 0
        self.bookings = 0

    def say(self, sender, message_type, **members):
        number = self.transactions.get(sender, 0)
        self.transactions[sender] = number + 1
        head = {
            "ProtocolVersion": "1.0",
            "SenderID": sender,
            "ReceiverID": "desk",
            "TransactionID": number,
            "MessageType": message_type,
        }
        self.lines.append(json.dumps({**head, **members}, separators=(",", ":")))

    def register(self):
        self.say("office", "SenderAdd", Sender="bridge", Role="radio")
        self.say("office", "OwnerAdd", Owner="town")
        for n in range(GATEWAYS):
            self.say("office", "GatewayAdd", Gateway=f"gw-{n}")
        for n in range(self.devices):
            self.say("office", "DeviceAdd", DevEUI=f"{FIRST_DEV_EUI + n:016x}", JoinEUI=f"{JOIN_EUI:016x}", Owner="town")

    def report(self, message_type, gateways, octets, frequency, verdict):
        for late, gateway in enumerate(gateways):
            self.say(
                "bridge",
                message_type,
                Gateway=f"gw-{gateway}",
                Time=self.now + late,
                Freq=frequency,
                DataRate=5,
                PHYPayload=octets.hex(),
                Verdict=verdict,
            )

    def hearing(self):
        return self.random.sample(range(GATEWAYS), self.random.randint(1, 3))

    def mic(self):
        return self.random.randbytes(4)

    def join(self, device):
        self.now += SECOND
        self.uplinks += 1
        eui = (FIRST_DEV_EUI + device).to_bytes(8, "little")
        octets = b"\x00" + JOIN_EUI.to_bytes(8, "little") + eui + b"\x00\x00" + self.mic()
        self.report("JoinHeard", self.hearing(), octets, self.random.choice(FREQUENCIES), "Good")

    def data(self, device, counter):
        self.now += SECOND
        self.uplinks += 1
        gateways = self.hearing()
        address = (BASE + device).to_bytes(4, "little")
        payload = self.random.randbytes(self.random.randint(0, 20))
        body = b"\x01" + payload if payload else b""
        octets = b"\x40" + address + b"\x00" + (counter % 65_536).to_bytes(2, "little") + body + self.mic()
        self.report("FrameHeard", gateways, octets, self.random.choice(FREQUENCIES), counter)
        return gateways[0]

    def answer(self, device, counter, gateway):
        self.bookings += 1
        address = (BASE + device).to_bytes(4, "little")
        octets = b"\x60" + address + b"\x00" + (counter % 65_536).to_bytes(2, "little") + self.mic()
        self.say("bridge", "DownBook", Uplink=self.uplinks, Gateway=f"gw-{gateway}", Window=1, PHYPayload=octets.hex())
        self.say("bridge", "DownDone", Booking=self.bookings, Sent=True)

    def limit(self, place):
        """The limit with this place in the order in which they are set."""
        band, most = LIMITS[place // GATEWAYS % len(LIMITS)]
        self.say("office", "LimitSet", Gateway=f"gw-{place % GATEWAYS}", Band=band, Limit=most)


def normal_operation(size, seed, limits=True):
    """`size` lines, from the opening state on. Without limits no line is a LimitSet, and the others are the same ones."""
    stream = Stream(seed)
    stream.register()
    for device in range(DEVICES):
        stream.join(device)
    up = [0] * DEVICES
    down = [0] * DEVICES
    frames = 0
    while len(stream.lines) < size:
        device = stream.random.randrange(DEVICES)
        gateway = stream.data(device, up[device])
        up[device] += 1
        frames += 1
        if frames % 10 == 0:
            stream.answer(device, down[device], gateway)
            down[device] += 1
        if limits and frames % FRAMES_A_LIMIT == 0:
            stream.limit(frames // FRAMES_A_LIMIT - 1)
    return stream.lines[:size]


def peak_of(process):
    """Kilobytes at the peak so far, as the kernel counts them for the program that runs now."""
    try:
        status = Path(f"/proc/{process.pid}/status").read_text()
    except (FileNotFoundError, ProcessLookupError):
        return 0
    return next((int(line.split()[1]) for line in status.splitlines() if line.startswith("VmHWM")), 0)


def run(words, lines):
    """Seconds, kilobytes at the peak, and the answers."""
    with tempfile.TemporaryFile() as given, tempfile.TemporaryFile() as told:
        given.write("".join(line + "\n" for line in lines).encode())
        given.seek(0)
        peak = 0
        begun = time.monotonic()
        program = subprocess.Popen(words, stdin=given, stdout=told)
        while program.poll() is None:
            peak = max(peak, peak_of(program))
            time.sleep(0.002)
        seconds = time.monotonic() - begun
        if program.returncode != 0:
            sys.exit(f"{words[0]} ended with {program.returncode}")
        told.seek(0)
        return seconds, peak, told.read().splitlines()


def measure(program, lines):
    """Seconds, kilobytes at the peak, and the seconds of the plain program."""
    seconds, peak, answers = run([program, "lines"], lines)
    plain_seconds, _, plain_answers = run([sys.executable, ROOT / "bench" / "dictionaries.py"], lines)
    if len(answers) != len(lines):
        sys.exit(f"{len(answers)} answers to {len(lines)} lines")
    for line, answer in zip(lines, answers):
        if b'"ResultCode":"Success"' not in answer:
            sys.exit(f"{line}\n{answer.decode()}")
    if answers != plain_answers:
        sys.exit("the plain program answers something else")
    return seconds, peak, plain_seconds


def main():
    words = argparse.ArgumentParser(description=__doc__, formatter_class=argparse.RawDescriptionHelpFormatter)
    add_program(words)
    words.add_argument("--sizes", default="2000,10000,50000")
    words.add_argument("--seed", type=int, default=1)
    words.add_argument("--write", metavar="FILE")
    given = words.parse_args()
    sizes = [int(size) for size in given.sizes.split(",")]
    if given.write:
        Path(given.write).write_text("".join(line + "\n" for line in normal_operation(max(sizes), given.seed)))
        return
    program = ready(given.program)
    print(f"{'lines':>8} {'seconds':>9} {'lines/s':>9} {'growth':>8} {'peak MiB':>9} {'plain/desk':>11}")
    before = None
    for size in sizes:
        seconds, peak, plain_seconds = measure(program, normal_operation(size, given.seed))
        growth = "" if before is None else f"{(seconds / before[1]) / (size / before[0]):.2f}"
        print(f"{size:>8} {seconds:>9.2f} {size / seconds:>9.0f} {growth:>8} {peak / 1024:>9.1f} {plain_seconds / seconds:>11.1f}")
        before = (size, seconds)


if __name__ == "__main__":
    main()
