#!/usr/bin/env python3
"""Runs the example bridge between a simulated town and a desk, kills both now and then, and compares the books.

    checks/bridge.py [--program FILE] [--seeds 1 2 3] [--frames 600] [--devices 40] [--gateways 4] [--kills 6]

For each seed a desk serves a new file, examples/bridge/bridge.py runs with it, and examples/bridge/simulate.py is the town:
gateways whose datagrams get lost, come twice and come late, and devices that join and send data frames. Bridge, desk or both are
ended by SIGKILL at random moments and started again. The unit tests of the bridge run first.

At the end sqlite3 reads the desk's file, at rest. Each frame is booked once, with the device's counter, each report that a gateway
was acknowledged is a reception, and what was replayed or has a wrong MIC is booked never. Each accepted join has one accept. Each
transmission of a gateway has a booking of its own that isn't dropped: begin, frequency, data rate and time on air are those of the
booking. The journal's answers are the desk's, no hour of a sub-band is above its limit, and the room that is left after a gateway's
last downlink is the one that a plain computation finds. `desk audit` finds the file in order, with as many messages as it has replies.

It prints what it saw, and each thing that isn't as it should be; then it fails, and states whether the machine is too slow. The
program is `./desk`, which is proved and built first if it isn't current, or with --program the built one in FILE.
"""

import argparse
import bisect
import json
import random
import signal
import socket
import subprocess
import sys
import tempfile
import threading
import time
from collections import Counter, defaultdict
from contextlib import closing
from dataclasses import dataclass
from pathlib import Path

from common import ROOT, Running, add_program, reading, ready, text_of, wants
from http_client import free_port

EXAMPLE = ROOT / "examples" / "bridge"
sys.path.insert(0, str(EXAMPLE))

import simulate  # noqa: E402
from gateway import LORA_DATA_RATES  # noqa: E402
from journal import Journal  # noqa: E402
from security import SecurityModule  # noqa: E402

SENDER = "bridge"
DATA, DROPPED, BOOKED = 1, 2, 0
PAYLOADS_A_DEVICE = 1
SECOND_WINDOW = (869_525_000, "SF12BW125")
# the last gateway has so little time on air that it is soon used up
SMALL_LIMITS = {"B2": 500_000, "B3": 500_000, "B4": 20_000, "B5": 3_000_000}
SETTLED_SECONDS = 40
# a report of a join that comes so long after the first one can still be answered in each window
IN_TIME_US = 2_000_000
# without GPS a reception has the time at which its datagram came, which may have been sent again while the bridge was killed
CLOCKS_APART_US, LONGEST_LATE_US = 1_000, 15_000_000
START_SECONDS = 30
HOUR_US, LONGEST_DOWNLINK_US = 3_600_000_000, 3_000_000
SHORT_PAUSE_SECONDS, LONG_PAUSE_SECONDS = 0.01, 0.2


# ---- the programs, which are killed and started again


class Killer(threading.Thread):
    """Kills the bridge, the desk, or both, in turns, `kills` times within the seconds in which the town sends."""

    def __init__(self, bridge, desk, kills, seconds, chance):
        super().__init__(daemon=True)
        # of both the desk goes first, so that the bridge has messages without an answer
        self.turns = [[bridge], [desk], [desk, bridge]]
        self.chance = chance
        self.pauses = [seconds / (kills + 1) * chance.uniform(0.6, 1.1) for _ in range(kills)]
        self.ended = threading.Event()
        self.wrong = []

    def run(self):
        for number, pause in enumerate(self.pauses):
            if self.ended.wait(pause):
                return
            killed = self.turns[number % len(self.turns)]
            for program in killed:
                self.kill(program)
                time.sleep(self.chance.uniform(0.05, 0.8))
            for program in killed:
                program.start()

    def kill(self, program):
        status = program.kill()
        program.kills += 1
        if status != -signal.SIGKILL:
            self.wrong.append(f"{program.name} had ended by itself, with {status}")

    def end(self):
        self.ended.set()
        self.join(START_SECONDS)


class Pauses(threading.Thread):
    """How long the longest of many short pauses took. The town is in real time, so a machine on which it's long is too slow for it."""

    def __init__(self):
        super().__init__(daemon=True)
        self.longest = 0

    def run(self):
        while True:
            begun = time.monotonic()
            time.sleep(SHORT_PAUSE_SECONDS)
            self.longest = max(self.longest, time.monotonic() - begun)

    def __str__(self):
        if self.longest < LONG_PAUSE_SECONDS:
            return ""
        return f" (a pause of {SHORT_PAUSE_SECONDS * 1000:.0f} ms took {self.longest * 1000:.0f} ms: this machine is too slow or too busy for a town in real time)"


# ---- one run


@dataclass
class Books:
    """What is compared, read at rest."""

    replies: list  # (number, message, answer) of the bridge
    uplinks: list
    sessions: dict
    receptions: dict
    bookings: list
    journal: list
    downlinks: list
    tried: list
    arrivals: dict
    inbox: dict
    waiting: Counter


def message(number, kind, **members):
    envelope = {"ProtocolVersion": "1.0", "SenderID": "office", "ReceiverID": "desk", "TransactionID": number, "MessageType": kind}
    return json.dumps(envelope | members)


def registry(town):
    yield "SenderAdd", {"Sender": SENDER, "Role": "radio"}
    yield "OwnerAdd", {"Owner": "town"}
    for gateway in town.gateways:
        yield "GatewayAdd", {"Gateway": gateway.eui}
    for device in town.devices:
        yield "DeviceAdd", {"DevEUI": device.dev_eui, "JoinEUI": simulate.JOIN_EUI, "Owner": "town"}
    for band, limit in SMALL_LIMITS.items():
        yield "LimitSet", {"Gateway": town.gateways[-1].eui, "Band": band, "Limit": limit}


def prepare(program, folder, town):
    file = folder / "town.db"
    subprocess.run([program, "init", file], check=True)
    lines = [message(number, kind, **members) for number, (kind, members) in enumerate(registry(town), 1)]
    heard = subprocess.run([program, "hear", file], input=text_of(lines), capture_output=True, text=True, check=True)
    wants(heard.stdout.count('"ResultCode":"Success"') == len(lines), f"the town isn't registered:\n{heard.stdout}")
    with closing(SecurityModule(folder / "security.db")) as module:
        for device in town.devices:
            module.add_device(device.dev_eui, town.module_key(device))
    with closing(Journal(folder / "journal.db").store) as store, store:
        rows = [(device.dev_eui, 7, f"payload {n}".encode()) for device in town.devices for n in range(PAYLOADS_A_DEVICE)]
        store.executemany("INSERT INTO outbox (dev_eui, port, payload) VALUES (?, ?, ?)", rows)
    return file


def is_settled(folder):
    with reading(folder / "journal.db") as store:
        (left,) = store.execute(
            """SELECT (SELECT count(*) FROM message WHERE answer IS NULL)
                    + (SELECT count(*) FROM downlink WHERE state IN ('asked', 'booked', 'given'))"""
        ).fetchone()
    return left == 0


def run_town(program, folder, town, given, seed):
    """The desk's file after the town has sent its frames, and how often each program was killed."""
    file = prepare(program, folder, town)
    port, log = free_port(), folder / "log"
    desk = Running("the desk", [program, "serve", file, "--port", str(port), "--count", "1000000"], log)
    words = [sys.executable, EXAMPLE / "bridge.py", folder, "run", "--desk", f"127.0.0.1:{port}", "--listen", f"127.0.0.1:{town.bridge[1]}"]
    bridge = Running("the bridge", words, log)
    # about how many seconds pass between two frames of a device
    seconds = given.frames / given.devices * simulate.DATA_PAUSE_SECONDS
    killer = Killer(bridge, desk, given.kills, seconds, random.Random(seed))
    try:
        desk.start()
        bridge.start()
        killer.start()
        town.run(given.frames, 4 * seconds + 60)
        killer.end()
        end = time.monotonic() + SETTLED_SECONDS
        while not is_settled(folder) and time.monotonic() < end and bridge.is_running():
            time.sleep(0.2)
        for running in (bridge, desk):
            if not running.is_running():
                town.wrong(f"{running.name} has ended by itself:\n{log.read_text()[-2000:]}")
        if not is_settled(folder):
            town.wrong(f"the bridge hasn't settled within {SETTLED_SECONDS} seconds:\n{log.read_text()[-2000:]}")
    finally:
        killer.end()
        for running in (bridge, desk):
            running.kill()
    town.errors += killer.wrong
    return file, bridge.kills, desk.kills


def grouped(rows):
    groups = defaultdict(list)
    for key, *rest in rows:
        groups[key].append(rest)
    return groups


def read_books(file, folder):
    with reading(file) as desk, reading(folder / "journal.db") as journal:
        replies = desk.execute("SELECT number, message, answer FROM reply WHERE sender = ? ORDER BY seq", (SENDER,)).fetchall()
        return Books(
            replies=[(number, json.loads(text), json.loads(answer)) for number, text, answer in replies],
            uplinks=desk.execute("SELECT number, session, kind, counter, octets FROM uplink").fetchall(),
            sessions={row[0]: (row[1].hex(), row[2]) for row in desk.execute("SELECT number, device, next_down FROM session")},
            receptions={row[:2]: row[2:] for row in desk.execute("SELECT uplink, gateway, ended, freq, dr FROM copy")},
            bookings=desk.execute("SELECT number, uplink, gateway, session, kind, start, airtime, state FROM booking").fetchall(),
            journal=journal.execute("SELECT transaction_id, body, answer FROM message").fetchall(),
            downlinks=journal.execute("SELECT uplink, phy_payload, booking, state FROM downlink").fetchall(),
            tried=journal.execute("SELECT uplink, gateway, window, state FROM downlink").fetchall(),
            arrivals=grouped(journal.execute("SELECT uplink, arrived, gateway FROM reception WHERE uplink IS NOT NULL")),
            inbox={row[0]: row[1:] for row in journal.execute("SELECT uplink, dev_eui, counter, payload FROM inbox")},
            waiting=Counter(row[0] for row in journal.execute("SELECT sent FROM outbox")),
        )


# ---- what has to be so; each yields what isn't


def uplinks_are_the_frames(books, town):
    """Each frame that was sent as a new one is booked once, with its counter and its device, and nothing else is."""
    booked = defaultdict(list)
    for number, session, kind, counter, octets in books.uplinks:
        booked[octets].append((books.sessions[session][0], kind, counter))
    for frame in town.frames:
        found = booked.pop(frame.phy_payload, [])
        wanted = [(frame.dev_eui, 0 if frame.is_join else DATA, frame.counter)] if frame.wanted == "booked" else []
        if found != wanted:
            yield f"{frame} is booked as {found}"
    for octets, found in booked.items():
        yield f"{octets.hex()}, which no device sent, is booked as {found}"


def reports_are_receptions(books, town):
    """Each report that was acknowledged is a reception, with a time, frequency and data rate at which the gateway heard the frame."""
    reported = defaultdict(list)
    uplink_of = {octets: number for number, _, _, _, octets in books.uplinks}
    for heard in town.heard:
        if heard.phy_payload in uplink_of:
            reported[uplink_of[heard.phy_payload], heard.gateway].append(heard)
        if not heard.is_acknowledged:
            yield f"{heard} wasn't acknowledged"
    if missing := reported.keys() - books.receptions.keys():
        yield f"{len(missing)} receptions are missing, {sorted(missing)[:5]}"
    for key, (ended, frequency, data_rate) in books.receptions.items():
        if not any(fits(heard, ended, frequency, data_rate) for heard in reported[key]):
            yield f"reception {key}, {ended} {frequency} {data_rate}, is none of {reported[key]}"


def number_of(datr):
    return LORA_DATA_RATES.get(datr, 7)


def fits(heard, ended, frequency, data_rate):
    """Whether the desk's reception is what the gateway heard."""
    is_in_time = ended == heard.time if heard.has_gps else -CLOCKS_APART_US <= ended - heard.time <= LONGEST_LATE_US
    return is_in_time and (heard.frequency, number_of(heard.datr)) == (frequency, data_rate)


def refusals_are_wanted(books, town):
    """Frames are refused for what the town did, and for nothing else."""
    wanted = {frame.phy_payload.hex(): frame.wanted for frame in town.frames}
    for _, request, answer in books.replies:
        result = answer["Result"]
        if request["MessageType"] in ("JoinHeard", "FrameHeard"):
            code = "booked" if result["ResultCode"] == "Success" else result["Description"] or result["ResultCode"]
            if code != wanted.get(request["PHYPayload"]):
                yield f"{request} is answered {result}"
        elif result["ResultCode"] != "Success" and result["Description"] not in ("collision", "duty"):
            yield f"{request} is answered {result}"


def joins_have_one_accept(books, town):
    """An accepted join has one accept: one text, one booking that isn't dropped, and at most one transmission.

    It has no booking only if both windows of each gateway whose report came in time were refused, or booked and dropped.
    """
    texts, sent = defaultdict(set), Counter(transmitted.phy_payload for transmitted in town.transmitted)
    for uplink, phy_payload, _, _ in books.downlinks:
        texts[uplink].add(phy_payload)
    answered = Counter(booking[1] for booking in books.bookings if booking[-1] != DROPPED)
    for number, _, kind, _, _ in books.uplinks:
        if kind == DATA:
            continue
        if len(texts[number]) != 1 or answered[number] > 1 or (answered[number] == 0 and not is_refused_everywhere(books, number)):
            tried = [row[1:] for row in books.tried if row[0] == number]
            yield f"the join of uplink {number} has {answered[number]} accepts, of {len(texts[number])} texts; {tried} of {books.arrivals[number]}"
        for phy_payload in texts[number]:
            if sent[phy_payload] > 1:
                yield f"the accept of uplink {number} was sent {sent[phy_payload]} times"


def is_refused_everywhere(books, uplink):
    first = min((arrived for arrived, _ in books.arrivals[uplink]), default=0)
    in_time = {gateway for arrived, gateway in books.arrivals[uplink] if arrived <= first + IN_TIME_US}
    failed = {(gateway, window) for number, gateway, window, state in books.tried if number == uplink and state in ("refused", "dropped")}
    return failed >= {(gateway, window) for gateway in in_time for window in (1, 2)}


def transmissions_are_bookings(books, town):
    """Each transmission is that of one booking which isn't dropped, and no booking is sent twice."""
    octets_of = {booking: phy_payload for _, phy_payload, booking, _ in books.downlinks if booking is not None}
    open_bookings = defaultdict(list)
    for booking in books.bookings:
        if booking[-1] != DROPPED:
            open_bookings[booking[2], octets_of.get(booking[0])].append(booking)
    heard_at = {(heard.gateway, heard.tmst): heard for heard in town.heard}
    octets_of_uplink = {number: octets for number, _, _, _, octets in books.uplinks}
    for sent in town.transmitted:
        candidates = open_bookings[sent.gateway, sent.phy_payload]
        if not candidates:
            yield f"{sent} has no booking"
            continue
        number, uplink, gateway, _, kind, start, airtime, _ = candidates.pop()
        ended = books.receptions[uplink, gateway][0]
        heard = heard_at.get((gateway, (sent.tmst - (start - ended)) % (1 << 32)))
        if heard is None or heard.phy_payload != octets_of_uplink[uplink]:
            yield f"{sent} doesn't begin at its window: booking {number} begins {start - ended} microseconds after the reception"
            continue
        first, second = simulate.WINDOWS[kind != DATA]
        on_air = {first: (heard.frequency, heard.datr), second: SECOND_WINDOW}.get(start - ended)
        if on_air != (sent.frequency, sent.datr):
            yield f"{sent} isn't as in booking {number}, {on_air}"
        if simulate.airtime(sent.datr, len(sent.phy_payload), is_up=False) != airtime:
            yield f"{sent} has another time on air than booking {number}, {airtime}"
        if sent.has_crc and sent.datr != simulate.FSK:
            yield f"{sent} has a CRC"
    for number, _, _, _, _, _, _, state in books.bookings:
        if state == BOOKED:
            yield f"the desk has no outcome of booking {number}"


def counters_agree(books, town):
    """A session's next downlink counter is the number of its bookings for data, and above what the device has seen."""
    booked = Counter(session for _, _, _, session, kind, _, _, _ in books.bookings if kind == DATA)
    for number, (_, next_down) in books.sessions.items():
        if booked[number] != next_down:
            yield f"session {number} has {booked[number]} bookings and the next counter {next_down}"
    for device in town.devices:
        if device.session:
            number = device.session.dev_addr - 0x01A00000 + 1
            dev_eui, next_down = books.sessions.get(number, (None, 0))
            if dev_eui != device.dev_eui or device.session.last_down >= next_down:
                yield f"{device.dev_eui} has counter {device.session.last_down} in session {number} of {dev_eui}, whose next is {next_down}"


def payloads_are_read(books, town):
    """The journal has each payload that a device sent, decrypted."""
    payload_of = {frame.phy_payload: frame for frame in town.frames if frame.payload}
    for number, _, kind, _, octets in books.uplinks:
        # one that isn't there is reported as booked without being sent
        if kind == DATA and (frame := payload_of.get(octets)):
            if books.inbox.get(number) != (frame.dev_eui, frame.counter, frame.payload):
                yield f"uplink {number} has {books.inbox.get(number)} and not {frame.payload}"


def journal_agrees(books, town):
    """Every message of the journal has the answer that the desk stored, and the desk heard no other of this sender."""
    stored = {number: answer for number, _, answer in books.replies}
    for number, _, answer in books.journal:
        if answer is None or json.loads(answer) != stored.pop(number, None):
            yield f"message {number} has the answer {answer}"
    if stored:
        yield f"the journal lacks {sorted(stored)[:5]}"


def hours_are_within(program, file, town):
    for gateway in town.gateways:
        bands = subprocess.run([program, "bands", file, gateway.eui], capture_output=True, text=True, check=True).stdout.splitlines()
        for line in bands[1:]:
            band, limit, _, _, peak = line.split(",")
            if int(peak) > int(limit):
                yield f"{gateway.eui} {band}: an hour holds {peak} of {limit}"


def rooms_agree(program, file):
    with reading(file) as desk:
        booked = grouped(desk.execute("SELECT gateway, band, start, airtime FROM booking WHERE state <> ?", (DROPPED,)))
    for gateway, bookings in booked.items():
        end = max(start + airtime for _, start, airtime in bookings)
        lines = subprocess.run([program, "room", file, gateway, str(end)], capture_output=True, text=True, check=True).stdout.splitlines()
        for number, line in enumerate(lines[1:], start=1):
            spans = [(start, airtime) for band, start, airtime in bookings if band == number]
            limit = int(line.split(",")[1])
            wanted = f"B{number},{limit},{use(spans, end - HOUR_US)},{room_after(spans, end, limit)}"
            if line != wanted:
                yield f"{gateway} at {end}: the room is {line} and not {wanted}"


def audit_passes(program, file):
    with reading(file) as desk:
        (count,) = desk.execute("SELECT COUNT(*) FROM reply").fetchone()
    ran = subprocess.run([program, "audit", file], capture_output=True, text=True)
    wanted = f"heard: {count}\nin order\n"
    if (ran.returncode, ran.stdout, ran.stderr) != (0, wanted, ""):
        yield f"the audit ends with {ran.returncode}: {ran.stdout!r}, {ran.stderr!r}"


def use(spans, begin):
    """How much of the hour that begins then the spans take."""
    return sum(max(0, min(begin + HOUR_US, start + airtime) - max(begin, start)) for start, airtime in spans)


def room_after(spans, end, limit):
    """The longest downlink that may begin at the time, at which all others have ended. If one fits, a shorter one does."""
    return bisect.bisect_left(
        range(1, LONGEST_DOWNLINK_US + 1), True, key=lambda length: use(spans, end + length - HOUR_US) + length > limit
    )


CHECKS = [
    uplinks_are_the_frames,
    reports_are_receptions,
    refusals_are_wanted,
    joins_have_one_accept,
    transmissions_are_bookings,
    counters_agree,
    payloads_are_read,
    journal_agrees,
]


# ---- what is printed


def table(books, town, kills):
    results = [answer["Result"] for _, _, answer in books.replies]
    refused = Counter(result["Description"] or result["ResultCode"] for result in results if result["ResultCode"] != "Success")
    data = [uplink for uplink in books.uplinks if uplink[2] == DATA]
    confirmed = {number for number, _, _, _, octets in data if octets[0] == simulate.CONFIRMED}
    answered = {booking[1] for booking in books.bookings if booking[-1] != DROPPED}
    yield "data frames booked", len(data)
    yield "joins booked", len(books.uplinks) - len(data)
    yield "of these refused in every window", sum(uplink[2] != DATA and uplink[0] not in answered for uplink in books.uplinks)
    yield "receptions", len(books.receptions)
    yield "messages heard", len(books.replies)
    yield "downlinks booked", len(books.bookings)
    yield "of these dropped", sum(booking[-1] == DROPPED for booking in books.bookings)
    yield "transmitted", len(town.transmitted)
    yield "confirmed frames, and those answered", f"{len(confirmed)}, {len(confirmed & answered)}"
    yield "payloads that waited, and those sent", f"{books.waiting.total()}, {books.waiting[1]}"
    yield "refused", ", ".join(f"{name} {count}" for name, count in sorted(refused.items())) or "none"
    for name, count in sorted(town.counts.items()):
        yield name, count
    yield "kills of the bridge, and of the desk", "{}, {}".format(*kills)


def run_seed(program, seed, given):
    """Runs one town. Returns what isn't as it should be."""
    begun = time.monotonic()
    with tempfile.TemporaryDirectory() as name:
        folder = Path(name)
        town = simulate.Town(seed, given.devices, given.gateways, free_udp_port())
        file, *kills = run_town(program, folder, town, given, seed)
        books = read_books(file, folder)
        wrong = town.errors + [what for check in CHECKS for what in check(books, town)]
        wrong += [*hours_are_within(program, file, town), *rooms_agree(program, file), *audit_passes(program, file)]
    print(f"seed {seed}, {time.monotonic() - begun:.0f} s")
    for what, figure in table(books, town, kills):
        print(f"    {what:<38} {figure}")
    return [f"seed {seed}: {what}" for what in wrong]


def free_udp_port():
    with socket.socket(socket.AF_INET, socket.SOCK_DGRAM) as bound:
        bound.bind(("127.0.0.1", 0))
        return bound.getsockname()[1]


def main():
    words = argparse.ArgumentParser(description=__doc__, formatter_class=argparse.RawDescriptionHelpFormatter)
    add_program(words)
    words.add_argument("--seeds", type=int, nargs="+", default=[1, 2, 3])
    words.add_argument("--frames", type=int, default=600)
    words.add_argument("--devices", type=int, default=40)
    words.add_argument("--gateways", type=int, default=4)
    words.add_argument("--kills", type=int, default=6)
    given = words.parse_args()
    program = ready(given.program)
    subprocess.run([sys.executable, "-m", "unittest", "--quiet"], cwd=EXAMPLE, check=True)
    pauses = Pauses()
    pauses.start()
    wrong = [what for seed in given.seeds for what in run_seed(program, seed, given)]
    for what in wrong[:40]:
        print(what, file=sys.stderr)
    wants(not wrong, f"{len(wrong)} things aren't as they should be{pauses}")
    print(f"{len(given.seeds)} towns: every frame is booked once, every report is there, every transmission has its booking")


if __name__ == "__main__":
    main()
