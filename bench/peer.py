#!/usr/bin/env python3
"""The desk as a plain Python program over the sqlite3 module: what `desk hear` is measured against, in one run.

    bench/peer.py FILE < LINES

It hears the messages of standard input and answers them as `desk hear` does, by the same rules, over the same eleven
tables in FILE, which it makes where there is none. Each message is one transaction, which is on the disk before its
answer (WAL, synchronous FULL), and nobody else may use FILE meanwhile. Nothing is proved of it, and it trusts that each
line is a message in its form, for a known receiver, but for a Limit, which may be too great: so it does no more than any
program must. What needs no table it takes from dictionaries.py.
"""

import argparse
import json
import re
import sqlite3
import sys
from pathlib import Path

from dictionaries import (
    ADDRESSES,
    BANDS,
    BASE,
    BOOKED,
    DELAYS,
    DROPPED,
    FIRST_TIME,
    HOUR,
    LAST_TIME,
    LONGEST,
    SENT,
    Refused,
    airtime,
    band_of,
    data_frame,
    limit_in_form,
    little,
    most_in_an_hour,
    told,
    wants,
    write,
)

MAKING = Path(__file__).resolve().parent.parent / "crates" / "desk_rows" / "src" / "making.rt"

OPERATOR, RADIO = range(2)
ROLES = {"operator": OPERATOR, "radio": RADIO}
JOIN, DATA = range(2)
KINDS = ["join", "data"]
LONGEST_BOOKING = 3_000_000


def schema():
    """The statements that make a desk's tables and indexes, as the desk has them."""
    # A text that goes on in the next line leaves out the blanks that begin it.
    source = re.sub(r"\\\n\s*", "", MAKING.read_text())
    return re.search(r'"(CREATE TABLE meta .*)"', source)[1]


class File:
    def __init__(self, path):
        self.conn = sqlite3.connect(path, isolation_level=None, cached_statements=256)
        for pragma in ("locking_mode = EXCLUSIVE", "journal_mode = WAL", "synchronous = FULL"):
            self.run(f"PRAGMA {pragma}")
        if not self.found("SELECT 1 FROM sqlite_schema"):
            self.run("BEGIN")
            for statement in schema().split(";"):
                self.run(statement)
            self.run("INSERT INTO meta VALUES (1, 2, 'desk', 'office', ?, ?)", BASE, ADDRESSES)
            self.run("INSERT INTO sender VALUES ('office', ?)", OPERATOR)
            self.run("COMMIT")

    def run(self, text, *values):
        return self.conn.execute(text, values)

    def found(self, text, *values):
        return self.conn.execute(text, values).fetchone()

    def deliver(self, line):
        message = json.loads(line)
        if message["MessageType"] == "FrameHeard":
            message.setdefault("Verdict", None)
        self.run("BEGIN")
        text = self.answer_to(message)
        self.run("COMMIT")
        return text

    def answer_to(self, message):
        sender, number, kind = message["SenderID"], message["TransactionID"], message["MessageType"]
        answer = {"MessageType": kind + "Ans", "ProtocolVersion": "1.0", "ReceiverID": sender, "SenderID": "desk", "TransactionID": number}
        if not limit_in_form(message):
            return told(answer, "Other", "body")
        known = self.found("SELECT role FROM sender WHERE name = ?", sender)
        if not known:
            return told(answer, "UnknownSender", "")
        octets = write(message).encode()
        heard = self.found("SELECT message, answer FROM reply WHERE sender = ? AND number = ?", sender, number)
        if heard:
            return heard[1].decode() if heard[0] == octets else told(answer, "Other", "transaction")
        try:
            wants(known[0] == OPERATOR or kind not in OPERATORS_ONLY, "Other", "role")
            answer.update(MESSAGES[kind](self, message) or {})
            text = told(answer, "Success", "")
        except Refused as refused:
            text = told(answer, *refused.args)
        self.run("INSERT INTO reply VALUES (NULL, ?, ?, ?, ?)", sender, number, octets, text.encode())
        return text

    def adds(self, table, name, *values):
        wants(not self.found(f"SELECT 1 FROM {table} WHERE name = ?", name), "Other", "exists")
        self.run(f"INSERT INTO {table} VALUES ({', '.join('?' for _ in (name, *values))})", name, *values)

    def wants_named(self, table, name):
        wants(self.found(f"SELECT 1 FROM {table} WHERE name = ?", name), "Other", table)

    def sender_add(self, message):
        self.adds("sender", message["Sender"], ROLES[message["Role"]])

    def owner_add(self, message):
        self.adds("owner", message["Owner"])

    def gateway_add(self, message):
        self.adds("gateway", message["Gateway"])

    def device_add(self, message):
        eui = bytes.fromhex(message["DevEUI"])
        self.wants_named("owner", message["Owner"])
        wants(not self.found("SELECT 1 FROM device WHERE eui = ?", eui), "Other", "exists")
        self.run("INSERT INTO device VALUES (?, ?, ?, NULL)", eui, bytes.fromhex(message["JoinEUI"]), message["Owner"])

    def device_move(self, message):
        eui = bytes.fromhex(message["DevEUI"])
        wants(self.found("SELECT 1 FROM device WHERE eui = ?", eui), "UnknownDevEUI")
        self.wants_named("owner", message["Owner"])
        self.run("UPDATE device SET owner = ? WHERE eui = ?", message["Owner"], eui)

    def limit_set(self, message):
        gateway, band, limit = message["Gateway"], int(message["Band"][1]), message["Limit"]
        self.wants_named("gateway", gateway)
        text = "SELECT start, start + airtime FROM booking WHERE gateway = ? AND band = ? AND state <> ?"
        spans = self.run(text, gateway, band, DROPPED).fetchall()
        wants(most_in_an_hour(spans) <= limit, "XmitFailed", "duty")
        changed = "ON CONFLICT (gateway, band) DO UPDATE SET value = excluded.value"
        self.run(f"INSERT INTO band_limit VALUES (?, ?, ?) {changed}", gateway, band, limit)

    def received(self, message):
        """Its octets and band, after the checks that joins and data frames share."""
        wants(FIRST_TIME <= message["Time"] <= LAST_TIME, "Other", "time")
        self.wants_named("gateway", message["Gateway"])
        return bytes.fromhex(message["PHYPayload"]), band_of(message["Freq"], message["DataRate"])

    def booked(self, message, session, kind, counter, octets, band):
        """The new uplink: its number, octets, time on air and band."""
        length = airtime(message["DataRate"], len(octets), True)
        values = session, kind, counter, octets, message["Time"] - length, length, int(band[1])
        number = self.run("INSERT INTO uplink VALUES (NULL, ?, ?, ?, ?, ?, ?, ?)", *values).lastrowid
        return number, octets, length, int(band[1])

    def uplink_of(self, session, kind, counter):
        columns = "number, octets, airtime, band"
        return self.found(f"SELECT {columns} FROM uplink WHERE session = ? AND kind = ? AND counter = ?", session, kind, counter)

    def uplink_told(self, message, uplink, is_copy):
        number, _, length, band = uplink
        values = number, message["Gateway"], message["Time"], message["Freq"], message["DataRate"]
        self.run("INSERT OR IGNORE INTO copy VALUES (?, ?, ?, ?, ?)", *values)
        return {"Airtime": length, "Band": f"B{band}", "Copy": is_copy, "Uplink": number}

    def last(self, text, *values):
        """The number that is found, or nothing."""
        found = self.found(text, *values)
        return found[0] if found else None

    def join_heard(self, message):
        octets, band = self.received(message)
        wants(len(octets) == 23 and octets[0] & 0xE3 == 0, "Other", "frame")
        wants(band, "Other", "band")
        eui = octets[16:8:-1]
        device = self.found("SELECT join_eui FROM device WHERE eui = ?", eui)
        wants(device, "UnknownDevEUI")
        wants(octets[8:0:-1] == device[0], "JoinReqFailed", "joineui")
        wants(message["Verdict"] == "Good", "MICFailed")
        nonce = little(octets[17:19])
        session = self.last("SELECT number FROM session WHERE device = ? AND nonce = ?", eui, nonce)
        uplink = session and self.uplink_of(session, JOIN, nonce)
        is_copy = bool(uplink) and uplink[1] == octets
        if not is_copy:
            before = self.last("SELECT nonce FROM session WHERE device = ? ORDER BY nonce DESC LIMIT 1", eui)
            wants(before is None or nonce > before, "JoinReqFailed", "nonce")
            sessions = self.last("SELECT number FROM session ORDER BY number DESC LIMIT 1") or 0
            wants(sessions < ADDRESSES, "Other", "addresses")
            session = self.run("INSERT INTO session VALUES (NULL, ?, ?, 0)", eui, nonce).lastrowid
            uplink = self.booked(message, session, JOIN, nonce, octets, band)
        return {**self.uplink_told(message, uplink, is_copy), "DevAddr": f"{BASE + session - 1:08x}"}

    def frame_heard(self, message):
        octets, band = self.received(message)
        frame = data_frame(octets, (2, 4))
        wants(frame and len(octets) <= LONGEST[message["DataRate"]], "Other", "frame")
        wants(band, "Other", "band")
        session, counter = frame[0] - BASE + 1, message["Verdict"]
        device = self.found("SELECT eui, floor FROM session JOIN device ON eui = device WHERE number = ?", session)
        wants(device, "UnknownDevAddr")
        wants(counter is not None, "MICFailed")
        eui, floor = device
        uplink = self.uplink_of(session, DATA, counter)
        is_copy = bool(uplink) and uplink[1] == octets
        if not is_copy:
            wants(floor is None or session >= floor, "Other", "session")
            wants(uplink is None, "Other", "replayed")
            text = "SELECT counter FROM uplink WHERE session = ? AND kind = 1 ORDER BY counter DESC LIMIT 1"
            last = self.last(text, session)
            wants(last is None or counter > last, "Other", "late")
            wants(counter == (frame[1] if last is None else last + 1 + (frame[1] - last - 1) % 65_536), "Other", "gap")
            if floor != session:
                self.run("UPDATE device SET floor = ? WHERE eui = ?", session, eui)
            uplink = self.booked(message, session, DATA, counter, octets, band)
        return {**self.uplink_told(message, uplink, is_copy), "Counter": counter, "DevEUI": eui.hex()}

    def down_book(self, message):
        gateway, number = message["Gateway"], message["Uplink"]
        self.wants_named("gateway", gateway)
        columns = "session, kind, ended, freq, dr, next_down"
        joined = "uplink JOIN copy ON copy.uplink = uplink.number JOIN session ON session.number = session"
        heard = self.found(f"SELECT {columns} FROM {joined} WHERE uplink.number = ? AND gateway = ?", number, gateway)
        wants(heard, "Other", "uplink")
        session, kind, ended, frequency, rate, next_down = heard
        if message["Window"] == 2:
            frequency, rate = 869_525_000, 0
        octets = bytes.fromhex(message["PHYPayload"])
        frame = data_frame(octets, (3, 5)) if kind == DATA else octets[:1] and octets[0] & 0xE3 == 0x20 and len(octets) in (17, 33)
        wants(frame and len(octets) <= LONGEST[rate], "Other", "frame")
        wants(kind == JOIN or frame[0] == BASE + session - 1, "UnknownDevAddr")
        wants(not self.found("SELECT 1 FROM booking WHERE uplink = ? AND state <> ?", number, DROPPED), "XmitFailed", "answered")
        wants(kind == JOIN or frame[1] == next_down % 65_536, "Other", "fcntdown")
        start = ended + DELAYS[KINDS[kind], message["Window"]]
        length, band = airtime(rate, len(octets), False), band_of(frequency, rate)
        first, after = start - HOUR - LONGEST_BOOKING, start + HOUR + LONGEST_BOOKING
        text = "SELECT start, start + airtime, band FROM booking WHERE gateway = ? AND start > ? AND start < ? AND state <> ?"
        near = self.run(text, gateway, first, after, DROPPED).fetchall()
        wants(all(b_end <= start or start + length <= b_start for b_start, b_end, _ in near), "XmitFailed", "collision")
        spans = [(b_start, b_end) for b_start, b_end, b_band in near if b_band == int(band[1])]
        limit = self.last("SELECT value FROM band_limit WHERE gateway = ? AND band = ?", gateway, int(band[1]))
        if limit is None:
            limit = BANDS[band][2]
        wants(most_in_an_hour(spans + [(start, start + length)]) <= limit, "XmitFailed", "duty")
        values = number, gateway, session, kind, int(band[1]), start, length, BOOKED
        booking = self.run("INSERT INTO booking VALUES (NULL, ?, ?, ?, ?, ?, ?, ?, ?)", *values).lastrowid
        if kind == DATA:
            self.run("UPDATE session SET next_down = next_down + 1 WHERE number = ?", session)
        return {"Airtime": length, "Band": band, "Booking": booking, "Start": start}

    def down_done(self, message):
        state = self.last("SELECT state FROM booking WHERE number = ?", message["Booking"])
        wants(state is not None, "Other", "booking")
        wants(state == BOOKED, "Other", "done")
        self.run("UPDATE booking SET state = ? WHERE number = ?", SENT if message["Sent"] else DROPPED, message["Booking"])


MESSAGES = {
    "SenderAdd": File.sender_add,
    "OwnerAdd": File.owner_add,
    "GatewayAdd": File.gateway_add,
    "DeviceAdd": File.device_add,
    "DeviceMove": File.device_move,
    "JoinHeard": File.join_heard,
    "FrameHeard": File.frame_heard,
    "DownBook": File.down_book,
    "DownDone": File.down_done,
    "LimitSet": File.limit_set,
}
OPERATORS_ONLY = ["SenderAdd", "OwnerAdd", "GatewayAdd", "DeviceAdd", "DeviceMove", "LimitSet"]


def main():
    words = argparse.ArgumentParser(description=__doc__, formatter_class=argparse.RawDescriptionHelpFormatter)
    words.add_argument("file", metavar="FILE")
    desk = File(words.parse_args().file)
    for line in sys.stdin:
        sys.stdout.write(desk.deliver(line) + "\n")
    desk.conn.close()


if __name__ == "__main__":
    main()
