#!/usr/bin/env python3
"""The desk as a plain Python program over dictionaries: what `desk lines` is measured against, in one run.

    bench/dictionaries.py < LINES

It hears the messages of standard input and answers them as `desk lines` does, by the same rules. Nothing is proved of
it, and it trusts that each line is a message in its form, for a known receiver, but for a Limit, which may be too great:
so it does no more than any program must.
"""

import argparse
import bisect
import itertools
import json
import sys

HOUR = 3_600_000_000
BASE, ADDRESSES = 0x01A0_0000, 65_536
FIRST_TIME, LAST_TIME = 946_684_800_000_000, 4_102_444_800_000_000

SYMBOLS = [32_768, 16_384, 8_192, 4_096, 2_048, 1_024, 512]
SPREADING = [12, 11, 10, 9, 8, 7, 7]
LONGEST = [64, 64, 64, 128, 255, 255, 255, 255]
# the one data rate that isn't LoRa
FSK = 7
# from, to, and what any hour may hold where no other limit is set
BANDS = {
    "B1": (863_000_000, 865_000_000, 3_600_000),
    "B2": (865_000_000, 868_000_000, 36_000_000),
    "B3": (868_000_000, 868_600_000, 36_000_000),
    "B4": (868_700_000, 869_200_000, 3_600_000),
    "B5": (869_400_000, 869_650_000, 360_000_000),
    "B6": (869_700_000, 870_000_000, 36_000_000),
}
DELAYS = {("join", 1): 5_000_000, ("join", 2): 6_000_000, ("data", 1): 1_000_000, ("data", 2): 2_000_000}
BOOKED, SENT, DROPPED = range(3)


class Refused(Exception):
    """A ResultCode and a Description."""


def wants(holds, code, description=""):
    if not holds:
        raise Refused(code, description)


def airtime(rate, octets, is_up):
    if rate == FSK:
        return 160 * (octets + 11)
    spreading = SPREADING[rate]
    block = 4 * (spreading - 2 * (rate <= 1))
    blocks = max(0, -(-(8 * octets - 4 * spreading + 28 + 16 * is_up) // block))
    return (81 + 20 * blocks) * (SYMBOLS[rate] // 4)


def band_of(frequency, rate):
    half = 125_000 if rate == 6 else 62_500
    return next((name for name, (low, high, _) in BANDS.items() if low <= frequency - half and frequency + half <= high), None)


def little(octets):
    return int.from_bytes(octets, "little")


def data_frame(octets, kinds):
    """The address and the FCnt of a data frame of these kinds, or nothing."""
    if len(octets) < 12 or octets[0] & 3 or octets[0] >> 5 not in kinds or len(octets) < 12 + (octets[5] & 15):
        return None
    return little(octets[1:5]), little(octets[6:8])


def limit_in_form(message):
    """Whether the message's Limit, if it has one, is no more than its band's own."""
    return message["MessageType"] != "LimitSet" or message["Limit"] <= BANDS[message["Band"]][2]


def most_in_an_hour(spans):
    """The greatest use of an hour that begins at a start or ends at an end, of spans that share nothing."""
    spans = sorted(spans)
    starts = [start for start, _ in spans]
    before = [0, *itertools.accumulate(end - start for start, end in spans)]

    def used_before(time):
        begun = bisect.bisect_left(starts, time)
        return before[begun] - (max(0, spans[begun - 1][1] - time) if begun else 0)

    begins = starts + [end - HOUR for _, end in spans]
    return max((used_before(begin + HOUR) - used_before(begin) for begin in begins), default=0)


class Desk:
    def __init__(self):
        self.heard = {}
        self.senders = {"office": "operator"}
        self.owners = set()
        self.gateways = set()
        self.devices = {}
        self.sessions = []
        self.uplinks = []
        self.joins = {}
        self.frames = {}
        self.bookings = []
        # of a gateway the starts and numbers of its bookings, in order of start
        self.starts = {}
        # of a gateway and a band
        self.limits = {}

    def deliver(self, line):
        message = json.loads(line)
        sender, kind = message["SenderID"], message["MessageType"]
        answer = {
            "MessageType": kind + "Ans",
            "ProtocolVersion": "1.0",
            "ReceiverID": sender,
            "SenderID": "desk",
            "TransactionID": message["TransactionID"],
        }
        if not limit_in_form(message):
            return told(answer, "Other", "body")
        if sender not in self.senders:
            return told(answer, "UnknownSender", "")
        pair = sender, message["TransactionID"]
        if pair in self.heard:
            first, answered = self.heard[pair]
            return answered if first == message else told(answer, "Other", "transaction")
        try:
            answer.update(MESSAGES[kind](self, message) or {})
            text = told(answer, "Success", "")
        except Refused as refused:
            text = told(answer, *refused.args)
        self.heard[pair] = message, text
        return text

    def operated(self, message):
        wants(self.senders[message["SenderID"]] == "operator", "Other", "role")

    def sender_add(self, message):
        self.operated(message)
        wants(message["Sender"] not in self.senders, "Other", "exists")
        self.senders[message["Sender"]] = message["Role"]

    def owner_add(self, message):
        self.operated(message)
        wants(message["Owner"] not in self.owners, "Other", "exists")
        self.owners.add(message["Owner"])

    def gateway_add(self, message):
        self.operated(message)
        wants(message["Gateway"] not in self.gateways, "Other", "exists")
        self.gateways.add(message["Gateway"])

    def device_add(self, message):
        self.operated(message)
        wants(message["Owner"] in self.owners, "Other", "owner")
        wants(message["DevEUI"] not in self.devices, "Other", "exists")
        self.devices[message["DevEUI"]] = {"join": message["JoinEUI"], "owner": message["Owner"], "last": -1, "floor": 0}

    def device_move(self, message):
        self.operated(message)
        wants(message["DevEUI"] in self.devices, "UnknownDevEUI")
        wants(message["Owner"] in self.owners, "Other", "owner")
        self.devices[message["DevEUI"]]["owner"] = message["Owner"]

    def downlinks(self, gateway, band):
        """The gateway's downlinks in the band that aren't dropped: when each begins and ends."""
        bookings = (self.bookings[number - 1] for _, number in self.starts.get(gateway, []))
        return [(b["start"], b["end"]) for b in bookings if b["band"] == band and b["state"] != DROPPED]

    def limit_set(self, message):
        self.operated(message)
        gateway, band = message["Gateway"], message["Band"]
        wants(gateway in self.gateways, "Other", "gateway")
        wants(most_in_an_hour(self.downlinks(gateway, band)) <= message["Limit"], "XmitFailed", "duty")
        self.limits[gateway, band] = message["Limit"]

    def received(self, message):
        """Its octets and band, after the checks that joins and data frames share."""
        wants(FIRST_TIME <= message["Time"] <= LAST_TIME, "Other", "time")
        wants(message["Gateway"] in self.gateways, "Other", "gateway")
        return bytes.fromhex(message["PHYPayload"]), band_of(message["Freq"], message["DataRate"])

    def booked(self, message, kind, session, octets, band, index, key):
        """The new uplink, which is in the index under the key."""
        length = airtime(message["DataRate"], len(octets), True)
        uplink = {"number": len(self.uplinks) + 1, "kind": kind, "session": session, "octets": octets, "airtime": length}
        uplink.update(band=band, copies={}, answered=False)
        self.uplinks.append(uplink)
        index[key] = uplink
        return uplink

    def uplink_told(self, message, uplink, is_copy):
        uplink["copies"].setdefault(message["Gateway"], (message["Time"], message["Freq"], message["DataRate"]))
        return {"Airtime": uplink["airtime"], "Band": uplink["band"], "Copy": is_copy, "Uplink": uplink["number"]}

    def join_heard(self, message):
        octets, band = self.received(message)
        wants(len(octets) == 23 and octets[0] & 0xE3 == 0, "Other", "frame")
        wants(band, "Other", "band")
        name = f"{little(octets[9:17]):016x}"
        wants(name in self.devices, "UnknownDevEUI")
        device = self.devices[name]
        wants(f"{little(octets[1:9]):016x}" == device["join"], "JoinReqFailed", "joineui")
        wants(message["Verdict"] == "Good", "MICFailed")
        nonce = little(octets[17:19])
        uplink = self.joins.get((name, nonce))
        is_copy = uplink is not None and uplink["octets"] == octets
        if not is_copy:
            wants(nonce > device["last"], "JoinReqFailed", "nonce")
            wants(len(self.sessions) < ADDRESSES, "Other", "addresses")
            device["last"] = nonce
            self.sessions.append({"device": name, "last": -1, "downlinks": 0})
            uplink = self.booked(message, "join", len(self.sessions), octets, band, self.joins, (name, nonce))
        return {**self.uplink_told(message, uplink, is_copy), "DevAddr": f"{BASE + uplink['session'] - 1:08x}"}

    def frame_heard(self, message):
        octets, band = self.received(message)
        frame = data_frame(octets, (2, 4))
        wants(frame and len(octets) <= LONGEST[message["DataRate"]], "Other", "frame")
        wants(band, "Other", "band")
        number, counter = frame[0] - BASE + 1, message.get("Verdict")
        wants(1 <= number <= len(self.sessions), "UnknownDevAddr")
        wants(counter is not None, "MICFailed")
        session = self.sessions[number - 1]
        device, last = self.devices[session["device"]], session["last"]
        uplink = self.frames.get((number, counter))
        is_copy = uplink is not None and uplink["octets"] == octets
        if not is_copy:
            wants(number >= device["floor"], "Other", "session")
            wants(uplink is None, "Other", "replayed")
            wants(counter > last, "Other", "late")
            wanted = frame[1] if last < 0 else last + 1 + (frame[1] - last - 1) % 65_536
            wants(counter == wanted, "Other", "gap")
            session["last"], device["floor"] = counter, number
            uplink = self.booked(message, "data", number, octets, band, self.frames, (number, counter))
        return {**self.uplink_told(message, uplink, is_copy), "Counter": counter, "DevEUI": session["device"]}

    def down_book(self, message):
        wants(message["Gateway"] in self.gateways, "Other", "gateway")
        number = message["Uplink"]
        uplink = self.uplinks[number - 1] if 1 <= number <= len(self.uplinks) else None
        wants(uplink and message["Gateway"] in uplink["copies"], "Other", "uplink")
        end, frequency, rate = uplink["copies"][message["Gateway"]]
        if message["Window"] == 2:
            frequency, rate = 869_525_000, 0
        octets, kind = bytes.fromhex(message["PHYPayload"]), uplink["kind"]
        frame = data_frame(octets, (3, 5)) if kind == "data" else octets[:1] and octets[0] & 0xE3 == 0x20 and len(octets) in (17, 33)
        wants(frame and len(octets) <= LONGEST[rate], "Other", "frame")
        session = self.sessions[uplink["session"] - 1]
        wants(kind == "join" or frame[0] == BASE + uplink["session"] - 1, "UnknownDevAddr")
        wants(not uplink["answered"], "XmitFailed", "answered")
        wants(kind == "join" or frame[1] == session["downlinks"] % 65_536, "Other", "fcntdown")
        start, length, band = end + DELAYS[kind, message["Window"]], airtime(rate, len(octets), False), band_of(frequency, rate)
        starts = self.starts.setdefault(message["Gateway"], [])
        first = bisect.bisect_left(starts, (start - HOUR - 3_000_000,))
        after = bisect.bisect_left(starts, (start + HOUR + 3_000_000,))
        near = [self.bookings[n - 1] for _, n in starts[first:after] if self.bookings[n - 1]["state"] != DROPPED]
        wants(all(b["end"] <= start or start + length <= b["start"] for b in near), "XmitFailed", "collision")
        spans = [(b["start"], b["end"]) for b in near if b["band"] == band]
        limit = self.limits.get((message["Gateway"], band), BANDS[band][2])
        wants(most_in_an_hour(spans + [(start, start + length)]) <= limit, "XmitFailed", "duty")
        self.bookings.append({"uplink": uplink, "band": band, "start": start, "end": start + length, "state": BOOKED})
        bisect.insort(starts, (start, len(self.bookings)))
        uplink["answered"] = True
        session["downlinks"] += kind == "data"
        return {"Airtime": length, "Band": band, "Booking": len(self.bookings), "Start": start}

    def down_done(self, message):
        number = message["Booking"]
        wants(1 <= number <= len(self.bookings), "Other", "booking")
        booking = self.bookings[number - 1]
        wants(booking["state"] == BOOKED, "Other", "done")
        booking["state"] = SENT if message["Sent"] else DROPPED
        booking["uplink"]["answered"] = message["Sent"]


MESSAGES = {
    "SenderAdd": Desk.sender_add,
    "OwnerAdd": Desk.owner_add,
    "GatewayAdd": Desk.gateway_add,
    "DeviceAdd": Desk.device_add,
    "DeviceMove": Desk.device_move,
    "JoinHeard": Desk.join_heard,
    "FrameHeard": Desk.frame_heard,
    "DownBook": Desk.down_book,
    "DownDone": Desk.down_done,
    "LimitSet": Desk.limit_set,
}


# one for all answers: json.dumps with these would make one for each
write = json.JSONEncoder(sort_keys=True, separators=(",", ":")).encode


def told(answer, code, description):
    return write({**answer, "Result": {"Description": description, "ResultCode": code}})


def main():
    argparse.ArgumentParser(description=__doc__, formatter_class=argparse.RawDescriptionHelpFormatter).parse_args()
    desk = Desk()
    for line in sys.stdin:
        sys.stdout.write(desk.deliver(line) + "\n")


if __name__ == "__main__":
    main()
