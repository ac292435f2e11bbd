"""Messages as a desk meets them: operation with repeats, copies, changed messages, late and lost frames, refused downlinks,
limits that are set and refused.

`mixed_operation(size, seed)` gives `size` lines, from the opening state on, the same ones for the same seed, and the plain
Python program (bench/dictionaries.py) that heard them, with its answers. With `old=True` no line is a LimitSet, and none
reports FSK: a program that makes files of schema 1 takes neither. With fewer devices a short stream is more than their
joins. Each line is a message in its form, but for a Limit that is too great, or NO_MESSAGE, to which that program has no
answer.
"""

import json
import sys
from pathlib import Path

sys.path.insert(0, str(Path(__file__).resolve().parent.parent / "bench"))
import dictionaries
from dictionaries import BANDS, most_in_an_hour
from normal_operation import BASE, DEVICES, FREQUENCIES, GATEWAYS, SECOND, FIRST_DEV_EUI, JOIN_EUI, Stream

NO_MESSAGE = "{"
# the desk's answer to it
MALFORMED = '{"ProtocolVersion":"1.0","Result":{"Description":"malformed","ResultCode":"Other"},"SenderID":"desk"}'

OWNERS = ["town", "city", "village"]
HEAD = {"ProtocolVersion", "SenderID", "ReceiverID", "TransactionID", "MessageType"}
HOUR = 3600 * SECOND


class Heard(list):
    """Lines, each delivered to the plain program as it is added."""

    def __init__(self):
        super().__init__()
        self.desk = dictionaries.Desk()
        self.answers = []

    def append(self, line):
        super().append(line)
        self.answers.append(None if line == NO_MESSAGE else self.desk.deliver(line))


class Mixed(Stream):
    def __init__(self, seed, devices, old):
        super().__init__(seed, devices)
        self.old = old
        self.lines = Heard()
        self.desk = self.lines.desk

    def sometimes(self, share):
        return self.random.random() < share

    def one_of(self, **weights):
        return self.random.choices(list(weights), list(weights.values()))[0]

    def register(self):
        super().register()
        self.say("office", "OwnerAdd", Owner="city")
        self.say("office", "SenderAdd", Sender="desk-2", Role="operator")

    def step_on(self):
        """Mostly a second or so; now and then hours, so that the months change."""
        self.now += self.random.randrange(12 * HOUR) if self.sometimes(0.003) else self.random.randrange(300_000, 2 * SECOND)

    def frequency(self):
        return 870_000_000 if self.sometimes(0.01) else 869_525_000 if self.sometimes(0.05) else self.random.choice(FREQUENCIES)

    def report(self, message_type, gateways, octets, frequency, verdict):
        """Now and then a slow frame, where an hour has room for few answers, or one by FSK."""
        slow = self.sometimes(0.1)
        rate = 0 if slow else 7 if not self.old and self.sometimes(0.1) else 5
        for late, gateway in enumerate(gateways):
            self.say(
                "bridge",
                message_type,
                Gateway=f"gw-{gateway}",
                Time=self.now + late,
                Freq=868_800_000 if slow else frequency,
                DataRate=rate,
                PHYPayload=octets.hex(),
                Verdict=verdict,
            )

    def join_heard(self):
        self.step_on()
        device = self.random.randrange(self.devices)
        eui = FIRST_DEV_EUI + device
        last = self.desk.devices[f"{eui:016x}"]["last"]
        nonce = max(0, last + self.random.choices([1, 2, 8, 0], [80, 10, 5, 5])[0])
        octets = b"\x00" + JOIN_EUI.to_bytes(8, "little") + eui.to_bytes(8, "little") + nonce.to_bytes(2, "little") + self.mic()
        self.report("JoinHeard", self.hearing(), octets, self.frequency(), "Bad" if self.sometimes(0.02) else "Good")

    def frame_heard(self):
        self.step_on()
        if not self.desk.sessions:
            return
        # mostly a device's last session, now and then one of before
        number = self.random.randrange(len(self.desk.sessions)) + 1
        device = self.desk.sessions[number - 1]["device"]
        if not self.sometimes(0.05):
            number = self.desk.joins[device, self.desk.devices[device]["last"]]["session"]
        last = self.desk.sessions[number - 1]["last"]
        # the next one, one after some that were lost, or one of before
        counter = max(0, last + self.random.choices([1, 2, 4, 0, -1], [90, 4, 2, 2, 2])[0])
        verdict = self.random.choices([counter, None, counter + 65_536], [97, 2, 1])[0]
        address = (BASE + number - 1).to_bytes(4, "little")
        payload = self.random.randbytes(self.random.randint(0, 20))
        body = b"\x01" + payload if payload else b""
        octets = b"\x40" + address + b"\x00" + (counter % 65_536).to_bytes(2, "little") + body + self.mic()
        self.report("FrameHeard", self.hearing(), octets, self.frequency(), verdict)

    def down_book(self):
        if not self.desk.uplinks:
            return
        uplink = self.random.choice(self.desk.uplinks[-20:])
        number = uplink["number"] + 1000 * self.sometimes(0.02)
        gateway = self.random.choice(list(uplink["copies"])) if not self.sometimes(0.03) else "gw-0"
        if uplink["kind"] == "join":
            octets = b"\x20" + self.random.randbytes(self.random.choices([16, 32, 15], [45, 45, 10])[0])
        else:
            counter = self.desk.sessions[uplink["session"] - 1]["downlinks"] + self.sometimes(0.05)
            body = self.random.randbytes(self.random.randint(0, 30))
            body = b"\x01" + body if body else b""
            address = (BASE + uplink["session"] - 1).to_bytes(4, "little")
            octets = b"\x60" + address + b"\x00" + (counter % 65_536).to_bytes(2, "little") + body + self.mic()
        window = 2 if self.sometimes(0.3) else 1
        self.say("bridge", "DownBook", Uplink=number, Gateway=gateway, Window=window, PHYPayload=octets.hex())

    def down_done(self):
        number = max(1, len(self.desk.bookings) - self.random.randrange(10)) + 1000 * self.sometimes(0.03)
        self.say("bridge", "DownDone", Booking=number, Sent=self.sometimes(0.7))

    def registrar(self):
        """Mostly an operator."""
        return self.random.choices(["office", "desk-2", "bridge", "nobody"], [60, 20, 15, 5])[0]

    def limit_set(self):
        """The band's own limit, one with room, just what the band holds, less than that, nothing at all, or too much."""
        sender, gateway = self.registrar(), f"gw-{self.random.randrange(GATEWAYS + 2)}"
        band = self.one_of(B1=10, B2=10, B3=25, B4=20, B5=25, B6=10)
        own, held = BANDS[band][2], most_in_an_hour(self.desk.downlinks(gateway, band))
        limits = {
            "own": own,
            "room": self.random.randint(held, own),
            "held": held,
            "less": max(0, held - 1),
            "nothing": 0,
            "above": own + self.random.choice([1, own]),
        }
        limit = limits[self.one_of(own=25, room=15, held=25, less=10, nothing=15, above=10)]
        self.say(sender, "LimitSet", Gateway=gateway, Band=band, Limit=limit)

    def registry(self):
        sender = self.registrar()
        eui = f"{FIRST_DEV_EUI + self.random.randrange(self.devices + 5):016x}"
        owner = self.random.choice(OWNERS)
        kind = self.one_of(DeviceMove=50, DeviceAdd=20, OwnerAdd=5, GatewayAdd=15, SenderAdd=10)
        members = {
            "DeviceMove": {"DevEUI": eui, "Owner": owner},
            "DeviceAdd": {"DevEUI": eui, "JoinEUI": f"{JOIN_EUI:016x}", "Owner": owner},
            "OwnerAdd": {"Owner": owner},
            "GatewayAdd": {"Gateway": f"gw-{self.random.randrange(GATEWAYS + 1)}"},
            "SenderAdd": {"Sender": self.random.choice(["bridge", "mast"]), "Role": "radio"},
        }
        self.say(sender, kind, **members[kind])

    def again(self):
        """An earlier message: as it was, under a new number, or under the number of the one before it."""
        line = self.random.choice(self.lines[-400:])
        if line == NO_MESSAGE:
            return
        message = json.loads(line)
        way = self.one_of(as_it_was=50, newly=25, changed=25)
        if way == "newly":
            members = {name: value for name, value in message.items() if name not in HEAD}
            self.say(message["SenderID"], message["MessageType"], **members)
        else:
            if way == "changed":
                message["TransactionID"] = max(0, message["TransactionID"] - 1)
            self.lines.append(json.dumps(message, separators=(",", ":")))

    def no_message(self):
        self.lines.append(NO_MESSAGE)


STEPS = {
    Mixed.frame_heard: 52,
    Mixed.down_book: 15,
    Mixed.down_done: 12,
    Mixed.again: 10,
    Mixed.join_heard: 5,
    Mixed.registry: 5,
    Mixed.no_message: 1,
    Mixed.limit_set: 3,
}


def mixed_operation(size, seed, old=False, devices=DEVICES):
    stream = Mixed(seed, devices, old)
    steps = {step: share for step, share in STEPS.items() if not old or step is not Mixed.limit_set}
    stream.register()
    for _ in range(devices):
        stream.join_heard()
    while len(stream.lines) < size:
        stream.random.choices(list(steps), list(steps.values()))[0](stream)
    return stream.lines
