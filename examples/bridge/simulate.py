"""A simulated town for the example bridge: gateways with their packet forwarders, and devices with real keys and frames.

Datagrams get lost, come twice and come late; several gateways hear one frame; one gateway has hardly any time on air left.
Devices replay frames, send a used counter again, have wrong keys, and join anew. Everything is recorded, so that a check can
compare it with the desk's book.

A packet forwarder here sends again what isn't acknowledged, and a device sends its next frame once one gateway's report of
the last was acknowledged. So each frame is heard by the desk, and before the device's next one, whatever is killed meanwhile.
"""

import base64
import heapq
import itertools
import json
import random
import select
import socket
import time
from collections import Counter
from collections.abc import Callable
from dataclasses import dataclass, field
from datetime import UTC, datetime

import security
from gateway import GPS_EPOCH_MS, LEAP_SECONDS_MS, PULL_ACK, PULL_DATA, PULL_RESP, PUSH_ACK, PUSH_DATA, TX_ACK, VERSION

JOIN_EUI = "70b3d57ed0000001"
CHANNELS = [868_100_000, 868_300_000, 868_500_000, 867_100_000, 867_300_000, 867_500_000, 867_700_000, 867_900_000]
FSK_CHANNEL, FSK = 868_800_000, 50_000
LORA = ["SF7BW125", "SF7BW125", "SF7BW125", "SF8BW125", "SF9BW125"]
WINDOWS = {True: (5_000_000, 6_000_000), False: (1_000_000, 2_000_000)}
CONFIRMED, UNCONFIRMED, UP_PORT = 0x80, 0x40, 2

PULL_SECONDS = 1.0
RESEND_SECONDS = 0.7
LEAST_AHEAD_US, MOST_AHEAD_US = 10_000, 15_000_000
DATA_PAUSE_SECONDS, JOIN_PAUSE_SECONDS = 3.6, 8.2  # when both windows are over
FIRST_TURNS_SECONDS = 15  # in which all devices join
LOST, DOUBLED, LATE = 0.03, 0.05, 0.03
LONGEST_LATE_SECONDS = 3.0


def airtime(datr: str | int, length: int, is_up: bool) -> int:
    """Microseconds on the air, by Semtech's formula (coding rate 4/5, explicit header) or at 50 kbit/s by FSK."""
    if datr == FSK:
        return 160 * (length + 11)
    factor, bandwidth = int(datr[2 : datr.index("BW")]), int(datr[datr.index("BW") + 2 :])
    symbol = (1 << factor) * 1000 // bandwidth
    low_rate = 1 if symbol >= 16_000 else 0
    bits = 8 * length - 4 * factor + 28 + (16 if is_up else 0)
    blocks = max(0, -(-bits // (4 * (factor - 2 * low_rate))))
    return (81 + 20 * blocks) * symbol // 4


# ---- what is recorded


@dataclass
class Frame:
    """Octets that a device sent as a frame of its own."""

    dev_eui: str
    phy_payload: bytes
    counter: int  # the DevNonce of a join
    wanted: str = "booked"  # or what the desk has to answer
    payload: bytes = b""
    is_acknowledged: bool = False

    @property
    def is_join(self) -> bool:
        return self.phy_payload[0] == security.JOIN_REQUEST


@dataclass
class Heard:
    """A gateway's reception."""

    gateway: str
    tmst: int
    time: int  # the true one, in microseconds since 1970
    frequency: int
    datr: str | int
    phy_payload: bytes
    has_gps: bool
    is_acknowledged: bool = False


@dataclass
class Transmitted:
    """A downlink that a gateway sent."""

    gateway: str
    tmst: int
    frequency: int
    datr: str | int
    phy_payload: bytes
    has_crc: bool


@dataclass
class Session:
    dev_addr: int
    keys: security.SessionKeys
    next_up: int = 0
    last_down: int = -1
    join_nonce: int = 0


@dataclass
class Device:
    dev_eui: str
    app_key: bytes
    kind: str = "ordinary"  # or "wrong keys", "joins again"
    dev_nonce: int = 0
    session: Session | None = None
    last_frame: Frame | None = None
    sent: list[Frame] = field(default_factory=list)
    acknowledgements: int = 0


# ---- gateways


class Gateway:
    def __init__(self, town: "Town", eui: str, clock: str, first_tmst: int):
        """`clock` is how rxpk has the time: `time`, `tmms`, or nothing."""
        self.town, self.eui, self.clock = town, eui, clock
        self.socket = socket.socket(socket.AF_INET, socket.SOCK_DGRAM)
        self.socket.bind(("127.0.0.1", 0))
        self.socket.setblocking(False)
        self.begun, self.first_tmst = time.time_ns() // 1000, first_tmst
        self.tokens = itertools.count(1)
        self.pushed: dict[int, Heard] = {}
        self.sending: list[tuple[int, int]] = []

    def now(self) -> int:
        return self.begun + (time.monotonic_ns() - self.town.monotonic_begun) // 1000

    def tmst(self, moment: int) -> int:
        return (moment - self.begun + self.first_tmst) % (1 << 32)

    def send(self, kind: int, token: int, body: bytes = b"") -> None:
        datagram = bytes([VERSION]) + (token % (1 << 16)).to_bytes(2, "big") + bytes([kind]) + bytes.fromhex(self.eui) + body
        self.socket.sendto(datagram, self.town.bridge)

    def pull(self) -> None:
        self.send(PULL_DATA, next(self.tokens))
        self.town.later(PULL_SECONDS, self.pull)

    def hear(self, phy_payload: bytes, frequency: int, datr: str | int) -> None:
        moment = self.now()
        heard = Heard(self.eui, self.tmst(moment), moment, frequency, datr, phy_payload, self.clock != "")
        if self.clock == "tmms":
            heard.time -= heard.time % 1000
        self.town.heard.append(heard)
        token = next(self.tokens)
        self.pushed[token] = heard
        body = json.dumps({"rxpk": [self.noise(heard), self.packet(heard)]}).encode()
        self.push(token, body, is_first=True)

    def packet(self, heard: Heard) -> dict:
        packet = {
            "tmst": heard.tmst,
            "freq": heard.frequency / 1_000_000,
            "stat": 1,
            "modu": "FSK" if heard.datr == FSK else "LORA",
            "datr": heard.datr,
            "codr": "4/5",
            "lsnr": round(self.town.chance.uniform(-8, 9), 1),
            "rssi": -90,
            "size": len(heard.phy_payload),
            "data": base64.b64encode(heard.phy_payload).decode(),
        }
        if self.clock == "time":
            second = datetime.fromtimestamp(heard.time // 1_000_000, UTC)
            packet["time"] = f"{second:%Y-%m-%dT%H:%M:%S}.{heard.time % 1_000_000:06}Z"
        if self.clock == "tmms":
            packet["tmms"] = heard.time // 1000 - GPS_EPOCH_MS + LEAP_SECONDS_MS
        return packet

    def noise(self, heard: Heard) -> dict:
        """The same frame with an octet received wrong, and so a wrong CRC: the bridge may not report it."""
        octets = heard.phy_payload[:-1] + bytes([heard.phy_payload[-1] ^ 0x10])
        return {**self.packet(heard), "stat": -1, "data": base64.b64encode(octets).decode()}

    def push(self, token: int, body: bytes, is_first: bool = False) -> None:
        if token not in self.pushed:
            return
        chance = self.town.chance.random
        self.town.later(RESEND_SECONDS, lambda: self.push(token, body))
        if chance() < LOST:
            self.town.counts["datagrams lost"] += 1
            return
        if is_first and chance() < LATE:
            self.town.counts["datagrams late"] += 1
            self.town.later(chance() * LONGEST_LATE_SECONDS, lambda: self.send(PUSH_DATA, token, body))
            return
        self.send(PUSH_DATA, token, body)
        if chance() < DOUBLED:
            self.town.counts["datagrams doubled"] += 1
            self.town.later(chance() * 0.3, lambda: self.send(PUSH_DATA, token, body))

    def receive(self) -> None:
        while True:
            try:
                datagram = self.socket.recv(65_536)
            except BlockingIOError:
                return
            except ConnectionError:
                continue
            token, kind = int.from_bytes(datagram[1:3], "big"), datagram[3]
            if kind == PUSH_ACK and token in self.pushed:
                self.town.acknowledged(self.pushed.pop(token))
            elif kind == PULL_RESP:
                self.transmit(token, json.loads(datagram[4:])["txpk"])
            elif kind not in (PUSH_ACK, PULL_ACK):
                self.town.wrong(f"{self.eui} got a datagram of kind {kind}")

    def transmit(self, token: int, packet: dict) -> None:
        ahead = (packet["tmst"] - self.tmst(self.now()) + (1 << 31)) % (1 << 32) - (1 << 31)
        phy_payload = base64.b64decode(packet["data"])
        error = self.error_of(packet, ahead, len(phy_payload))
        self.town.counts[f"TX_ACK {error}"] += 1
        if error == "NONE":
            frequency, has_crc = round(packet["freq"] * 1_000_000), not packet.get("ncrc", False)
            sent = Transmitted(self.eui, packet["tmst"], frequency, packet["datr"], phy_payload, has_crc)
            self.town.transmitted.append(sent)
            self.town.later(ahead / 1_000_000, lambda: self.town.deliver(sent))
        if self.town.chance.random() < LOST:
            self.town.counts["TX_ACK lost"] += 1
            return
        report = b"" if error == "NONE" else json.dumps({"txpk_ack": {"error": error}}).encode()
        self.send(TX_ACK, token, report)

    def error_of(self, packet: dict, ahead: int, length: int) -> str:
        if packet["imme"] or length != packet["size"]:
            self.town.wrong(f"{self.eui} got a transmission without a time or of another size: {packet}")
        if ahead < LEAST_AHEAD_US:
            return "TOO_LATE"
        if ahead > MOST_AHEAD_US:
            return "TOO_EARLY"
        start = self.now() + ahead
        end = start + airtime(packet["datr"], length, is_up=False)
        if any(start < other_end and other < end for other, other_end in self.sending):
            return "COLLISION_PACKET"
        self.sending.append((start, end))
        return "NONE"


# ---- the town


class Town:
    def __init__(self, seed: int, devices: int, gateways: int, bridge_port: int):
        self.chance = random.Random(seed)
        self.bridge = ("127.0.0.1", bridge_port)
        self.monotonic_begun = time.monotonic_ns()
        self.counts: Counter[str] = Counter()
        self.errors: list[str] = []
        self.heard: list[Heard] = []
        self.frames: list[Frame] = []
        self.by_octets: dict[bytes, Frame] = {}
        self.transmitted: list[Transmitted] = []
        self.events: list[tuple[float, int, Callable[[], None]]] = []
        self.order = itertools.count()
        self.frames_left = 0
        self.gateways = [self.gateway(number) for number in range(gateways)]
        self.devices = [Device(f"0004a30b001a{n:04x}", self.chance.randbytes(16)) for n in range(devices)]
        self.devices[0].kind = "wrong keys"
        for device in self.devices[1:4]:
            device.kind = "joins again"

    def gateway(self, number: int) -> Gateway:
        """Every third one has its time by GPS in `time`, every third one in `tmms`; the others have no GPS."""
        # the second one's counter wraps after 20 seconds
        first_tmst = (1 << 32) - 20_000_000 if number == 1 else self.chance.getrandbits(32)
        return Gateway(self, f"aa555a00000000{number + 1:02x}", ("time", "", "tmms")[number % 3], first_tmst)

    def module_key(self, device: Device) -> bytes:
        """The key that the security module has of it."""
        return bytes(16) if device.kind == "wrong keys" else device.app_key

    def wrong(self, what: str) -> None:
        self.errors.append(what)

    def later(self, seconds: float, action: Callable[[], None]) -> None:
        heapq.heappush(self.events, (time.monotonic() + seconds, next(self.order), action))

    def run(self, frames: int, seconds: float) -> None:
        """Until this many frames were sent and acknowledged and their windows are over; at most for these seconds."""
        self.frames_left = frames
        for gateway in self.gateways:
            gateway.pull()
        for device in self.devices:
            self.later(self.chance.uniform(1, FIRST_TURNS_SECONDS), lambda device=device: self.turn(device))
        end, quiet_from = time.monotonic() + seconds, None
        while quiet_from is None or time.monotonic() < quiet_from:
            if time.monotonic() > end:
                left = f"{self.frames_left} frames are to be sent, {self.unacknowledged()} reports to be acknowledged"
                self.wrong(f"after {seconds:.0f} seconds {left}")
                return
            self.step()
            if self.frames_left == 0 and self.unacknowledged() == 0:
                quiet_from = quiet_from or time.monotonic() + JOIN_PAUSE_SECONDS
            else:
                quiet_from = None

    def unacknowledged(self) -> int:
        return sum(len(gateway.pushed) for gateway in self.gateways)

    def step(self) -> None:
        wait = self.events[0][0] - time.monotonic() if self.events else 0.1
        select.select([gateway.socket for gateway in self.gateways], [], [], max(0, min(wait, 0.1)))
        for gateway in self.gateways:
            gateway.receive()
        while self.events and self.events[0][0] <= time.monotonic():
            heapq.heappop(self.events)[2]()

    def acknowledged(self, heard: Heard) -> None:
        heard.is_acknowledged = True
        if frame := self.by_octets.get(heard.phy_payload):
            frame.is_acknowledged = True

    # -- devices

    def turn(self, device: Device) -> None:
        if self.frames_left == 0:
            return
        if device.last_frame and not device.last_frame.is_acknowledged:
            self.later(0.2, lambda: self.turn(device))
            return
        joins_again = device.kind == "joins again" and device.session and device.session.next_up >= 4
        if device.session is None or joins_again:
            self.join(device)
            pause = JOIN_PAUSE_SECONDS
        else:
            self.send_data(device)
            pause = DATA_PAUSE_SECONDS
        self.later(pause * self.chance.uniform(1, 1.1), lambda: self.turn(device))

    def join(self, device: Device) -> None:
        message = bytes([security.JOIN_REQUEST]) + bytes.fromhex(JOIN_EUI)[::-1] + bytes.fromhex(device.dev_eui)[::-1]
        message += device.dev_nonce.to_bytes(2, "little")
        octets = message + security.cmac(device.app_key, message)[:4]
        wanted = "MICFailed" if device.kind == "wrong keys" else "booked"
        self.send(device, Frame(device.dev_eui, octets, device.dev_nonce, wanted))
        device.dev_nonce += 1

    def send_data(self, device: Device) -> None:
        session = device.session
        confirmed = self.chance.random() < 0.1
        payload = self.payload(session.next_up)
        octets = self.data_frame(session, session.next_up, confirmed, payload)
        frame = Frame(device.dev_eui, octets, session.next_up, payload=payload)
        session.next_up += 1
        self.frames_left -= 1
        self.send(device, frame)
        if self.chance.random() < 0.05:
            self.later(0.9, lambda: self.replay(device))
        if self.chance.random() < 0.03 and len(device.sent) > 2:
            self.later(1.2, lambda: self.use_counter_again(device, session, frame))

    def payload(self, counter: int) -> bytes:
        return b"%d %d" % (counter, self.chance.getrandbits(32))

    def data_frame(self, session: Session, counter: int, confirmed: bool, payload: bytes) -> bytes:
        message = bytes([CONFIRMED if confirmed else UNCONFIRMED]) + session.dev_addr.to_bytes(4, "little") + b"\x00"
        message += (counter % (1 << 16)).to_bytes(2, "little") + bytes([UP_PORT])
        message += security.crypt(session.keys.application, security.UP, session.dev_addr, counter, payload)
        return message + security.data_mic(session.keys.network, security.UP, session.dev_addr, counter, message)

    def send(self, device: Device, frame: Frame) -> None:
        self.frames.append(frame)
        self.by_octets[frame.phy_payload] = frame
        device.last_frame = frame
        device.sent.append(frame)
        self.on_air(frame.phy_payload)

    def on_air(self, phy_payload: bytes) -> None:
        """One to three gateways hear it, all at the same frequency and data rate."""
        is_fsk = self.chance.random() < 0.05
        frequency, datr = (FSK_CHANNEL, FSK) if is_fsk else (self.chance.choice(CHANNELS), self.chance.choice(LORA))
        for gateway in self.chance.sample(self.gateways, self.chance.choice([1, 1, 2, 2, 3])):
            gateway.hear(phy_payload, frequency, datr)

    def replay(self, device: Device) -> None:
        """An earlier frame, octet for octet, by somebody who recorded it."""
        frame = self.chance.choice(device.sent)
        if frame.is_acknowledged:
            self.counts["frames replayed"] += 1
            self.on_air(frame.phy_payload)

    def use_counter_again(self, device: Device, session: Session, frame: Frame) -> None:
        """Other octets with a counter that was used. Not once the device has a newer session, nor before the first was heard."""
        if session is not device.session or not frame.is_acknowledged:
            return
        octets = self.data_frame(session, frame.counter, False, self.payload(frame.counter))
        again = Frame(device.dev_eui, octets, frame.counter, "replayed")
        self.frames.append(again)
        self.by_octets[again.phy_payload] = again
        self.on_air(again.phy_payload)

    def deliver(self, sent: Transmitted) -> None:
        """Lets the device of a downlink read it."""
        if sent.phy_payload[0] == security.JOIN_ACCEPT:
            self.read_accept(sent)
        else:
            self.read_downlink(sent)

    def read_accept(self, sent: Transmitted) -> None:
        for device in self.devices:
            body = security.aes_encrypt(device.app_key, sent.phy_payload[1:])
            if security.cmac(device.app_key, bytes([security.JOIN_ACCEPT]) + body[:-4])[:4] == body[-4:]:
                self.begin_session(device, body)
                return
        self.wrong("a join accept that no device can read")

    def begin_session(self, device: Device, body: bytes) -> None:
        join_nonce, net_id, dev_addr = (int.from_bytes(body[a:b], "little") for a, b in ((0, 3), (3, 6), (6, 10)))
        if device.session and join_nonce <= device.session.join_nonce:
            self.wrong(f"{device.dev_eui} got JoinNonce {join_nonce} after {device.session.join_nonce}")
        if body[10:12] != b"\x00\x01":
            self.wrong(f"{device.dev_eui} got other windows: {body[10:12].hex()}")
        keys = security.session_keys(device.app_key, join_nonce, net_id, device.dev_nonce - 1)
        device.session = Session(dev_addr, keys, join_nonce=join_nonce)
        self.counts["devices joined"] += 1

    def is_listening(self, device: Device, sent: Transmitted) -> bool:
        """A device listens in the windows of its last frame alone. A replay of an earlier one, heard by another gateway, has windows too."""
        return any(
            heard.gateway == sent.gateway
            and heard.phy_payload == device.last_frame.phy_payload
            and (sent.tmst - heard.tmst) % (1 << 32) in WINDOWS[False]
            for heard in self.heard
        )

    def read_downlink(self, sent: Transmitted) -> None:
        frame = security.read_data_frame(sent.phy_payload)
        device = next((device for device in self.devices if device.session and device.session.dev_addr == frame.dev_addr), None)
        if device is None:
            self.wrong(f"a downlink to {frame.dev_addr:08x}, which no device has")
            return
        if not self.is_listening(device, sent):
            self.counts["downlinks that no device listened to"] += 1
            return
        session = device.session
        mic = security.data_mic(session.keys.network, security.DOWN, frame.dev_addr, frame.fcnt, sent.phy_payload[:-4])
        if mic != sent.phy_payload[-4:] or frame.fcnt <= session.last_down:
            self.wrong(f"{device.dev_eui} can't take the downlink {sent.phy_payload.hex()} after counter {session.last_down}")
            return
        session.last_down = frame.fcnt
        is_acknowledgement = bool(sent.phy_payload[5] & security.ACK_BIT)
        if is_acknowledgement and device.last_frame.phy_payload[0] != CONFIRMED:
            self.wrong(f"{device.dev_eui} got an acknowledgement of a frame that isn't confirmed")
        self.counts["acknowledgements"] += is_acknowledgement
        if frame.port is not None:
            self.counts["payloads down"] += 1
