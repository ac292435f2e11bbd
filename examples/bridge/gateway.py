"""Gateways that run a Semtech UDP packet forwarder (protocol version 2): what they hear, and what they are given to send.

PUSH_DATA brings receptions and is acknowledged by PUSH_ACK once the caller has stored them. PULL_DATA shows where a gateway
can be reached and is acknowledged by PULL_ACK. PULL_RESP gives it a transmission, whose outcome it reports by TX_ACK.
"""

import base64
import json
import math
import select
import socket
import time
from collections.abc import Iterator
from dataclasses import dataclass, field
from datetime import UTC, datetime, timedelta
from decimal import Decimal

VERSION = 2
PUSH_DATA, PUSH_ACK, PULL_DATA, PULL_RESP, PULL_ACK, TX_ACK = range(6)
HEADER = 12
LARGEST_DATAGRAM = 65_536
# what reading a datagram that isn't in its form may raise
MALFORMED = (ValueError, KeyError, TypeError, AttributeError, ArithmeticError, RecursionError)
# TX_ACK's errors, after which nothing is transmitted
NOT_SENT = {"TOO_LATE", "TOO_EARLY", "COLLISION_PACKET", "COLLISION_BEACON", "TX_FREQ", "TX_POWER", "GPS_UNLOCKED"}
# a gateway that hasn't sent PULL_DATA for so long can't be reached
PULL_SECONDS = 60

MILLION = 1_000_000
EPOCH = datetime(1970, 1, 1, tzinfo=UTC)
GPS_EPOCH_MS = 315_964_800_000  # 1980-01-06 in milliseconds since 1970
LEAP_SECONDS_MS = 18_000  # GPS time ahead of UTC since 2017
CRC_RIGHT = 1
# the desk's forms
GREATEST_TIME, GREATEST_FREQUENCY, LONGEST_FRAME = (1 << 53) - 1, (1 << 32) - 1, 255
GREATEST_TMST = (1 << 32) - 1
# what a datagram may take from the gateway here, and a gateway's crystal may drift until its clock is set anew
LONGEST_DELAY_US = 500_000

LORA_DATA_RATES = {"SF12BW125": 0, "SF11BW125": 1, "SF10BW125": 2, "SF9BW125": 3, "SF8BW125": 4, "SF7BW125": 5, "SF7BW250": 6}
LORA_NAMES = {number: name for name, number in LORA_DATA_RATES.items()}
FSK_DATA_RATE, FSK_BITS_A_SECOND, FSK_DEVIATION_HZ = 7, 50_000, 25_000

Address = tuple[str, int]


def now_us() -> int:
    return time.time_ns() // 1000


# ---- receptions


@dataclass(frozen=True)
class Reception:
    gateway: str
    tmst: int  # the gateway's counter at the end of the last symbol: 32 bits of microseconds since it started
    time: int  # that moment in microseconds since 1970
    arrived: int  # when the datagram came, in microseconds since 1970 by this machine's clock
    frequency: int  # in hertz
    data_rate: int
    snr: float
    phy_payload: bytes


class CounterClock:
    """Turns counters of gateways that have no GPS into microseconds since 1970.

    It keeps an offset for each gateway, so that two receptions are as far apart as the gateway counted. The counter wraps
    after 71.6 minutes and begins at 0 when the gateway starts: an offset that no longer fits is replaced.
    """

    def __init__(self) -> None:
        self.offsets: dict[str, int] = {}

    def time_of(self, gateway: str, tmst: int, arrived: int) -> int:
        if gateway in self.offsets:
            delay = (arrived - self.offsets[gateway] - tmst) % (1 << 32)
            if delay <= LONGEST_DELAY_US:
                return arrived - delay
        self.offsets[gateway] = arrived - tmst
        return arrived


def whole(number: object, most: int) -> int:
    """The number, if it is an integer from 0 to `most`; else ValueError."""
    if not isinstance(number, int) or not 0 <= number <= most:
        raise ValueError(f"{number}")
    return number


def hertz(megahertz: Decimal | int) -> int:
    """The frequency in hertz, exactly. ValueError if it isn't an integer, or out of range."""
    frequency = Decimal(megahertz) * MILLION
    if not 0 <= frequency <= GREATEST_FREQUENCY or frequency != int(frequency):
        raise ValueError(f"frequency {megahertz}")
    return int(frequency)


def data_rate(modulation: str, datr: str | int) -> int:
    """ValueError if EU868 has no such data rate."""
    if modulation == "LORA" and datr in LORA_DATA_RATES:
        return LORA_DATA_RATES[datr]
    if modulation == "FSK" and datr == FSK_BITS_A_SECOND:
        return FSK_DATA_RATE
    raise ValueError(f"data rate {modulation} {datr}")


def time_by_gps(packet: dict) -> int | None:
    """The end of the reception by the gateway's GPS, in microseconds since 1970, if it has one."""
    if "time" in packet:
        return (datetime.fromisoformat(packet["time"]) - EPOCH) // timedelta(microseconds=1)
    if "tmms" in packet:
        return (whole(packet["tmms"], GREATEST_TIME) + GPS_EPOCH_MS - LEAP_SECONDS_MS) * 1000
    return None


def read_reception(gateway: str, packet: dict, arrived: int, clock: CounterClock) -> Reception | None:
    """One entry of `rxpk`. None without a right CRC: every LoRaWAN uplink has one. ValueError if it isn't in its form."""
    if packet.get("stat") != CRC_RIGHT:
        return None
    tmst = whole(packet["tmst"], GREATEST_TMST)
    by_gps = time_by_gps(packet)
    snr = float(packet.get("lsnr", 0))
    phy_payload = base64.b64decode(packet["data"], validate=True)
    if not math.isfinite(snr) or len(phy_payload) > LONGEST_FRAME:
        raise ValueError(f"{packet}")
    return Reception(
        gateway=gateway,
        tmst=tmst,
        time=whole(clock.time_of(gateway, tmst, arrived) if by_gps is None else by_gps, GREATEST_TIME),
        arrived=arrived,
        frequency=hertz(packet["freq"]),
        data_rate=data_rate(packet["modu"], packet["datr"]),
        snr=snr,
        phy_payload=phy_payload,
    )


# ---- transmissions


def transmission(tmst: int, frequency: int, rate: int, power: int, phy_payload: bytes) -> dict:
    """A `txpk` for the moment at which the gateway's counter is `tmst`; never `imme`, which would miss the window."""
    packet = {
        "imme": False,
        "tmst": tmst % (1 << 32),
        "freq": frequency / MILLION,
        "rfch": 0,
        "powe": power,
        "size": len(phy_payload),
        "data": base64.b64encode(phy_payload).decode(),
    }
    if rate == FSK_DATA_RATE:
        return packet | {"modu": "FSK", "datr": FSK_BITS_A_SECOND, "fdev": FSK_DEVIATION_HZ}
    # downlinks have inverted polarity and no payload CRC
    return packet | {"modu": "LORA", "datr": LORA_NAMES[rate], "codr": "4/5", "ipol": True, "ncrc": True}


# ---- datagrams


@dataclass(frozen=True)
class Push:
    receptions: list[Reception]
    token: bytes = field(repr=False)
    source: Address


@dataclass(frozen=True)
class Outcome:
    """What a gateway reports of a transmission."""

    gateway: str
    token: int
    error: str

    @property
    def is_sent(self) -> bool:
        """False only for an error that is known: what may have been sent has to count."""
        return self.error not in NOT_SENT


class PacketForwarders:
    def __init__(self, address: Address):
        self.socket = socket.socket(socket.AF_INET, socket.SOCK_DGRAM)
        self.socket.setsockopt(socket.SOL_SOCKET, socket.SO_RCVBUF, 1 << 20)
        self.socket.bind(address)
        self.socket.setblocking(False)
        self.clock = CounterClock()
        self.pulled: dict[str, tuple[Address, float]] = {}  # where each gateway's last PULL_DATA came from, and when

    def receive(self, seconds: float, at_most: int = 50) -> Iterator[Push | Outcome]:
        """What came, after a wait of at most these seconds. A datagram that isn't in its form is left out."""
        select.select([self.socket], [], [], seconds)
        for _ in range(at_most):
            try:
                datagram, source = self.socket.recvfrom(LARGEST_DATAGRAM)
            except BlockingIOError:
                return
            try:
                event = self.read(datagram, source)
            except MALFORMED:
                continue
            if event:
                yield event

    def read(self, datagram: bytes, source: Address) -> Push | Outcome | None:
        if len(datagram) < HEADER or datagram[0] != VERSION:
            return None
        token, kind, gateway, body = datagram[1:3], datagram[3], datagram[4:HEADER].hex(), datagram[HEADER:]
        if kind == PUSH_DATA:
            return Push(self.receptions(gateway, body), token, source)
        if kind == PULL_DATA:
            self.pulled[gateway] = source, time.monotonic()
            self.send(PULL_ACK, token, b"", source)
        if kind == TX_ACK:
            report = json.loads(body).get("txpk_ack", {}) if body.strip(b"\0") else {}
            return Outcome(gateway, int.from_bytes(token, "big"), str(report.get("error", "NONE")))
        return None

    def receptions(self, gateway: str, body: bytes) -> list[Reception]:
        """Those of a PUSH_DATA. One that isn't in its form doesn't take the others with it."""
        arrived, found = now_us(), []
        for packet in json.loads(body, parse_float=Decimal).get("rxpk", []):
            try:
                found.append(read_reception(gateway, packet, arrived, self.clock))
            except MALFORMED:
                continue
        return [reception for reception in found if reception]

    def acknowledge(self, push: Push) -> None:
        self.send(PUSH_ACK, push.token, b"", push.source)

    def can_reach(self, gateway: str) -> bool:
        return gateway in self.pulled and time.monotonic() < self.pulled[gateway][1] + PULL_SECONDS

    def give(self, gateway: str, token: int, packet: dict) -> None:
        """Gives a gateway that can be reached a transmission."""
        body = json.dumps({"txpk": packet}).encode()
        self.send(PULL_RESP, token.to_bytes(2, "big"), body, self.pulled[gateway][0])

    def send(self, kind: int, token: bytes, body: bytes, to: Address) -> None:
        try:
            self.socket.sendto(bytes([VERSION]) + token + bytes([kind]) + body, to)
        except OSError:
            pass  # UDP promises nothing: to the caller it is a lost datagram
