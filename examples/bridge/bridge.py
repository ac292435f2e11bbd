#!/usr/bin/env python3
"""An example of a bridge: it brings what gateways hear to the desk, and gives them what the desk has booked.

    ./bridge.py FOLDER run [--desk 127.0.0.1:8080] [--listen 127.0.0.1:1700] [--sender bridge] [--receiver desk] [--power 14]
    ./bridge.py FOLDER send DEVEUI PORT PAYLOAD    a payload for a device, in hexadecimal digits: it waits for its next uplink

FOLDER has its journal (journal.db) and the security module's file (security.db). A payload that a device sent is in the table
`inbox` of the journal. README.md has more.
"""

import argparse
import http.client
import json
import sys
import time
from dataclasses import dataclass
from pathlib import Path

from gateway import Address, Outcome, PacketForwarders, Push, Reception, now_us, transmission
from journal import Downlink, Journal, Message, Uplink
from security import SecurityModule, hexadecimal, read_data_frame, read_join_request

SECOND = 1_000_000
JOIN_REQUEST, CONFIRMED_UP = 0, 4
DATA_UP = (2, CONFIRMED_UP)
JOIN_REQUEST_LENGTH, SHORTEST_DATA_FRAME = 23, 12
DATA_DELAYS = {1: 1 * SECOND, 2: 2 * SECOND}
JOIN_DELAYS = {1: 5 * SECOND, 2: 6 * SECOND}
SECOND_WINDOW = (869_525_000, 0)  # frequency and data rate
LONGEST_PAYLOAD = 51  # in octets: that of DR0, at which window 2 is sent

# other gateways' receptions of an uplink are waited for so long, before one of them is chosen to answer
COLLECT_US = 200_000
# a packet forwarder needs a transmission so long before it begins
LEAD_US = 100_000
# an outcome that hasn't come so long after the transmission began won't come
OUTCOME_US = 3 * SECOND
IDLE_SECONDS = 0.02
MESSAGES_A_ROUND = 16
# above the ten seconds that the desk gives a request, for us and one client before us
DESK_TIMEOUT_SECONDS = 25
FIRST_PAUSE_SECONDS, LONGEST_PAUSE_SECONDS = 0.1, 5.0

Answer = dict


def log(text: str) -> None:
    print(f"bridge: {text}", file=sys.stderr, flush=True)


class BridgeError(Exception):
    """The desk refuses a message for what this program did wrong: going on would lose something."""


# ---- the desk


class Desk:
    """The one client of the desk. After a failure it waits, each time twice as long, up to five seconds."""

    def __init__(self, address: Address):
        self.address = address
        self.pause = FIRST_PAUSE_SECONDS
        self.not_before = 0.0

    @property
    def is_due(self) -> bool:
        return time.monotonic() >= self.not_before

    def ask(self, message: Message) -> Answer | None:
        """The answer. None if none came: then it isn't known whether the message was heard, and it has to be sent again."""
        try:
            status, body = self.post(message.body.encode())
            answer = json.loads(body) if status in (200, 400, 409) else None
        except (OSError, http.client.HTTPException, ValueError) as error:
            status, answer = repr(error), None
        if status == 200 and answer is not None:
            self.pause = FIRST_PAUSE_SECONDS
            return answer
        if answer is not None and code_of(answer) != "UnknownSender":
            raise BridgeError(f"{answer['Result']} to {message.body}")
        log(f"no answer to {message.transaction_id} ({answer['Result'] if answer else status}); again in {self.pause:.1f} s")
        self.not_before = time.monotonic() + self.pause
        self.pause = min(2 * self.pause, LONGEST_PAUSE_SECONDS)
        return None

    def post(self, body: bytes) -> tuple[int, bytes]:
        connection = http.client.HTTPConnection(*self.address, timeout=DESK_TIMEOUT_SECONDS)
        try:
            connection.request("POST", "/v1/messages", body)
            response = connection.getresponse()
            return response.status, response.read()
        finally:
            connection.close()


def code_of(answer: Answer) -> str:
    return answer["Result"]["ResultCode"]


def is_success(answer: Answer) -> bool:
    return code_of(answer) == "Success"


# ---- the bridge


@dataclass(frozen=True)
class Option:
    """A way to answer an uplink."""

    reception: Reception
    window: int


def kind_of(phy_payload: bytes) -> int:
    return phy_payload[0] >> 5


def is_join(phy_payload: bytes) -> bool:
    return kind_of(phy_payload) == JOIN_REQUEST


def is_frame_up(phy_payload: bytes) -> bool:
    """Whether the octets can be a join request or a data frame up. What else is on the air is nothing for the desk."""
    if len(phy_payload) < SHORTEST_DATA_FRAME:
        return False
    if is_join(phy_payload):
        return len(phy_payload) == JOIN_REQUEST_LENGTH
    return kind_of(phy_payload) in DATA_UP and len(phy_payload) >= SHORTEST_DATA_FRAME + (phy_payload[5] & 0x0F)


def delay(phy_payload: bytes, window: int) -> int:
    return (JOIN_DELAYS if is_join(phy_payload) else DATA_DELAYS)[window]


class Bridge:
    def __init__(self, journal: Journal, module: SecurityModule, forwarders: PacketForwarders, desk: Desk, names: dict, power: int):
        self.journal, self.module, self.forwarders, self.desk = journal, module, forwarders, desk
        self.names, self.power = names, power

    def run(self) -> None:
        while True:
            self.round()

    def round(self) -> None:
        """Whatever is to be done is in the journal, so that a round after a crash is a round like any other."""
        is_busy = self.desk.is_due and bool(self.journal.unanswered(1))
        self.receive(0 if is_busy else IDLE_SECONDS)
        self.ask_unanswered()
        self.answer_uplinks()
        self.give_booked()
        self.settle_given()

    def add_message(self, kind: str, **members: object) -> Message:
        return self.journal.add_message({**self.names, "MessageType": kind, **members})

    # -- what gateways heard

    def receive(self, seconds: float) -> None:
        events = list(self.forwarders.receive(seconds))
        if not events:
            return
        with self.journal.transaction():
            for event in events:
                if isinstance(event, Push):
                    for reception in event.receptions:
                        self.take_reception(reception)
                else:
                    self.take_outcome(event)
        # only now: what is acknowledged has to be on the disk
        for event in events:
            if isinstance(event, Push):
                self.forwarders.acknowledge(event)

    def take_reception(self, reception: Reception) -> None:
        phy_payload = reception.phy_payload
        if not is_frame_up(phy_payload) or not self.is_ours(phy_payload):
            return
        if is_join(phy_payload):
            kind, verdict = "JoinHeard", "Good" if self.module.is_join_good(phy_payload) else "Bad"
        else:
            kind, verdict = "FrameHeard", self.module.counter_of(phy_payload)
        message = self.add_message(
            kind,
            Gateway=reception.gateway,
            Time=reception.time,
            Freq=reception.frequency,
            DataRate=reception.data_rate,
            PHYPayload=phy_payload.hex(),
            Verdict=verdict,
        )
        self.journal.add_reception(message, reception)

    def is_ours(self, phy_payload: bytes) -> bool:
        """Frames of other networks are left out: the desk would store its refusal of each for good."""
        if is_join(phy_payload):
            return self.module.app_key(read_join_request(phy_payload).dev_eui) is not None
        return self.module.session(read_data_frame(phy_payload).dev_addr) is not None

    # -- what the desk answers

    def ask_unanswered(self) -> None:
        """Sends the oldest messages without an answer, until one gets none."""
        answers = []
        for message in self.journal.unanswered(MESSAGES_A_ROUND) if self.desk.is_due else []:
            answer = self.desk.ask(message)
            if answer is None:
                break
            answers.append((message, answer))
        self.take_answers(answers)

    def take_answers(self, answers: list[tuple[Message, Answer]]) -> None:
        """Stores answers together with what follows from them."""
        if not answers:
            return
        with self.journal.transaction():
            for message, answer in answers:
                self.journal.set_answer(message, answer)
                self.take_answer(message, answer)

    def take_answer(self, message: Message, answer: Answer) -> None:
        members = message.members
        kind = members["MessageType"]
        if not is_success(answer):
            log(f"{kind} {message.transaction_id} of {members.get('Gateway')} refused: {code_of(answer)} {answer['Result']['Description']}")
        if kind in ("JoinHeard", "FrameHeard") and is_success(answer):
            self.take_uplink(message, bytes.fromhex(members["PHYPayload"]), answer)
        elif kind == "DownBook":
            self.take_booking(message, answer)
        elif kind == "DownDone" and not members["Sent"]:
            self.take_drop(members["Booking"])

    def take_uplink(self, message: Message, phy_payload: bytes, answer: Answer) -> None:
        number = answer["Uplink"]
        self.journal.set_uplink(message, number)
        if answer["Copy"]:
            # one that comes after the second window is of no use: the device may have sent its next frame, and this be a replay
            self.journal.open_again(number, now_us() - delay(phy_payload, 2))
            return
        if is_join(phy_payload):
            dev_addr = answer["DevAddr"]
            self.journal.add_session(dev_addr, read_join_request(phy_payload).dev_eui)
        else:
            dev_addr = f"{read_data_frame(phy_payload).dev_addr:08x}"
            if received := self.module.application_payload(phy_payload, answer["Counter"]):
                self.journal.put_received(number, answer["DevEUI"], answer["Counter"], *received)
        self.journal.add_uplink(Uplink(number, dev_addr, phy_payload), now_us() + COLLECT_US)

    def take_booking(self, message: Message, answer: Answer) -> None:
        downlink = self.journal.downlink_of_message(message)
        if is_success(answer):
            self.journal.set_booking(message.transaction_id, answer["Booking"], answer["Start"])
            if not is_accept(downlink):
                # a booking uses up its counter, even if it is dropped; a refused one doesn't
                self.journal.count_downlink(f"{read_data_frame(downlink.phy_payload).dev_addr:08x}")
        else:
            self.journal.set_state(message.transaction_id, "refused")
            # the next round tries the next window or gateway, if one of these can help
            self.journal.set_open(downlink.uplink, answer["Result"]["Description"] in ("collision", "duty"))

    def take_drop(self, booking: int) -> None:
        """The desk knows that the booking is dropped: only now may the uplink be answered in another window."""
        downlink = self.journal.downlink_of_booking(booking)
        self.journal.set_state(downlink.transaction_id, "dropped")
        self.journal.set_open(downlink.uplink, True)

    # -- downlinks

    def answer_uplinks(self) -> None:
        """Books an answer to each uplink that wants one, one after another: the next downlink counter has to be known."""
        for uplink in self.journal.uplinks_to_answer(now_us()):
            if not self.desk.is_due or self.journal.downlinks_in("asked"):
                return
            self.answer_uplink(uplink)
            self.give_booked()

    def answer_uplink(self, uplink: Uplink) -> None:
        options = self.options_for(uplink)
        try:
            made = self.make_downlink(uplink) if options else None
        except LookupError as error:
            log(f"uplink {uplink.number} has no answer: {error}")
            made = None
        if made is None:
            self.journal.set_open(uplink.number, False)
            return
        phy_payload, outbox = made
        option = next((option for option in options if self.forwarders.can_reach(option.reception.gateway)), None)
        if option is None:
            return  # after a restart: until the gateway's next PULL_DATA
        gateway, window = option.reception.gateway, option.window
        with self.journal.transaction():
            message = self.add_message("DownBook", Uplink=uplink.number, Gateway=gateway, Window=window, PHYPayload=phy_payload.hex())
            asked = Downlink(message.transaction_id, uplink.number, gateway, window, phy_payload, outbox, None, None, "asked")
            self.journal.add_downlink(asked)
            self.journal.set_open(uplink.number, False)
        if answer := self.desk.ask(message):
            self.take_answers([(message, answer)])

    def options_for(self, uplink: Uplink) -> list[Option]:
        """Gateways that heard it, the best first, each with window 1 and then window 2; none that was tried or is too late."""
        tried, now = self.journal.options_tried(uplink.number), now_us()
        return [
            Option(reception, window)
            for reception in self.journal.receptions_of(uplink.number)
            for window in (1, 2)
            if (reception.gateway, window) not in tried and now + LEAD_US < reception.arrived + delay(uplink.phy_payload, window)
        ]

    def make_downlink(self, uplink: Uplink) -> tuple[bytes, int | None] | None:
        """The octets that answer the uplink, and the payload's place in the outbox. None if there is nothing to send.

        LookupError if the device's key was removed, or the session is older than the journal: its counter isn't known.
        """
        if is_join(uplink.phy_payload):
            return self.module.join_accept(uplink.phy_payload, int(uplink.dev_addr, 16)), None
        dev_eui, counter = self.journal.session(uplink.dev_addr)
        waiting = self.journal.waiting_for(dev_eui)
        acknowledges = kind_of(uplink.phy_payload) == CONFIRMED_UP
        if waiting is None and not acknowledges:
            return None
        payload = (waiting.port, waiting.payload) if waiting else ()
        return self.module.downlink(int(uplink.dev_addr, 16), counter, acknowledges, *payload), waiting and waiting.id

    def give_booked(self) -> None:
        """Gives each booking to its gateway, or drops it if its window is over."""
        for downlink in self.journal.downlinks_in("booked"):
            reception = next(r for r in self.journal.receptions_of(downlink.uplink) if r.gateway == downlink.gateway)
            if now_us() + LEAD_US >= reception.arrived + downlink.start - reception.time:
                with self.journal.transaction():
                    self.finish(downlink, is_sent=False)
            elif self.forwarders.can_reach(downlink.gateway):
                # stored before it is given, since what may have been sent has to count
                self.journal.set_state(downlink.transaction_id, "given")
                self.forwarders.give(downlink.gateway, token_of(downlink), self.packet(downlink, reception))

    def packet(self, downlink: Downlink, reception: Reception) -> dict:
        """The booking as a transmission, by the gateway's own counter: its clock's offset doesn't matter."""
        first_window = (reception.frequency, reception.data_rate)
        frequency, data_rate = first_window if downlink.window == 1 else SECOND_WINDOW
        tmst = reception.tmst + downlink.start - reception.time
        return transmission(tmst, frequency, data_rate, self.power, downlink.phy_payload)

    def take_outcome(self, outcome: Outcome) -> None:
        for downlink in self.journal.downlinks_in("given"):
            if downlink.gateway == outcome.gateway and token_of(downlink) == outcome.token:
                if not outcome.is_sent:
                    log(f"{outcome.gateway} doesn't send booking {downlink.booking}: {outcome.error}")
                self.finish(downlink, outcome.is_sent)

    def settle_given(self) -> None:
        """A booking whose outcome didn't come counts as sent: so no hour has more on the air than the desk knows of."""
        for downlink in self.journal.downlinks_in("given"):
            reception = next(r for r in self.journal.receptions_of(downlink.uplink) if r.gateway == downlink.gateway)
            if now_us() > reception.arrived + downlink.start - reception.time + OUTCOME_US:
                with self.journal.transaction():
                    self.finish(downlink, is_sent=True)

    def finish(self, downlink: Downlink, is_sent: bool) -> None:
        self.add_message("DownDone", Booking=downlink.booking, Sent=is_sent)
        self.journal.set_state(downlink.transaction_id, "sent" if is_sent else "dropping")
        if is_sent and downlink.outbox is not None:
            self.journal.set_sent(downlink.outbox)


def is_accept(downlink: Downlink) -> bool:
    return kind_of(downlink.phy_payload) == 1


def token_of(downlink: Downlink) -> int:
    return downlink.booking % (1 << 16)


# ---- the command


def address(text: str) -> Address:
    host, _, port = text.rpartition(":")
    return host, int(port)


def port(text: str) -> int:
    number = int(text)
    if not 1 <= number <= 223:
        raise ValueError(text)
    return number


def payload(text: str) -> bytes:
    octets = bytes.fromhex(text)
    if len(octets) > LONGEST_PAYLOAD:
        raise ValueError(text)
    return octets


def read_arguments() -> argparse.Namespace:
    arguments = argparse.ArgumentParser(description=__doc__, formatter_class=argparse.RawDescriptionHelpFormatter)
    arguments.add_argument("folder", type=Path)
    commands = arguments.add_subparsers(dest="command", required=True)
    run = commands.add_parser("run")
    run.add_argument("--desk", type=address, default=("127.0.0.1", 8080))
    run.add_argument("--listen", type=address, default=("127.0.0.1", 1700))
    run.add_argument("--sender", default="bridge")
    run.add_argument("--receiver", default="desk")
    run.add_argument("--power", type=int, default=14, help="of transmissions, in dBm (EIRP less the antenna's gain)")
    send = commands.add_parser("send")
    send.add_argument("dev_eui", type=hexadecimal(8), metavar="DEVEUI")
    send.add_argument("port", type=port, metavar="PORT")
    send.add_argument("payload", type=payload, metavar="PAYLOAD")
    return arguments.parse_args()


def main() -> None:
    given = read_arguments()
    journal = Journal(given.folder / "journal.db")
    if given.command == "send":
        journal.put_waiting(given.dev_eui.hex(), given.port, given.payload)
        return
    names = {"SenderID": given.sender, "ReceiverID": given.receiver}
    module = SecurityModule(given.folder / "security.db")
    bridge = Bridge(journal, module, PacketForwarders(given.listen), Desk(given.desk), names, given.power)
    log(f"listening {given.listen[0]}:{given.listen[1]}")
    try:
        bridge.run()
    except BridgeError as error:
        sys.exit(f"bridge.py: {error}")
    except KeyboardInterrupt:
        pass


if __name__ == "__main__":
    main()
