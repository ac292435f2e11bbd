"""What the example bridge must not forget: a file of sqlite3, on the disk before anything is sent.

Each message to the desk has its TransactionID and its text here before it is sent, and its answer once it came. So after a
crash the bridge sends again what has no answer, under the same number and with the same text, and the desk hears it once.
"""

import json
import sqlite3
from collections.abc import Iterator
from contextlib import contextmanager
from dataclasses import dataclass
from pathlib import Path

from gateway import Reception

SCHEMA = """
CREATE TABLE IF NOT EXISTS message (
    transaction_id INTEGER PRIMARY KEY, body TEXT NOT NULL, answer TEXT);
CREATE INDEX IF NOT EXISTS message_unanswered ON message (transaction_id) WHERE answer IS NULL;
CREATE TABLE IF NOT EXISTS reception (
    transaction_id INTEGER PRIMARY KEY, gateway TEXT NOT NULL, tmst INTEGER NOT NULL, time INTEGER NOT NULL,
    arrived INTEGER NOT NULL, frequency INTEGER NOT NULL, data_rate INTEGER NOT NULL, snr REAL NOT NULL,
    phy_payload BLOB NOT NULL, uplink INTEGER);  -- the uplink that it timed: the gateway's first reception of it
CREATE INDEX IF NOT EXISTS reception_of_uplink ON reception (uplink, gateway);
CREATE TABLE IF NOT EXISTS uplink (
    number INTEGER PRIMARY KEY, dev_addr TEXT NOT NULL, phy_payload BLOB NOT NULL, answer_from INTEGER NOT NULL,
    open INTEGER NOT NULL);  -- 1 while it may still be answered
CREATE INDEX IF NOT EXISTS uplink_open ON uplink (answer_from) WHERE open;
CREATE TABLE IF NOT EXISTS session (
    dev_addr TEXT PRIMARY KEY, dev_eui TEXT NOT NULL, next_down INTEGER NOT NULL DEFAULT 0);
CREATE TABLE IF NOT EXISTS downlink (
    transaction_id INTEGER PRIMARY KEY, uplink INTEGER NOT NULL, gateway TEXT NOT NULL, window INTEGER NOT NULL,
    phy_payload BLOB NOT NULL, outbox INTEGER, booking INTEGER, start INTEGER,
    state TEXT NOT NULL);  -- asked; refused, or booked; given; sent, or dropping until the desk knows, then dropped
CREATE INDEX IF NOT EXISTS downlink_of_uplink ON downlink (uplink);
CREATE INDEX IF NOT EXISTS downlink_of_booking ON downlink (booking);
CREATE INDEX IF NOT EXISTS downlink_active ON downlink (state) WHERE state IN ('asked', 'booked', 'given');
CREATE TABLE IF NOT EXISTS outbox (
    id INTEGER PRIMARY KEY, dev_eui TEXT NOT NULL, port INTEGER NOT NULL, payload BLOB NOT NULL, sent INTEGER NOT NULL DEFAULT 0);
CREATE TABLE IF NOT EXISTS inbox (
    uplink INTEGER PRIMARY KEY, dev_eui TEXT NOT NULL, counter INTEGER NOT NULL, port INTEGER NOT NULL, payload BLOB NOT NULL);
"""
RECEPTION_COLUMNS = "gateway, tmst, time, arrived, frequency, data_rate, snr, phy_payload"
DOWNLINK_COLUMNS = "transaction_id, uplink, gateway, window, phy_payload, outbox, booking, start, state"


@dataclass(frozen=True)
class Message:
    transaction_id: int
    body: str

    @property
    def members(self) -> dict:
        return json.loads(self.body)


@dataclass(frozen=True)
class Uplink:
    number: int
    dev_addr: str
    phy_payload: bytes


@dataclass(frozen=True)
class Downlink:
    transaction_id: int
    uplink: int
    gateway: str
    window: int
    phy_payload: bytes
    outbox: int | None
    booking: int | None
    start: int | None
    state: str


@dataclass(frozen=True)
class Waiting:
    """A payload that waits for a device."""

    id: int
    port: int
    payload: bytes


class Journal:
    def __init__(self, path: Path):
        self.store = sqlite3.connect(path, isolation_level=None, timeout=30)
        # FULL: a commit is on the disk when it returns
        self.store.executescript("PRAGMA journal_mode=WAL; PRAGMA synchronous=FULL;" + SCHEMA)

    @contextmanager
    def transaction(self) -> Iterator[None]:
        self.store.execute("BEGIN IMMEDIATE")
        try:
            yield
        except BaseException:
            self.store.execute("ROLLBACK")
            raise
        self.store.execute("COMMIT")

    # -- messages

    def add_message(self, members: dict) -> Message:
        """Numbers a message and stores it. It may be sent once the transaction has ended."""
        (last,) = self.store.execute("SELECT coalesce(max(transaction_id), 0) FROM message").fetchone()
        message = Message(last + 1, json.dumps({"ProtocolVersion": "1.0", "TransactionID": last + 1, **members}))
        self.store.execute("INSERT INTO message VALUES (?, ?, NULL)", (message.transaction_id, message.body))
        return message

    def unanswered(self, at_most: int) -> list[Message]:
        """The oldest ones, so that a device's frames are heard in the order in which they came."""
        select = "SELECT transaction_id, body FROM message WHERE answer IS NULL ORDER BY transaction_id LIMIT ?"
        return [Message(*row) for row in self.store.execute(select, (at_most,))]

    def set_answer(self, message: Message, answer: dict) -> None:
        self.store.execute("UPDATE message SET answer = ? WHERE transaction_id = ?", (json.dumps(answer), message.transaction_id))

    # -- receptions and uplinks

    def add_reception(self, message: Message, reception: Reception) -> None:
        values = [getattr(reception, name) for name in RECEPTION_COLUMNS.split(", ")]
        insert = f"INSERT INTO reception (transaction_id, {RECEPTION_COLUMNS}) VALUES (?, ?, ?, ?, ?, ?, ?, ?, ?)"
        self.store.execute(insert, (message.transaction_id, *values))

    def set_uplink(self, message: Message, uplink: int) -> None:
        """The reception of this message times downlinks of its gateway, unless an earlier one does."""
        update = """UPDATE reception SET uplink = ?1 WHERE transaction_id = ?2 AND NOT EXISTS (
                        SELECT * FROM reception AS earlier WHERE earlier.uplink = ?1 AND earlier.gateway = reception.gateway)"""
        self.store.execute(update, (uplink, message.transaction_id))

    def receptions_of(self, uplink: int) -> list[Reception]:
        """One for each gateway that heard it, the best first."""
        select = f"SELECT {RECEPTION_COLUMNS} FROM reception WHERE uplink = ? ORDER BY snr DESC"
        return [Reception(*row) for row in self.store.execute(select, (uplink,))]

    def add_uplink(self, uplink: Uplink, answer_from: int) -> None:
        self.store.execute("INSERT INTO uplink VALUES (?, ?, ?, ?, 1)", (uplink.number, uplink.dev_addr, uplink.phy_payload, answer_from))

    def set_open(self, uplink: int, is_open: bool) -> None:
        self.store.execute("UPDATE uplink SET open = ? WHERE number = ?", (is_open, uplink))

    def open_again(self, uplink: int, newer_than: int) -> None:
        """For a further reception: opens an uplink that came after the moment, unless it has an answer or waits for one."""
        update = """UPDATE uplink SET open = 1 WHERE number = ?1 AND answer_from > ?2 AND NOT EXISTS (
                        SELECT * FROM downlink WHERE uplink = ?1 AND state NOT IN ('refused', 'dropped'))"""
        self.store.execute(update, (uplink, newer_than))

    def uplinks_to_answer(self, now: int) -> list[Uplink]:
        select = "SELECT number, dev_addr, phy_payload FROM uplink WHERE open AND answer_from <= ? ORDER BY answer_from"
        return [Uplink(*row) for row in self.store.execute(select, (now,))]

    # -- sessions

    def add_session(self, dev_addr: str, dev_eui: str) -> None:
        self.store.execute("INSERT INTO session (dev_addr, dev_eui) VALUES (?, ?)", (dev_addr, dev_eui))

    def session(self, dev_addr: str) -> tuple[str, int]:
        """The session's device and its next downlink counter. LookupError if it isn't known."""
        row = self.store.execute("SELECT dev_eui, next_down FROM session WHERE dev_addr = ?", (dev_addr,)).fetchone()
        if row is None:
            raise LookupError(f"no session {dev_addr}")
        return row

    def count_downlink(self, dev_addr: str) -> None:
        self.store.execute("UPDATE session SET next_down = next_down + 1 WHERE dev_addr = ?", (dev_addr,))

    # -- downlinks

    def add_downlink(self, downlink: Downlink) -> None:
        values = [getattr(downlink, name) for name in DOWNLINK_COLUMNS.split(", ")]
        self.store.execute("INSERT INTO downlink VALUES (?, ?, ?, ?, ?, ?, ?, ?, ?)", values)

    def set_state(self, transaction_id: int, state: str) -> None:
        self.store.execute("UPDATE downlink SET state = ? WHERE transaction_id = ?", (state, transaction_id))

    def set_booking(self, transaction_id: int, booking: int, start: int) -> None:
        update = "UPDATE downlink SET state = 'booked', booking = ?, start = ? WHERE transaction_id = ?"
        self.store.execute(update, (booking, start, transaction_id))

    def downlinks(self, condition: str, *values: object) -> list[Downlink]:
        select = f"SELECT {DOWNLINK_COLUMNS} FROM downlink WHERE {condition} ORDER BY transaction_id"
        return [Downlink(*row) for row in self.store.execute(select, values)]

    def downlinks_in(self, state: str) -> list[Downlink]:
        """Those in one of the three states in which something is left to do."""
        return self.downlinks("state IN ('asked', 'booked', 'given') AND state = ?", state)

    def downlink_of_booking(self, booking: int) -> Downlink:
        return self.downlinks("booking = ?", booking)[0]

    def downlink_of_message(self, message: Message) -> Downlink:
        return self.downlinks("transaction_id = ?", message.transaction_id)[0]

    def options_tried(self, uplink: int) -> set[tuple[str, int]]:
        return {(downlink.gateway, downlink.window) for downlink in self.downlinks("uplink = ?", uplink)}

    # -- payloads

    def put_waiting(self, dev_eui: str, port: int, payload: bytes) -> None:
        self.store.execute("INSERT INTO outbox (dev_eui, port, payload) VALUES (?, ?, ?)", (dev_eui, port, payload))

    def waiting_for(self, dev_eui: str) -> Waiting | None:
        """The oldest payload that waits for the device and isn't on its way."""
        select = """SELECT id, port, payload FROM outbox WHERE dev_eui = ? AND NOT sent AND id NOT IN (
                        SELECT outbox FROM downlink WHERE state IN ('asked', 'booked', 'given') AND outbox IS NOT NULL)
                    ORDER BY id LIMIT 1"""
        row = self.store.execute(select, (dev_eui,)).fetchone()
        return row and Waiting(*row)

    def set_sent(self, outbox: int) -> None:
        self.store.execute("UPDATE outbox SET sent = 1 WHERE id = ?", (outbox,))

    def put_received(self, uplink: int, dev_eui: str, counter: int, port: int, payload: bytes) -> None:
        self.store.execute("INSERT INTO inbox VALUES (?, ?, ?, ?, ?)", (uplink, dev_eui, counter, port, payload))
