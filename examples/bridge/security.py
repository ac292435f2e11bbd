#!/usr/bin/env python3
"""The security module of the example bridge: the only part that has keys (LoRaWAN L2 1.0.4).

    ./security.py FOLDER add DEVEUI      reads the device's AppKey, 32 hexadecimal digits, from standard input
    ./security.py FOLDER remove DEVEUI   a device that was lost: its joins and frames are no longer found right

FOLDER/security.db holds AppKeys and sessions. Only its owner may read it, and the module doesn't open it otherwise.
"""

import argparse
import os
import sqlite3
import sys
from dataclasses import dataclass
from pathlib import Path

try:
    from cryptography.hazmat.primitives.ciphers import Cipher, algorithms, modes
    from cryptography.hazmat.primitives.cmac import CMAC
except ImportError:
    sys.exit(f"{sys.executable} has no package cryptography, which the bridge needs: install Debian's python3-cryptography")

UP, DOWN = 0, 1
JOIN_REQUEST, JOIN_ACCEPT, DATA_DOWN = 0x00, 0x20, 0x60
ACK_BIT = 0x20
MIC_LENGTH = 4
# RX1DROffset 0 with RX2 at DR0, and RxDelay 1 s: the only windows that the desk books
DL_SETTINGS, RX_DELAY = 0x00, 0x01
BLOCK = 1 << 16

SCHEMA = """
CREATE TABLE IF NOT EXISTS device (dev_eui TEXT PRIMARY KEY, app_key BLOB NOT NULL);
CREATE TABLE IF NOT EXISTS session (
    dev_addr INTEGER PRIMARY KEY, dev_eui TEXT NOT NULL, dev_nonce INTEGER NOT NULL, join_nonce INTEGER NOT NULL,
    counter_block INTEGER NOT NULL DEFAULT 0  -- the upper 16 bits of the greatest counter that was found right
);
"""

# ---- ciphers


def cmac(key: bytes, text: bytes) -> bytes:
    """AES-CMAC (RFC 4493), 16 octets."""
    code = CMAC(algorithms.AES(key))
    code.update(text)
    return code.finalize()


def aes_encrypt(key: bytes, blocks: bytes) -> bytes:
    cipher = Cipher(algorithms.AES(key), modes.ECB()).encryptor()
    return cipher.update(blocks) + cipher.finalize()


def aes_decrypt(key: bytes, blocks: bytes) -> bytes:
    cipher = Cipher(algorithms.AES(key), modes.ECB()).decryptor()
    return cipher.update(blocks) + cipher.finalize()


def block_of(first: int, direction: int, dev_addr: int, counter: int, last: int) -> bytes:
    """The blocks A and B0 of section 4: they differ in the first and the last octet."""
    middle = bytes(4) + bytes([direction]) + dev_addr.to_bytes(4, "little") + counter.to_bytes(4, "little")
    return bytes([first]) + middle + bytes([0, last])


def data_mic(key: bytes, direction: int, dev_addr: int, counter: int, message: bytes) -> bytes:
    """The MIC of a data frame whose octets before the MIC are `message`."""
    return cmac(key, block_of(0x49, direction, dev_addr, counter, len(message)) + message)[:MIC_LENGTH]


def crypt(key: bytes, direction: int, dev_addr: int, counter: int, payload: bytes) -> bytes:
    """Encrypts or decrypts an FRMPayload: the same operation."""
    blocks = (len(payload) + 15) // 16
    stream = aes_encrypt(key, b"".join(block_of(0x01, direction, dev_addr, counter, n + 1) for n in range(blocks)))
    return bytes(octet ^ mask for octet, mask in zip(payload, stream))


@dataclass(frozen=True)
class SessionKeys:
    network: bytes  # NwkSKey
    application: bytes  # AppSKey


def session_keys(app_key: bytes, join_nonce: int, net_id: int, dev_nonce: int) -> SessionKeys:
    rest = join_nonce.to_bytes(3, "little") + net_id.to_bytes(3, "little") + dev_nonce.to_bytes(2, "little") + bytes(7)
    return SessionKeys(aes_encrypt(app_key, b"\x01" + rest), aes_encrypt(app_key, b"\x02" + rest))


# ---- frames


@dataclass(frozen=True)
class JoinRequest:
    dev_eui: str
    dev_nonce: int


@dataclass(frozen=True)
class DataFrame:
    dev_addr: int
    fcnt: int
    port: int | None
    payload: bytes  # encrypted


def read_join_request(phy_payload: bytes) -> JoinRequest:
    return JoinRequest(phy_payload[9:17][::-1].hex(), int.from_bytes(phy_payload[17:19], "little"))


def read_data_frame(phy_payload: bytes) -> DataFrame:
    """The frame's fields. The caller has a data frame of at least 12 octets."""
    dev_addr, fcnt = int.from_bytes(phy_payload[1:5], "little"), int.from_bytes(phy_payload[6:8], "little")
    after_options = 8 + (phy_payload[5] & 0x0F)
    rest = phy_payload[after_options:-MIC_LENGTH]
    return DataFrame(dev_addr, fcnt, rest[0] if rest else None, rest[1:])


# ---- the module


@dataclass(frozen=True)
class Session:
    keys: SessionKeys
    counter_block: int


def owned_file(path: Path) -> Path:
    """The file, made if it is missing, which only its owner may read."""
    os.close(os.open(path, os.O_RDWR | os.O_CREAT, 0o600))
    if path.stat().st_mode & 0o077:
        raise PermissionError(f"{path}: others may read it; chmod 600 it")
    return path


class SecurityModule:
    def __init__(self, path: Path, net_id: int = 0):
        self.net_id = net_id
        self.store = sqlite3.connect(owned_file(path), isolation_level=None)
        self.store.executescript("PRAGMA synchronous=FULL;" + SCHEMA)

    def close(self) -> None:
        self.store.close()

    # -- devices

    def add_device(self, dev_eui: str, app_key: bytes) -> None:
        self.store.execute("INSERT INTO device VALUES (?, ?)", (dev_eui, app_key))

    def remove_device(self, dev_eui: str) -> None:
        self.store.execute("DELETE FROM device WHERE dev_eui = ?", (dev_eui,))

    def app_key(self, dev_eui: str) -> bytes | None:
        row = self.store.execute("SELECT app_key FROM device WHERE dev_eui = ?", (dev_eui,)).fetchone()
        return row and row[0]

    # -- joins

    def is_join_good(self, phy_payload: bytes) -> bool:
        """Whether the MIC of the join request is right. It is wrong for a device without a key."""
        app_key = self.app_key(read_join_request(phy_payload).dev_eui)
        return app_key is not None and cmac(app_key, phy_payload[:-MIC_LENGTH])[:MIC_LENGTH] == phy_payload[-MIC_LENGTH:]

    def join_accept(self, phy_payload: bytes, dev_addr: int) -> bytes:
        """The join accept that gives this address. It is the same octets however often it is asked for."""
        request = read_join_request(phy_payload)
        app_key = self.app_key(request.dev_eui)
        if app_key is None:
            raise LookupError(f"no AppKey of {request.dev_eui}")
        join_nonce = self.join_nonce(request, dev_addr)
        body = b"".join(number.to_bytes(length, "little") for number, length in ((join_nonce, 3), (self.net_id, 3), (dev_addr, 4)))
        body += bytes([DL_SETTINGS, RX_DELAY])
        mic = cmac(app_key, bytes([JOIN_ACCEPT]) + body)[:MIC_LENGTH]
        # the device has only the cipher's encryption, so that the accept is decrypted here
        return bytes([JOIN_ACCEPT]) + aes_decrypt(app_key, body + mic)

    def join_nonce(self, request: JoinRequest, dev_addr: int) -> int:
        """The JoinNonce of the session: one above the device's last, and on the disk before it is used."""
        insert = """INSERT OR IGNORE INTO session (dev_addr, dev_eui, dev_nonce, join_nonce)
                    SELECT ?1, ?2, ?3, 1 + coalesce(max(join_nonce), 0) FROM session WHERE dev_eui = ?2"""
        self.store.execute(insert, (dev_addr, request.dev_eui, request.dev_nonce))
        return self.store.execute("SELECT join_nonce FROM session WHERE dev_addr = ?", (dev_addr,)).fetchone()[0]

    # -- data frames

    def session(self, dev_addr: int) -> Session | None:
        select = """SELECT app_key, join_nonce, dev_nonce, counter_block FROM session JOIN device USING (dev_eui)
                    WHERE dev_addr = ?"""
        row = self.store.execute(select, (dev_addr,)).fetchone()
        if row is None:
            return None
        app_key, join_nonce, dev_nonce, counter_block = row
        return Session(session_keys(app_key, join_nonce, self.net_id, dev_nonce), counter_block)

    def counter_of(self, phy_payload: bytes) -> int | None:
        """The 32-bit counter at which the MIC is right, or None.

        FCnt has the lower 16 bits. The upper ones are those of the last counter, one more, or one less for a copy that
        comes late.
        """
        frame = read_data_frame(phy_payload)
        session = self.session(frame.dev_addr)
        if session is None:
            return None
        for block in (session.counter_block, session.counter_block + 1, session.counter_block - 1):
            counter = block * BLOCK + frame.fcnt
            if 0 <= counter < 1 << 32 and self.is_mic_right(session, frame.dev_addr, counter, phy_payload):
                self.raise_block(frame.dev_addr, session, block)
                return counter
        return None

    @staticmethod
    def is_mic_right(session: Session, dev_addr: int, counter: int, phy_payload: bytes) -> bool:
        return data_mic(session.keys.network, UP, dev_addr, counter, phy_payload[:-MIC_LENGTH]) == phy_payload[-MIC_LENGTH:]

    def raise_block(self, dev_addr: int, session: Session, block: int) -> None:
        if block > session.counter_block:
            self.store.execute("UPDATE session SET counter_block = ? WHERE dev_addr = ?", (block, dev_addr))

    def application_payload(self, phy_payload: bytes, counter: int) -> tuple[int, bytes] | None:
        """FPort and the decrypted FRMPayload, or None without a payload for the application (FPort 0 has MAC commands)."""
        frame = read_data_frame(phy_payload)
        session = self.session(frame.dev_addr)
        if session is None or not frame.port:
            return None
        return frame.port, crypt(session.keys.application, UP, frame.dev_addr, counter, frame.payload)

    def downlink(self, dev_addr: int, counter: int, acknowledges: bool, port: int | None = None, payload: bytes = b"") -> bytes:
        """An unconfirmed data frame down. Without a port it has no payload: an acknowledgement alone."""
        session = self.session(dev_addr)
        if session is None:
            raise LookupError(f"no session of {dev_addr:08x}")
        message = bytes([DATA_DOWN]) + dev_addr.to_bytes(4, "little") + bytes([ACK_BIT if acknowledges else 0])
        message += (counter % BLOCK).to_bytes(2, "little")
        if port is not None:
            message += bytes([port]) + crypt(session.keys.application, DOWN, dev_addr, counter, payload)
        return message + data_mic(session.keys.network, DOWN, dev_addr, counter, message)


def hexadecimal(length: int):
    def read(text: str) -> bytes:
        octets = bytes.fromhex(text)
        if len(octets) != length:
            raise ValueError(text)
        return octets

    read.__name__ = f"value of {length} octets in hexadecimal digits"
    return read


def main() -> None:
    arguments = argparse.ArgumentParser(description=__doc__, formatter_class=argparse.RawDescriptionHelpFormatter)
    arguments.add_argument("folder", type=Path)
    arguments.add_argument("command", choices=["add", "remove"])
    arguments.add_argument("dev_eui", type=hexadecimal(8), metavar="DEVEUI")
    given = arguments.parse_args()
    module = SecurityModule(given.folder / "security.db")
    if given.command == "remove":
        module.remove_device(given.dev_eui.hex())
        return
    try:
        module.add_device(given.dev_eui.hex(), hexadecimal(16)(sys.stdin.readline().strip()))
    except ValueError:
        sys.exit("security.py: an AppKey has 32 hexadecimal digits")
    except sqlite3.IntegrityError:
        sys.exit("security.py: the device has a key already; remove it first")


if __name__ == "__main__":
    main()
