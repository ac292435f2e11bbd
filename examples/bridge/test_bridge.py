#!/usr/bin/env python3
"""Tests of the example bridge's parts: `python3 -m unittest` in this folder."""

import base64
import json
import socket
import stat
import tempfile
import threading
import unittest
from contextlib import redirect_stderr
from decimal import Decimal
from http.server import BaseHTTPRequestHandler, HTTPServer
from io import StringIO
from pathlib import Path

import security
from bridge import Bridge, BridgeError, Desk, is_frame_up
from gateway import MALFORMED, CounterClock, PacketForwarders, Push, Reception
from gateway import data_rate, hertz, now_us, read_reception, time_by_gps, transmission
from journal import Downlink, Journal, Message, Uplink
from security import SecurityModule

DEV_EUI, APP_KEY = "0004a30b001a2b3c", bytes(range(16))
JOIN_EUI = "70b3d57ed0000001"


def join_request(dev_nonce: int, key: bytes = APP_KEY) -> bytes:
    message = b"\x00" + bytes.fromhex(JOIN_EUI)[::-1] + bytes.fromhex(DEV_EUI)[::-1] + dev_nonce.to_bytes(2, "little")
    return message + security.cmac(key, message)[:4]


class PublishedVectors(unittest.TestCase):
    def test_aes_cmac_of_rfc_4493(self):
        key = bytes.fromhex("2b7e151628aed2a6abf7158809cf4f3c")
        text = bytes.fromhex("6bc1bee22e409f96e93d7e117393172a")
        self.assertEqual(security.cmac(key, b"").hex(), "bb1d6929e95937287fa37d129b756746")
        self.assertEqual(security.cmac(key, text).hex(), "070a16b46b4d4144f79bdd9dd04a287c")

    def test_data_frame(self):
        frame = bytes.fromhex("40F17DBE4900020001954378762B11FF0D")
        network, application = bytes.fromhex("44024241ed4ce9a68c6a8bc055233fd3"), bytes.fromhex("ec925802ae430ca77fd3dd73cb2cc588")
        read = security.read_data_frame(frame)
        self.assertEqual((read.dev_addr, read.fcnt, read.port), (0x49BE7DF1, 2, 1))
        self.assertEqual(security.data_mic(network, security.UP, 0x49BE7DF1, 2, frame[:-4]), frame[-4:])
        self.assertNotEqual(security.data_mic(network, security.UP, 0x49BE7DF1, 65_538, frame[:-4]), frame[-4:])
        self.assertEqual(security.crypt(application, security.UP, 0x49BE7DF1, 2, read.payload), b"test")

    def test_join_accept_and_session_keys(self):
        app_key = bytes.fromhex("b6b53f4a168a7a88bdf7ea135ce9cfca")
        accept = bytes.fromhex("204dd85ae608b87fc4889970b7d2042c9e72959b0057aed6094b16003df12de145")
        body = security.aes_encrypt(app_key, accept[1:])
        self.assertEqual(body.hex(), "3a06e5130000432e01260301184f84e85684b85e84886684586e840055121de0")
        self.assertEqual(security.cmac(app_key, accept[:1] + body[:-4])[:4], body[-4:])
        keys = security.session_keys(app_key, 0xE5063A, 0x000013, 0xCC85)
        self.assertEqual(keys.network.hex(), "2c96f7028184bb0be8aa49275290d4fc")
        self.assertEqual(keys.application.hex(), "f3a5c8f0232a38c144029c165865802c")


class Module(unittest.TestCase):
    def setUp(self):
        folder = tempfile.TemporaryDirectory()
        self.addCleanup(folder.cleanup)
        self.path = Path(folder.name) / "security.db"
        self.module = SecurityModule(self.path)
        self.addCleanup(self.module.close)
        self.module.add_device(DEV_EUI, APP_KEY)

    def joined(self, dev_nonce: int = 0, dev_addr: int = 0x01A00000) -> tuple[int, security.SessionKeys]:
        """What the device reads in its accept."""
        accept = self.module.join_accept(join_request(dev_nonce), dev_addr)
        body = security.aes_encrypt(APP_KEY, accept[1:])
        self.assertEqual(security.cmac(APP_KEY, accept[:1] + body[:-4])[:4], body[-4:])
        self.assertEqual((int.from_bytes(body[6:10], "little"), body[10:12]), (dev_addr, b"\x00\x01"))
        join_nonce = int.from_bytes(body[:3], "little")
        return join_nonce, security.session_keys(APP_KEY, join_nonce, int.from_bytes(body[3:6], "little"), dev_nonce)

    def frame(self, keys: security.SessionKeys, counter: int, dev_addr: int = 0x01A00000) -> bytes:
        message = b"\x40" + dev_addr.to_bytes(4, "little") + b"\x00" + (counter % 65_536).to_bytes(2, "little") + b"\x02"
        message += security.crypt(keys.application, security.UP, dev_addr, counter, b"twelve: %d" % counter)
        return message + security.data_mic(keys.network, security.UP, dev_addr, counter, message)

    def test_file_is_its_owners(self):
        self.assertEqual(stat.S_IMODE(self.path.stat().st_mode), 0o600)
        self.path.chmod(0o640)
        self.assertRaises(PermissionError, SecurityModule, self.path)

    def test_joins(self):
        self.assertTrue(self.module.is_join_good(join_request(0)))
        self.assertFalse(self.module.is_join_good(join_request(0, bytes(16))))
        self.module.remove_device(DEV_EUI)
        self.assertFalse(self.module.is_join_good(join_request(0)))

    def test_accepts(self):
        first = self.module.join_accept(join_request(0), 0x01A00000)
        self.assertEqual(self.module.join_accept(join_request(0), 0x01A00000), first)
        self.assertEqual(self.joined(0)[0], 1)
        self.assertEqual(self.joined(1, 0x01A00001)[0], 2)

    def test_counters(self):
        _, keys = self.joined()
        # 65,536 follows 65,535; a copy of the one before is found too; so is the next block
        for counter in (0, 1, 65_535, 65_536, 65_535, 65_537, 131_072, 65_536):
            self.assertEqual(self.module.counter_of(self.frame(keys, counter)), counter)
        self.assertIsNone(self.module.counter_of(self.frame(keys, 5)))
        self.assertIsNone(self.module.counter_of(self.frame(keys, 131_073)[:-1] + b"\x00"))
        self.assertIsNone(self.module.counter_of(self.frame(keys, 0, 0x01A00009)))

    def test_payloads(self):
        _, keys = self.joined()
        self.assertEqual(self.module.application_payload(self.frame(keys, 70_000), 70_000), (2, b"twelve: 70000"))

    def test_downlinks(self):
        _, keys = self.joined()
        for acknowledges, control in ((True, 0x20), (False, 0x00)):
            octets = self.module.downlink(0x01A00000, 65_537, acknowledges, 7, b"seventeen octets!")
            read = security.read_data_frame(octets)
            self.assertEqual((octets[0], octets[5], read.fcnt, read.port), (0x60, control, 1, 7))
            self.assertEqual(security.crypt(keys.application, security.DOWN, 0x01A00000, 65_537, read.payload), b"seventeen octets!")
            self.assertEqual(security.data_mic(keys.network, security.DOWN, 0x01A00000, 65_537, octets[:-4]), octets[-4:])
        self.assertEqual(len(self.module.downlink(0x01A00000, 0, True)), 12)


class Gateways(unittest.TestCase):
    packet = {"tmst": 3_512_348_611, "freq": Decimal("866.349812"), "stat": 1, "modu": "LORA", "datr": "SF7BW125", "data": "QPF9vkk="}

    def read(self, **members):
        return read_reception("aa555a0000000001", self.packet | members, 1_706_745_600_000_000, CounterClock())

    def test_frequencies(self):
        self.assertEqual(hertz(Decimal("868.1")), 868_100_000)
        self.assertEqual(hertz(868), 868_000_000)
        self.assertEqual(self.read().frequency, 866_349_812)
        self.assertRaises(ValueError, hertz, Decimal("868.1000001"))

    def test_data_rates(self):
        self.assertEqual([data_rate("LORA", f"SF{factor}BW125") for factor in range(12, 6, -1)], [0, 1, 2, 3, 4, 5])
        self.assertEqual((data_rate("LORA", "SF7BW250"), data_rate("FSK", 50_000)), (6, 7))
        for modulation, datr in (("LORA", "SF6BW125"), ("FSK", 100_000), ("LORA", 50_000), ("FSK", "SF7BW125")):
            self.assertRaises(ValueError, data_rate, modulation, datr)

    def test_wrong_crc(self):
        self.assertIsNone(self.read(stat=-1))
        self.assertIsNone(self.read(stat=0))

    def test_times(self):
        self.assertEqual(time_by_gps({"time": "2013-03-31T16:21:17.528002Z"}), 1_364_746_877_528_002)
        # 2024-02-01 00:00:00 UTC is 1,390,780,818 seconds of GPS time
        self.assertEqual(time_by_gps({"tmms": 1_390_780_818_000}), 1_706_745_600_000_000)
        self.assertEqual(self.read(time="2013-03-31T16:21:17.528002Z").time, 1_364_746_877_528_002)
        self.assertEqual(self.read().time, 1_706_745_600_000_000)

    def test_counters_without_gps(self):
        clock, day = CounterClock(), 1_706_745_600_000_000
        self.assertEqual(clock.time_of("a", (1 << 32) - 1_000, day), day)
        # past the wrap, and 300 milliseconds on the way: the time is as far on as the counter
        self.assertEqual(clock.time_of("a", 999_000, day + 1_300_000), day + 1_000_000)
        # before what was heard, by a datagram that overtook it
        self.assertEqual(clock.time_of("a", 899_000, day + 1_000_000), day + 900_000)
        # the gateway started again
        self.assertEqual(clock.time_of("a", 5_000_000, day + 3_000_000), day + 3_000_000)
        self.assertEqual(clock.time_of("a", 5_500_000, day + 3_500_100), day + 3_500_000)

    def test_malformed_receptions(self):
        for members in (
            {"tmst": 1 << 32},
            {"tmst": -1},
            {"tmst": Decimal("1.5")},
            {"freq": Decimal("1e999999999")},
            {"freq": -868},
            {"freq": 5000},
            {"time": "0001-01-01T00:00:00Z"},
            {"tmms": 1 << 60},
            {"lsnr": float("nan")},
            {"data": "AAA"},
            {"data": "AA*A"},
            {"data": base64.b64encode(bytes(256)).decode()},
        ):
            with self.assertRaises(MALFORMED, msg=members):
                self.read(**members)

    def test_transmissions(self):
        lora = transmission((1 << 32) + 5, 869_525_000, 0, 14, b"abc")
        self.assertEqual((lora["tmst"], lora["freq"], lora["datr"], lora["size"]), (5, 869.525, "SF12BW125", 3))
        self.assertEqual((lora["imme"], lora["ipol"], lora["ncrc"], lora["codr"]), (False, True, True, "4/5"))
        fsk = transmission(5, 868_800_000, 7, 14, b"abc")
        self.assertEqual((fsk["modu"], fsk["datr"], fsk["fdev"], base64.b64decode(fsk["data"])), ("FSK", 50_000, 25_000, b"abc"))

    def test_datagrams(self):
        forwarders = PacketForwarders(("127.0.0.1", 0))
        self.addCleanup(forwarders.socket.close)
        wrong = {**self.packet, "freq": "many", "datr": "SF5BW125"}
        body = json.dumps({"rxpk": [wrong, self.packet | {"freq": 868.3}]}, default=float).encode()
        push = forwarders.read(b"\x02\x12\x34\x00" + bytes.fromhex("aa555a0000000001") + body, ("127.0.0.1", 9))
        self.assertIsInstance(push, Push)
        self.assertEqual([(r.gateway, r.frequency, r.data_rate) for r in push.receptions], [("aa555a0000000001", 868_300_000, 5)])
        outcome = forwarders.read(b"\x02\x12\x34\x05" + bytes(8) + b'{"txpk_ack":{"error":"TOO_LATE"}}', ("127.0.0.1", 9))
        self.assertEqual((outcome.token, outcome.is_sent), (0x1234, False))
        self.assertTrue(forwarders.read(b"\x02\x12\x34\x05" + bytes(8), ("127.0.0.1", 9)).is_sent)
        # a forwarder that lowers the power sends all the same
        lowered = b'{"txpk_ack":{"warn":"TX_POWER","value":20}}'
        self.assertTrue(forwarders.read(b"\x02\x12\x34\x05" + bytes(8) + lowered, ("127.0.0.1", 9)).is_sent)
        # what isn't known to be an error counts as sent
        self.assertTrue(forwarders.read(b"\x02\x12\x34\x05" + bytes(8) + b'{"txpk_ack":{"error":"NEW"}}', ("127.0.0.1", 9)).is_sent)
        for body in (b"[" * 100_000, b"[]", b'{"rxpk":7}', b"\xff", b'{"rxpk":[[],7,null]}'):
            datagram = b"\x02\x12\x34\x00" + bytes(8) + body
            forwarders.socket.sendto(datagram[:60_000], forwarders.socket.getsockname())
        self.assertEqual([push.receptions for push in forwarders.receive(1)], [[]])
        self.assertIsNone(forwarders.read(b"\x01\x12\x34\x00" + bytes(8) + body, ("127.0.0.1", 9)))


class Frames(unittest.TestCase):
    def test_what_is_reported(self):
        data = bytes.fromhex("40F17DBE4900020001954378762B11FF0D")
        for octets, is_up in ((b"", False), (b"\x40", False), (data, True), (data[:12], True), (data[:11], False), (join_request(0), True)):
            self.assertEqual(is_frame_up(octets), is_up, octets.hex())
        for octets in (join_request(0)[:22], b"\x20" + bytes(16), b"\x60" + data[1:], b"\xe0" + data[1:], data[:5] + b"\x0f" + data[6:]):
            self.assertFalse(is_frame_up(octets), octets.hex())


class Desks(unittest.TestCase):
    """The client of the desk, against a server with scripted responses."""

    def setUp(self):
        self.responses = []
        test = self

        class Scripted(BaseHTTPRequestHandler):
            def do_POST(self):
                self.rfile.read(int(self.headers["Content-Length"]))
                status, code = test.responses.pop(0)
                body = json.dumps({"Result": {"ResultCode": code, "Description": ""}}).encode() if code else b"unavailable\n"
                self.send_response(status)
                self.send_header("Content-Length", str(len(body)))
                self.end_headers()
                self.wfile.write(body)

            def log_message(self, *_):
                pass

        self.server = HTTPServer(("127.0.0.1", 0), Scripted)
        self.desk = Desk(self.server.server_address)
        serving = threading.Thread(target=self.server.serve_forever, kwargs={"poll_interval": 0.01})
        serving.start()
        self.addCleanup(serving.join)
        self.addCleanup(self.server.server_close)
        self.addCleanup(self.server.shutdown)

    def ask(self, status: int, code: str | None):
        self.responses.append((status, code))
        with redirect_stderr(StringIO()):
            return self.desk.ask(Message(1, "{}"))

    def test_answers(self):
        for code in ("Success", "MICFailed"):
            self.assertEqual(self.ask(200, code)["Result"]["ResultCode"], code)
        self.assertTrue(self.desk.is_due)

    def test_no_answers(self):
        """The pause before the next try doubles up to its greatest, and an answer ends that."""
        for pause in (0.2, 0.4, 0.8, 1.6, 3.2, 5.0, 5.0):
            self.assertIsNone(self.ask(503, None))
            self.assertEqual((self.desk.is_due, self.desk.pause), (False, pause))
        self.assertIsNone(self.ask(400, "UnknownSender"))
        self.ask(200, "Success")
        self.assertEqual(self.desk.pause, 0.1)

    def test_errors_of_the_bridge(self):
        for status, code in ((409, "Other"), (400, "UnknownReceiver")):
            self.assertRaises(BridgeError, self.ask, status, code)

    def test_no_desk(self):
        with socket.socket() as bound, redirect_stderr(StringIO()):
            bound.bind(("127.0.0.1", 0))
            self.assertIsNone(Desk(bound.getsockname()).ask(Message(1, "{}")))


class Drops(unittest.TestCase):
    def test_another_window_once_the_desk_knows(self):
        """A booking whose window is over is dropped; its uplink is answered anew after the desk's answer, not before."""
        with tempfile.TemporaryDirectory() as folder:
            journal, module = Journal(Path(folder) / "journal.db"), SecurityModule(Path(folder) / "security.db")
            forwarders = PacketForwarders(("127.0.0.1", 0))
            bridge = Bridge(journal, module, forwarders, Desk(("127.0.0.1", 0)), {}, 14)
            uplink, over = Uplink(1, "01a00000", join_request(0)), now_us() - 10_000_000
            heard = journal.add_message({"MessageType": "JoinHeard"})
            journal.add_reception(heard, Reception("a", 7, over, over, 868_100_000, 5, 0.0, uplink.phy_payload))
            journal.set_answer(heard, {})
            journal.set_uplink(heard, 1)
            journal.add_uplink(uplink, over)
            journal.set_open(1, False)
            journal.add_downlink(Downlink(9, 1, "a", 1, b"\x20" + bytes(16), None, 3, over + 5_000_000, "booked"))
            bridge.give_booked()
            (done,) = journal.unanswered(9)
            self.assertEqual((done.members["Booking"], done.members["Sent"]), (3, False))
            self.assertEqual(journal.uplinks_to_answer(now_us()), [])
            bridge.take_answers([(done, {"Result": {"ResultCode": "Success", "Description": ""}})])
            self.assertEqual(journal.uplinks_to_answer(now_us()), [uplink])
            for each in (journal.store, module, forwarders.socket):
                each.close()


class Journals(unittest.TestCase):
    def test_numbers_and_answers(self):
        with tempfile.TemporaryDirectory() as folder:
            path = Path(folder) / "journal.db"
            journal = Journal(path)
            with journal.transaction():
                first, second = journal.add_message({"MessageType": "DownDone"}), journal.add_message({"MessageType": "DownDone"})
            journal.set_answer(first, {"Result": {}})
            journal.store.close()
            # after a crash: the same text under the same number, and new numbers above it
            journal = Journal(path)
            self.assertEqual(journal.unanswered(9), [second])
            with self.assertRaises(RuntimeError), journal.transaction():
                journal.add_message({"MessageType": "DownDone"})
                raise RuntimeError
            self.assertEqual(journal.add_message({"MessageType": "DownBook"}).transaction_id, 3)
            journal.store.close()


if __name__ == "__main__":
    unittest.main()
