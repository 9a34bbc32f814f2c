"""Customers by a gateway: each is identified, a wrong frame is refused with a sentence, and others go on."""

from __future__ import annotations

import contextlib
import json
import resource
import signal
import socket
import ssl
import statistics
import subprocess
import sys
import threading
import time
import unittest
from collections.abc import Callable
from dataclasses import replace
from pathlib import Path
from typing import Any

from bpfhost import Host, MapType, frames
from bpfhost.shards import NotDone, SessionPassed, SetAside, Settings, ShardError, move, operating
from bpfhost.shards.gateway.customers import hash_of
from bpfhost.shards.gateway.limits import GatewayLimits, Rate
from bpfhost.shards.gateway.protocol import GATEWAY, Why, Word, ack, hello, said, told
from bpfhost.shards.remote import CustomerTls, GatewayCustomer, GatewayRefuses
from tests.common import PROGRAM
from tests.shards.blocking_redis import shard_of
from tests.shards.certificates import OPENSSL, authority, signed
from tests.shards.common import CREATE, LOOK_UP, ShardTest, counted, put, did
from tests.shards.gateways import UNCOUNTED, GatewayThread, Raw, customers_file
from tests.shards.streams import Stream
from tests.shards.worker_process import WorkerProcess

LIMITS = GatewayLimits(new=1e6)
DONE = bytes.fromhex("08000000 0000 0200 00000000")


class GatewayTest(ShardTest):
    def gateway(self, limits: GatewayLimits = LIMITS, text: str = "", tls: Any = None) -> GatewayThread:
        """A gateway for customer acme on a Unix socket, with a token; or for all customers by TLS."""
        file = customers_file(self.scratch, text, acme="token of acme", other="token of other")
        made = GatewayThread(self.server.url, file, limits, [("127.0.0.1:0", tls) if tls else (f"unix:{self.scratch}/g", None)])
        self.addCleanup(made.stop)
        return made

    def refused(self, gateway: GatewayThread, why: str) -> float:
        """How many connections were ended for a reason."""
        return counted(gateway.gateway.told, "bpfhost_gateway_refusals_total", why=why)

    def raw(self, gateway: GatewayThread, tls: ssl.SSLContext | None = None) -> Raw:
        """A connection to it."""
        made = Raw(gateway.addresses[0], tls)
        self.addCleanup(made.__exit__)
        return made

    def customer(self, *gateways: GatewayThread, session: str | None = None, name: str = "acme", seconds: float = 30) -> GatewayCustomer:
        """A customer that asks gateways."""
        made = GatewayCustomer([one.addresses[0] for one in gateways], f"token of {name}", session, seconds=seconds)
        self.addCleanup(made.close)
        return made


class Asking(GatewayTest):
    def test_what_customers_are_told(self) -> None:
        for shard in (0, 1):
            self.shard(shard, Settings(3, snapshot_entries=10))
        gateway = self.gateway()
        for number, name in enumerate(("acme", "other")):
            with Host(PROGRAM) as host:
                asked, wanted = Stream(PROGRAM, number).play(host, 600)
            customer = self.customer(gateway, name=name)
            self.assertEqual(list(customer.ask_bytes(asked[:300])), wanted[:300])
            move(self.client, name)
            posted = [customer.post(b"".join(asked[at : at + 20])) for at in range(300, 600, 20)]
            self.assertEqual([reply for one in posted for reply in customer.wait(one)], wanted[300:])
        self.assertEqual(sorted(self.client.directory.customers()), ["acme", "other"])

    def test_a_tenant(self) -> None:
        self.shard(0)
        counts = self.customer(self.gateway()).tenant().map_create(MapType.HASH, 4, 8, 16)
        counts[b"key1"] = (7).to_bytes(8, "little")
        self.assertEqual(dict(counts.items()), {b"key1": (7).to_bytes(8, "little")})

    def test_without_a_session(self) -> None:
        """Only frames and replies, as `bpfhost serve` has them, after the first frame, which names the customer."""
        self.shard(0)
        with Host(PROGRAM) as host:
            asked, wanted = Stream(PROGRAM, 5).play(host, 1500)
        raw = self.raw(self.gateway())
        self.assertEqual(raw.greet("token of acme"), {"customer": "acme", "taken": 0})

        def send() -> None:
            raw.say(b"".join(asked))
            raw.ends()

        sending = threading.Thread(target=send)
        sending.start()
        self.assertEqual(raw.rest(), wanted)
        sending.join()

    def test_a_call_that_an_operator_skips(self) -> None:
        redis, keys = self.empty_shard(0)
        gateway = self.gateway(replace(LIMITS, seconds=1))
        customer = self.customer(gateway, session="one")
        posted = customer.post(put(1) * 3)
        self.until(lambda: redis.xlen(keys.frames(0)) == 1)
        entry = redis.xrange(keys.frames(0), b"0-1", b"+", 1)[0][0]
        redis.hset(keys.aside, 0, json.dumps({"kind": "entry", "entry": entry.decode(), "why": "it ended the host"}))
        with self.assertRaisesRegex(SetAside, "customer acme is set aside until an operator has looked: it ended the host"):
            customer.wait(posted)
        self.shard(0)
        did(self.client, operating.say, "acme", "skip", 20)
        with self.assertRaisesRegex(NotDone, "was skipped by an operator"):
            customer.wait(posted)
        self.assertEqual(customer.ask(CREATE).status, 3)


class Refused(GatewayTest):
    def end_of(self, raw: Raw) -> tuple[Why | None, str]:
        """Why a connection is ended."""
        last = raw.rest()[-1]
        self.assertEqual(last[4:8], GATEWAY.to_bytes(2, "little") + Word.END.to_bytes(2, "little"))
        why = Why(-int.from_bytes(last[8:12], "little", signed=True))
        return why, json.loads(last[12:])["why"]

    def test_who_it_is(self) -> None:
        gateway = self.gateway()
        first = "a connection begins with a frame that says who the customer is"
        for bytes_, why, sentence in (
            (CREATE, Why.WRONG, first),
            (frames.frame(GATEWAY, Word.ACK, bytes(8)), Why.WRONG, first),
            (b"\xff\xff\xff\xff", Why.WRONG, "a connection begins with a frame of at most 4096 bytes that says who the customer is"),
            (b"\1\0\0\0", Why.WRONG, "a connection begins with a frame of at most 4096 bytes that says who the customer is"),
            (said(Word.HELLO, b"{"), Why.WRONG, "what says who the customer is has no JSON object"),
            (said(Word.HELLO, b"[" * 4000), Why.WRONG, "what says who the customer is has no JSON object"),
            (said(Word.HELLO, b"[]"), Why.WRONG, "what says who the customer is has no JSON object"),
            (said(Word.HELLO, b'{"token": 1}'), Why.WRONG, "a token and a session are texts, and not empty"),
            (said(Word.HELLO, b'{"token": "x", "session": ""}'), Why.WRONG, "a token and a session are texts, and not empty"),
            (said(Word.HELLO, b'{"token": "x", "answered": -1}'), Why.WRONG, "the number of replies is a whole number"),
            (said(Word.HELLO, b'{"token": "\\ud800"}'), Why.WRONG, "a token and a session are texts of whole Unicode characters"),
            (said(Word.HELLO, b'{"token": "x", "session": "\\udfff"}'), Why.WRONG, "a token and a session are texts of whole Unicode characters"),
            (hello("wrong"), Why.WHO, "no customer has this token"),
            (hello("x" * 2000), Why.WHO, "no customer has this token"),
            (hello(), Why.WHO, "a customer says a token, or has a certificate"),
        ):
            with self.subTest(sentence, bytes_=bytes_[:40]):
                self.assertEqual(self.end_of(self.raw(gateway).say(bytes_)), (why, sentence))
        self.assertEqual(self.client.directory.customers(), {})
        with self.assertRaisesRegex(GatewayRefuses, "no customer has this token"):
            GatewayCustomer(gateway.addresses, "wrong").ask(CREATE)

    def test_what_comes(self) -> None:
        self.shard(0)
        gateway = self.gateway(replace(LIMITS, seconds_silent=0.5, seconds_for_a_frame=0.5, seconds_idle=0.7))
        ends: tuple[tuple[bytes, bool, Why, str], ...] = (
            (frames.close(1, 3), False, Why.WRONG, "a frame names tenant 0, and not 1"),
            (b"\3\0\0\0\0\0\1\0", False, Why.WRONG, "a frame has a head of eight bytes"),
            (b"\xff\xff\xff\xff\0\0\1\0", False, Why.LENGTH, "a frame has at most 262144 bytes, and not 4294967299"),
            (b"\x01\0\4\0\0\0\1\0", False, Why.LENGTH, "a frame has at most 262144 bytes, and not 262149"),
            (hello("token of acme"), False, Why.WRONG, "the only frame for the gateway behind the first one says how many replies the customer has"),
            (said(Word.ACK, b""), False, Why.WRONG, "the only frame for the gateway behind the first one says how many replies the customer has"),
            (CREATE[:-1], True, Why.WRONG, "the frames end within a frame"),
            (CREATE[:7], False, Why.SLOW, "a frame that has begun is not whole after 0.5 s"),
            (CREATE[:-1], False, Why.SLOW, "a frame that has begun is not whole after 0.5 s"),
            (b"", False, Why.SLOW, "no frame came for 0.7 s"),
        )
        for bytes_, ends_there, why, sentence in ends:
            with self.subTest(sentence):
                raw = self.raw(gateway)
                raw.greet("token of acme")
                # The frames before it are done, and have replies.
                raw.say(CREATE + bytes_)
                if ends_there:
                    raw.ends()
                self.assertEqual(raw.frame()[4:8], bytes.fromhex("0000 0000"))
                self.assertEqual(self.end_of(raw), (why, sentence))
                # Until it is closed, it is one of those that the customer may have.
                raw.__exit__()
                self.until(lambda: not gateway.gateway.connections)
        raw = self.raw(gateway)
        self.assertEqual(self.end_of(raw), (Why.SLOW, "nobody said within 0.5 s which customer this is"))

    def test_too_many(self) -> None:
        gateway = self.gateway(replace(LIMITS, connections=5), text='[customers.two]\ntoken-sha256 = "%s"\nconnections = 2\n' % ("0" * 64))
        acme = [self.raw(gateway) for _ in range(5)]
        for one in acme:
            one.greet("token of acme")
        for name in ("acme", "other"):
            told = self.end_of(self.raw(gateway).say(hello(f"token of {name}")))
            self.assertEqual(told, (Why.AGAIN, "the gateway has 5 connections, and takes no more"))
        acme[0].__exit__()
        self.until(lambda: len(gateway.gateway.connections) == 4)
        self.raw(gateway).greet("token of other")

    def test_too_many_of_one(self) -> None:
        text = f'[customers.two]\ncertificate = "two"\ntoken-sha256 = "{"0" * 64}"\n'
        gateway = self.gateway(text=text)
        kept = [self.raw(gateway) for _ in range(8)]
        for one in kept:
            one.greet("token of acme")
        told = self.end_of(self.raw(gateway).say(hello("token of acme")))
        self.assertEqual(told, (Why.AGAIN, "customer acme has 8 connections, and may have no more"))
        self.raw(gateway).greet("token of other")

    def test_too_fast(self) -> None:
        self.shard(0)
        limited = "".join(f'[customers.{name}]\ntoken-sha256 = "{hash_of(name)}"\n{limit}\n' for name, limit in (("a", "frames = 100"), ("b", "bytes = 1600")))
        gateway = self.gateway(text=limited)
        for name in ("a", "b"):
            raw = self.raw(gateway)
            raw.greet(name)
            began = time.monotonic()
            raw.say(CREATE + LOOK_UP * 249)
            self.assertEqual(raw.frame()[8:], bytes([3, 0, 0, 0]))
            for _ in range(249):
                raw.frame()
            self.assertGreater(time.monotonic() - began, 1.4)

    def test_who_does_not_read(self) -> None:
        """Its connection ends, and the gateway holds no more of it than its calls and their replies."""
        self.shard(0)
        gateway = self.gateway(replace(LIMITS, seconds_to_read=0.5))
        customer = self.customer(gateway)
        customer.ask(frames.map_create(0, 1, 4, 4096, 4))
        customer.ask(frames.map_update_elem(0, 3, bytes(4), bytes(4096)))
        raw = self.raw(gateway)
        raw.greet("token of acme")
        asks = frames.map_lookup_elem(0, 3, bytes(4)) * 4000
        sending = threading.Thread(target=lambda: _ignoring(lambda: raw.say(asks)), daemon=True)
        sending.start()
        self.until(lambda: not gateway.gateway.connections or len(gateway.gateway.connections) == 1)
        self.assertEqual(customer.ask(LOOK_UP).status, -2)
        sending.join(20)

    def test_a_file_of_customers(self) -> None:
        gateway = self.gateway()
        good = 'token-sha256 = "%s"\n' % ("1" * 64)
        for text, sentence in (
            ("[", "the file of customers: "),
            ("[gateway]\n", "has tables .customers.NAME., and not gateway"),
            ('[customers."a b"]\n' + good, "a customer's name has 1 to 255 printable characters without spaces, and is not 'a b'"),
            ("[customers.x]\n", "customer x has neither token-sha256 nor certificate"),
            ("[customers]\nx = 1\n", "customer x is no table"),
            ('[customers.x]\ntoken-sha256 = "1"\n', "token-sha256 of customer x is 64 digits of 0 to f"),
            (f"[customers.x]\n{good}[customers.y]\n{good}", "customers x and y have the same token or certificate"),
            ('[customers.x]\ncertificate = ""\n', "certificate of customer x is a name"),
            (f"[customers.x]\n{good}frames = 0\n", "frames of customer x is a number above 0, and not 0"),
            (f"[customers.x]\n{good}connections = 1.5\n", "connections of customer x is a number above 0, and not 1.5"),
            (f"[customers.x]\n{good}sped = 1\n", "customer x has sped, which is not known"),
        ):
            (self.scratch / "customers.toml").write_text(text)
            gateway.call(gateway.gateway.reload)
            self.assertRegex(gateway.told[-1], f"the gateway's customers stay as they were: .*{sentence}")
        customers_file(self.scratch, other="new")
        gateway.call(gateway.gateway.reload)
        self.assertEqual(gateway.told[-1], "the gateway knows 1 customers")
        self.raw(gateway).greet("new")
        self.assertEqual(self.end_of(self.raw(gateway).say(hello("token of acme")))[0], Why.WHO)


def _ignoring(call: Callable[[], object]) -> None:
    with contextlib.suppress(OSError):
        call()


class Sessions(GatewayTest):
    def test_replies_that_did_not_come(self) -> None:
        """A session continues with another gateway: missing replies come, and nothing is done twice."""
        self.shard(0)
        gateways = [self.gateway(), self.gateway_at("h")]
        first = self.raw(gateways[0])
        self.assertEqual(first.greet("token of acme", "one"), {"customer": "acme", "taken": 0})
        first.say(CREATE + put(1) + put(2))
        replies = [first.frame() for _ in range(3)]
        # Without an acknowledgement of the replies, the next call is not taken.
        first.say(put(3))
        second = self.raw(gateways[1])
        self.assertEqual(second.greet("token of acme", "one", 1), {"customer": "acme", "taken": 3})
        self.assertEqual([second.frame() for _ in range(2)], replies[1:])
        second.say(ack(3) + put(4) + LOOK_UP)
        self.assertEqual([second.frame()[:12], second.frame()[12:]], [DONE, (4).to_bytes(8, "little")])
        first.say(ack(3))
        self.assertEqual(first.told()[:2], (Word.END, Why.PASSED))
        third = self.raw(gateways[0])
        third.say(hello("token of acme", "one", 6))
        self.assertEqual(third.told()[2]["why"], "session one has 5 frames taken, and not 6 replies")
        fourth = self.raw(gateways[0])
        fourth.say(hello("token of acme", "one", 2))
        self.assertEqual(fourth.told()[2]["why"], "of session one the last 2 replies are known, and 3 are missing")

    def gateway_at(self, name: str) -> GatewayThread:
        """Another gateway."""
        made = GatewayThread(self.server.url, self.scratch / "customers.toml", LIMITS, [(f"unix:{self.scratch}/{name}", None)])
        self.addCleanup(made.stop)
        return made

    def test_gateways_that_end(self) -> None:
        self.shard(0)
        gateways = [self.gateway(), self.gateway_at("h")]
        with Host(PROGRAM) as host:
            asked, wanted = Stream(PROGRAM, 2).play(host, 1200)
        customer = self.customer(*gateways)
        replies: list[bytes] = []
        for at in range(0, 1200, 100):
            posted = [customer.post(frame) for frame in asked[at : at + 100]]
            if at == 300:
                gateways[0].stop()
                gateways.append(self.gateway_at("g"))
            elif at == 700:
                gateways[1].stop()
            elif at % 200 == 0:
                # As if the network were down.
                assert customer._socket
                customer._socket.shutdown(socket.SHUT_RDWR)
            replies += [reply for one in posted for reply in customer.wait(one)]
        self.assertEqual(replies, wanted)

    def test_a_process_that_goes_on(self) -> None:
        self.shard(0)
        gateway = self.gateway()
        first = self.customer(gateway, session="counts")
        first.ask(CREATE)
        posted = first.post(put(1) + put(2))
        self.assertEqual(first.wait(posted), [DONE, DONE])
        second = self.customer(gateway, session="counts")
        self.assertEqual((second.resume(2), second.missing()), (3, [DONE]))
        self.assertEqual(second.ask(LOOK_UP).payload, (2).to_bytes(8, "little"))
        with self.assertRaisesRegex(SessionPassed, "another connection goes on with session counts"):
            first.ask(LOOK_UP)

    def test_the_end_answers_what_is_on_its_way(self) -> None:
        self.empty_shard(0)
        gateway = self.gateway()
        raw = self.raw(gateway)
        raw.greet("token of acme")
        raw.say(CREATE)
        redis, keys = shard_of(self.client, 0)
        self.until(lambda: redis.xlen(keys.frames(0)) == 1)
        ending = threading.Thread(target=gateway.stop)
        ending.start()
        time.sleep(0.1)
        self.shard(0)
        self.assertEqual(raw.frame()[8:], bytes([3, 0, 0, 0]))
        self.assertEqual(raw.told(), (Word.END, Why.ENDS, {"why": "the gateway ends", "taken": 1}))
        ending.join()


@unittest.skipIf(OPENSSL is None, "openssl is missing")
class ByTls(GatewayTest):
    def test_tokens_and_certificates(self) -> None:
        from bpfhost.shards.gateway.server import Tls

        self.shard(0)
        own, clients = authority(self.scratch), authority(self.scratch, "clients")
        files = signed(self.scratch, "gateway", own, "IP:127.0.0.1")
        text = '[customers.third]\ncertificate = "third.example"\n'
        gateway = self.gateway(text=text, tls=Tls(*files, clients))
        good, unknown = signed(self.scratch, "third.example", clients), signed(self.scratch, "fourth.example", clients)
        forged = signed(self.scratch, "forged", own)
        with GatewayCustomer(gateway.addresses, "token of acme", tls=CustomerTls(own)) as customer:
            self.assertEqual(customer.ask(CREATE).status, 3)
        with GatewayCustomer(gateway.addresses, tls=CustomerTls(own, *good)) as customer:
            self.assertEqual(customer.ask(CREATE).status, 3)
            self.assertEqual(len(list(customer.ask_bytes([LOOK_UP] * 2000))), 2000)
        self.assertEqual(sorted(self.client.directory.customers()), ["acme", "third"])
        for tls, sentence in (
            (CustomerTls(own, *unknown), "no customer has this certificate"),
            (CustomerTls(own), "a customer says a token, or has a certificate"),
        ):
            with self.assertRaisesRegex(GatewayRefuses, sentence), GatewayCustomer(gateway.addresses, tls=tls) as customer:
                customer.ask(CREATE)
        for tls in (CustomerTls(own, *forged), CustomerTls(clients)):
            # Signed by another authority; or a gateway that the customer does not trust.
            with self.assertRaises(ShardError), GatewayCustomer(gateway.addresses, "token of acme", tls=tls, seconds=0.5) as customer:
                customer.ask(CREATE)
        # Clients without TLS, or that begin it and send nothing more.
        raw = self.raw(gateway)
        raw.say(hello("token of acme"))
        self.assertIn(raw._socket.recv(100)[:1], (b"", b"\x15"))
        for file in (self.scratch / "nothing", own):
            with self.assertRaisesRegex(ShardError, "a certificate or a key of the gateway can't be read"):
                Tls(file, file).context()


class Command(GatewayTest):
    def words(self, *words: str) -> list[str]:
        """The command with these arguments, and a file of customers."""
        return [sys.executable, "-m", "bpfhost.shards", *words]

    def test_a_gateway(self) -> None:
        self.shard(0)
        said = subprocess.run(self.words("token"), capture_output=True, text=True).stdout.splitlines()
        (self.scratch / "customers.toml").write_text(f"[customers.acme]\n{said[1]}\n")
        words = ["gateway", "--redis", self.server.url, "--customers", f"{self.scratch}/customers.toml", "--listen", f"unix:{self.scratch}/g"]
        with subprocess.Popen(self.words(*words), stderr=subprocess.PIPE, text=True) as gateway:
            assert gateway.stderr
            self.assertEqual(gateway.stderr.readline(), f"the gateway serves 1 customers at unix:{self.scratch}/g\n")
            with GatewayCustomer([f"unix:{self.scratch}/g"], said[0]) as customer:
                self.assertEqual(customer.ask(CREATE).status, 3)
                gateway.send_signal(signal.SIGHUP)
                self.assertEqual(gateway.stderr.readline(), "the gateway knows 1 customers\n")
                self.assertEqual(customer.ask(LOOK_UP).status, -2)
                gateway.send_signal(signal.SIGTERM)
                self.assertEqual((gateway.wait(20), gateway.stderr.read()), (0, ""))

    def test_memory_comes_back(self) -> None:
        """A token that takes over its own session again and again, and never reads: at the end the gateway has the memory of before."""
        self.shard(0)
        file, address = customers_file(self.scratch, acme="token of acme"), f"unix:{self.scratch}/g"
        gateway = WorkerProcess(["gateway", "--redis", self.server.url, "--customers", str(file), "--listen", address], self.scratch / "said")
        self.addCleanup(gateway.wait, 20)
        self.addCleanup(gateway.send, signal.SIGTERM)
        self.until(lambda: "the gateway serves" in gateway.said())
        with GatewayCustomer([address], "token of acme", "one") as customer:
            large = frames.map_create(0, MapType.HASH, 4, 4096, 1), frames.map_update_elem(0, 3, b"key1", bytes(4096))
            self.assertEqual([customer.ask(frame).status for frame in large], [3, 0])
            list(customer.ask_all([LOOK_UP] * 256))

        def memory() -> int:
            return int(Path(f"/proc/{gateway.pid}/statm").read_text().split()[1]) * resource.getpagesize()

        before, taken, most, opened = memory(), 258, 0, list[Raw]()
        for _ in range(132):
            made = Raw(address)
            self.addCleanup(made.__exit__)
            opened.append(made)
            word, _, said = made.say(hello("token of acme", "one", taken)).told()
            if word == Word.HELLO:
                taken = said["taken"]
                made.say(ack(taken) + LOOK_UP * 256)
            most = max(most, memory())
        self.assertGreater(taken, 5_000)
        self.assertLess(most - before, 64 << 20)
        for made in opened:
            made.__exit__()
        self.until(lambda: memory() - before < 10 << 20, "the memory does not come back")

    def test_one_sentence(self) -> None:
        file = customers_file(self.scratch, acme="token")
        cases: tuple[tuple[list[str], int, str], ...] = (
            (["--customers", f"{file}.x"], 1, "the file of customers: .Errno 2. No such file or directory"),
            (["--customers", str(file), "--listen", "0.0.0.0:0"], 1, "at 0.0.0.0:0 others could read tokens: TLS needs --certificate and --key"),
            (["--customers", str(file), "--listen", "nowhere"], 1, "at nowhere others could read tokens"),
            (["--customers", str(file), "--listen", "127.0.0.1:x"], 1, "the gateway can't listen at 127.0.0.1:x: an address is host:port, or unix: and a path"),
            (["--customers", str(file), "--listen", "unix:/nothing/g"], 1, "the gateway can't listen at unix:/nothing/g: No such file"),
            (["--customers", str(file), "--key", "x"], 1, "TLS needs both --certificate and --key"),
            ([], 2, "the following arguments are required: --customers"),
        )
        for words, status, sentence in cases:
            called = subprocess.run(self.words("gateway", "--redis", self.server.url, *words), capture_output=True, text=True)
            self.assertRegex(called.stderr, f"^bpfhost.shards: .*{sentence}|^(bpfhost.shards: )?{sentence}")
            self.assertEqual((called.returncode, called.stderr.count("\n")), (status, 1), called.stderr)


class Crowd(GatewayTest):
    def test_connections_that_say_nothing(self) -> None:
        """Many connections that send nothing, and many with wrong tokens, do not slow down a customer, and take little memory."""
        self.shard(0)
        gateway = self.gateway(replace(LIMITS, new=400.0, unknown=64))
        customer = self.customer(gateway)
        customer.ask(CREATE)

        def asks() -> list[float]:
            found = []
            for _ in range(60):
                began = time.monotonic()
                customer.ask(LOOK_UP)
                found.append(time.monotonic() - began)
            return found

        alone, before = asks(), resource.getrusage(resource.RUSAGE_SELF).ru_maxrss
        ended, opened = threading.Event(), list[socket.socket]()

        def crowd() -> None:
            while not ended.is_set() and len(opened) < 900:
                made = socket.socket(socket.AF_UNIX)
                made.settimeout(5)
                with contextlib.suppress(OSError):
                    made.connect(gateway.addresses[0][5:])
                    if len(opened) % 2:
                        made.sendall(hello("wrong"))
                opened.append(made)

        thread = threading.Thread(target=crowd)
        thread.start()
        beside = asks()
        self.until(lambda: bool(UNCOUNTED) or counted(gateway.gateway.told, "bpfhost_gateway_new_connections_total") > 300)
        ended.set()
        thread.join()
        for one in opened:
            one.close()
        self.assertLessEqual(len(gateway.gateway._unknown), 65)
        if not UNCOUNTED:
            self.assertGreater(self.refused(gateway, "who"), 50)
            self.assertGreater(self.refused(gateway, "again"), 50)
        # With many connections a customer waits longer by a turn of the loop, and not in proportion to their number.
        self.assertLess(statistics.median(beside), 5 * statistics.median(alone) + 0.05)
        self.assertLess(resource.getrusage(resource.RUSAGE_SELF).ru_maxrss - before, 64 * 1024)


class Rates(unittest.TestCase):
    def test_so_many_a_second(self) -> None:
        rate = Rate(100, 0.0)
        self.assertEqual([rate.take(100, 0.0), rate.take(50, 0.0), rate.take(50, 1.0)], [0.0, 0.5, 0.0])
        # More than those of a second come when a second is free, and take as many.
        self.assertEqual([rate.take(1000, 2.0), rate.take(1, 2.0)], [0.0, 9.01])

    def test_another_rate(self) -> None:
        """What was taken by the old rate is taken by the new one too."""
        rate = Rate(100, 0.0)
        rate.take(100, 0.0)
        rate.change(10, 0.0)
        self.assertEqual([rate.take(10, 0.5), rate.take(10, 1.0)], [0.5, 1.0])
