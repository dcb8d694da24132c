"""`tools/trace`: scenarios of captures that scapy wrote and of CSV files, against the packets that were written; back by `json log --csv`.

Seen to fail: ticks that are rounded up, a first record that is not at tick 0, an address with its bytes reversed, a record without a field that
is kept, a width that is one too large, a capture that is cut within a record, a row that is too short, an event beyond the last tick.
"""
from __future__ import annotations

import json
import random
import struct
from typing import Any, Dict, List, Tuple

from harness import Ended, Group, Word
from samples import example
from scapy.layers.inet import ICMP, IP, TCP, UDP
from scapy.layers.inet6 import IPv6
from scapy.layers.l2 import ARP, Dot1Q, Ether
from scapy.utils import PcapNgWriter, wrpcap

EVENT = "pkt(ip.src, ether.dst, udp.dport, len, 7)"
PROGRAM = "event pkt(int src, int<<48>> to, int<<16>> port, int size, int<<3>> kind);"


def trace(group: Group, *words: Word) -> Ended:
    return group.tool("trace", *words)


def packets() -> List[Tuple[int, Any, List[int]]]:
    """Packets with their microseconds, and the arguments that they give; none for one without UDP."""
    draw, found, now = random.Random(88), [], 1_700_000_000_000_000
    for number in range(60):
        now += draw.randrange(40)
        a, mac, port = draw.randrange(2**32), draw.randrange(2**48), draw.randrange(2**16)
        head = Ether(dst=":".join(f"{byte:02x}" for byte in mac.to_bytes(6, "big")))
        if number % 4 == 1:
            head = head / Dot1Q(vlan=number)
        ip = IP(src=".".join(map(str, a.to_bytes(4, "big"))), dst="10.0.0.1")
        other = [head / ARP(), head / ip / TCP(), head / IPv6() / UDP(), head / ip / ICMP()]
        packet = other[number % 4] if number % 5 == 2 else head / ip / UDP(dport=port) / (b"x" * (number % 9))
        found.append((now, packet, [] if number % 5 == 2 else [a, mac, port, len(packet), 7]))
        packet.time = 0
    return found


def written(group: Group) -> Tuple[Word, Word]:
    """The packets as a pcap and as a pcapng file."""
    names = str(group.room / "a.pcap"), str(group.room / "a.pcapng")
    made = []
    for at, packet, _ in packets():
        packet.time = at / 1e6
        made.append(packet)
    wrpcap(names[0], made)
    # The times of the files are those above to the microsecond: scapy's own are floats.
    data = bytearray((group.room / "a.pcap").read_bytes())
    place = 24
    for at, _, _ in packets():
        struct.pack_into("<II", data, place, at // 10**6, at % 10**6)
        place += 16 + struct.unpack_from("<I", data, place + 8)[0]
    (group.room / "a.pcap").write_bytes(bytes(data))
    with PcapNgWriter(names[1]) as writer:
        for packet in made:
            writer.write(packet)
    return group.room / "a.pcap", group.room / "a.pcapng"


def expected(tick_us: int) -> List[Dict[str, Any]]:
    """The events of the packets: those with all fields."""
    first = next(at for at, _, args in packets() if args)
    return [{"at": (at - first) // tick_us, "switch": 2, "name": "pkt", "args": args} for at, _, args in packets() if args]


def test_captures(group: Group) -> None:
    """Each packet with all fields becomes an event, and the program accepts the scenario."""
    pcap, other = written(group)
    program = group.file("p.luc", PROGRAM)
    lost = sum(not args for _, _, args in packets())
    for tick_us in (1, 7):
        made = trace(group, pcap, "--event", EVENT, "--switch", "2", "--tick-us", str(tick_us), "--program", program)
        scene = json.loads(made.out or b"{}")
        group.check(f"events of a capture, {tick_us} us a tick", scene.get("events") == expected(tick_us), made)
        said = f"trace: 60 records, {60 - lost} events; left out: "
        group.check("it says what it left out", made.err.decode().startswith(said) and " without ip.src" in made.err.decode() and " without udp.dport" in made.err.decode(), made.err)
        ended = group.call("run", "whole", program, group.file("l.json", '{"stages":4}'), group.file("t.json", made.out))
        group.check("the program runs it", ended.status == 0 and f"entered {60 - lost}".encode() in ended.out, ended)
    same = trace(group, other, "--event", EVENT, "--switch", "2")
    group.check("pcapng is as pcap", [it["args"] for it in json.loads(same.out)["events"]] == [it["args"] for it in expected(1)], same)
    base = group.file("base.json", json.dumps({"version": 2, "switches": 3, "stop": 9, "links": [[0, 2, 5]], "down": [[0, 2, 1, 4]]}))
    into = json.loads(trace(group, pcap, "--event", EVENT, "--switch", "2", "--into", base, "--stop", "500").out)
    group.check("links of another scenario", (into["switches"], into["stop"], into["links"], into["down"]) == (3, 500, [[0, 2, 5]], [[0, 2, 1, 4]]), into["links"])


def test_tables(group: Group) -> None:
    """CSV files: columns by name, addresses, ticks or seconds; and the log of a run as a CSV file, back as events."""
    table = "time,from,mac,port,s\n0.5,10.0.0.1,00:00:00:00:01:02,53,1\n0.500012,0x10,5,,0\n0.500049,255.255.255.255,ff:ff:ff:ff:ff:ff,65535,0\n"
    made = trace(group, group.file("a.csv", table), "--event", "pkt(from, mac, port)", "--switch", "s", "--tick-us", "10")
    wanted = [{"at": 0, "switch": 1, "name": "pkt", "args": [0x0a000001, 0x102, 53]}, {"at": 4, "switch": 0, "name": "pkt", "args": [2**32 - 1, 2**48 - 1, 65535]}]
    group.check("a table in seconds", json.loads(made.out or b"{}").get("events") == wanted and b"3 records, 2 events; left out: 1 without port" in made.err, made)
    files = example("nat")
    log = group.call("run", "whole", *files).out
    back = group.tool("json", "log", "--csv", given=log)
    lines = [line for line in back.out.decode().splitlines(True) if line.startswith(("kind,", "event")) and (",out," in line or "kind," in line)]
    again = trace(group, group.file("log.csv", "".join(lines)), "--event", "out(arg0, arg1)", "--switch", "switch", "--program", files[0], "--into", files[2])
    outs = [json.loads(line) for line in group.tool("json", "log", given=log).out.splitlines()]
    outs = [it for it in outs if it["kind"] == "event" and it["name"] == "out"]
    wanted = [{"at": it["at"], "switch": it["switch"], "name": "out", "args": it["args"]} for it in outs]
    group.check("a log as a table, and back", json.loads(again.out or b"{}").get("events") == wanted and len(wanted) > 3, again)
    far = trace(group, group.file("far.csv", "at,n\n5,1\n131071,2\n131072,3\n500000,4\n"), "--event", "e(n)", "--switch", "0")
    group.check("ticks beyond the limit are left out", [it["at"] for it in json.loads(far.out)["events"]] == [5, 131071] and b"2 at tick 131072 or later" in far.err, far)
    big = "at,n\n" + "0,18446744073709551615\n" * 120_000
    much = trace(group, group.file("big.csv", big), "--event", "e(n,n,n)", "--switch", "0")
    group.check("a scenario has at most 8 MiB", len(much.out) < 8 * 2**20 and b" beyond 8388608 bytes" in much.err and much.status == 0, much.err)


def test_bad_input(group: Group) -> None:
    """One line each, and no scenario."""
    pcap, other = written(group)
    data, more = pcap.read_bytes(), other.read_bytes()
    program = group.file("p.luc", PROGRAM)
    usual = ["--event", "e(n)", "--switch", "0"]
    frame = ["--event", EVENT, "--switch", "0"]
    for title, text, words, why in (
        ("a capture that ends in a record", data[:-3], frame, "record 60 is cut off"), ("in the head of one", data[:30], frame, "record 1 is cut off"),
        ("in its own head", data[:9], frame, "its head is cut off"), ("a pcapng that ends in a block", more[:-5], frame, "record 60 is cut off"),
        ("a block of length 0", more[:-4 * 30] + b"\6\0\0\0\0\0\0\0" * 15, frame, "record"), ("neither", b"\xff\xfe\0\1", frame, "neither a capture nor a text"),
        ("no records", b"at,n\n", usual, "it has no records"), ("no column", b"at,m\n0,1\n", usual, "it has no column n; its columns are at, m"),
        ("no time", b"n\n1\n", usual, "it has no column at or time"), ("a time of letters", b"at,n\nx,1\n", usual, "record 1 has no time"),
        ("a time without end", b"at,n\n1e999,1\n", usual, "record 1 has no time"), ("a tick below 0", b"at,n\n-1,1\n", usual, "record 1 has no time"), ("half a tick", b"at,n\n0.5,1\n", usual, "record 1 has no time"), ("a short row", b"at,n\n0,1\n0\n", usual, "record 2 has not as many values"),
        ("a long row", b"at,n\n0,1,2\n", usual, "record 1 has not as many values"), ("an open quote", b'at,n\n0,"1', usual, "unexpected end of data"),
        ("no number", b"at,n\n0,1\n0,<b>\n", usual, "record 2: n is <b>: no number and no address"), ("a value of 65 bits", b"at,n\n0,18446744073709551616\n", usual, "record 1: n is 18446744073709551616, which does not fit 64 bits"),
        ("a switch 64", b"at,n\n0,64\n", ["--event", "e()", "--switch", "n"], "which does not fit 6 bits"), ("an event of no form", b"at,n\n", ["--event", "e(n", "--switch", "0"], "e(n is no event"),
        ("a value that its parameter can not hold", data, [*frame[:1], "pkt(ip.src, ether.dst, udp.dport, len, 8)", *frame[2:], "--program", program], "record 1: 8 is 8, which does not fit 3 bits"),
        ("an event that is not declared", b"at,n\n0,1\n", [*usual, "--program", program], "it has no event e with 1 parameters"),
        ("nothing with these fields", data, ["--event", "e(tcp.nothing)", "--switch", "0"], "no event comes of its 60 records: 60 without tcp.nothing"),
    ):
        made = trace(group, group.file("bad", text), *words)
        group.check(f"{title} is one line", made.status == 1 and not made.out and made.err.count(b"\n") == 1 and why.encode() in made.err, made)
    usage = trace(group, group.file("bad", b""), "--event", "e()")
    group.check("without a switch it prints its usage", usage.status == 2 and usage.err.startswith(b"usage: tools/trace"), usage)
