"""Real traffic as events of a scenario: the records of a capture (pcap or pcapng, read by scapy) or of a CSV file with named columns."""
import csv
import importlib
import ipaddress
import json
import logging
import re
import struct
import warnings
from collections import Counter
from dataclasses import dataclass, field
from decimal import Decimal, InvalidOperation
from typing import Any, Callable, Counter as Counts, Iterator, List, Optional, Tuple

from .errors import Error
from .files import MOST, FileEvent, Scene
from .labels import core_of, cut
from .streams import ANSWER, FILE, Source, read

# A scenario has at most so many ticks on all of its switches.
TICKS = 131072
PCAP = {b"\xd4\xc3\xb2\xa1": "<", b"\x4d\x3c\xb2\xa1": "<", b"\xa1\xb2\xc3\xd4": ">", b"\xa1\xb2\x3c\x4d": ">"}
# What a record has under a name: a number, a text, or None if it has no such field.
Record = Callable[[str], Any]


@dataclass
class Form:
    """How a record becomes an event: its name, its arguments, its switch, each a field or a number, and the microseconds of a tick."""

    name: str
    args: List[str]
    switch: str
    tick_us: int


@dataclass
class Read:
    """The events of a file: of how many records they are, whether these have ticks, and how many were left out for each reason."""

    events: List[FileEvent] = field(default_factory=list)
    records: int = 0
    has_ticks: bool = False
    left: Counts[str] = field(default_factory=Counter)


def form_of(event: str, switch: str, tick_us: int) -> Form:
    """Reads `NAME(FIELD, ..)`. Raises Error."""
    found = re.fullmatch(r"\s*([A-Za-z_]\w*)\s*\(([^()]*)\)\s*", event, re.ASCII)
    args = [it.strip() for it in found[2].split(",")] if found and found[2].strip() else []
    if not found or "" in args or len(args) > 8:
        raise Error(f"{cut(event)} is no event: write NAME(FIELD, ..) with at most 8 fields, as pkt(ip.src, udp.dport)")
    return Form(found[1], args, switch, tick_us)


def number_of(value: Any, where: str) -> Optional[int]:
    """The number of a value: of a text that is an address or digits, of bytes, and of what is a number. None if there is none."""
    if value is None or value == "" or isinstance(value, (list, tuple)):
        return None
    if isinstance(value, bytes):
        return int.from_bytes(value, "big")
    if not isinstance(value, str):
        try:
            return int(value)
        except (TypeError, ValueError):
            raise Error(f"{where} is no number") from None
    text = value.strip()
    if re.fullmatch("[0-9]{1,40}|0x[0-9a-fA-F]{1,32}", text):
        return int(text, 0) if text.startswith("0x") else int(text)
    if re.fullmatch("[0-9a-fA-F]{1,2}([:-][0-9a-fA-F]{1,2}){5}", text):
        return int.from_bytes(bytes(int(part, 16) for part in re.split("[:-]", text)), "big")
    try:
        return int(ipaddress.ip_address(text))
    except ValueError:
        raise Error(f"{where} is {cut(text)}: no number and no address") from None


def read_traffic(path: str, form: Form, widths: Optional[List[int]], switches: Optional[int]) -> Tuple[Read, int]:
    """Reads a file; returns its events and how many switches there are. Raises Error for a file that is cut off, and for a value that does not fit."""
    data = read(path, ANSWER)
    records = from_capture(path, data) if data[:4] in PCAP or data[:4] == b"\n\r\r\n" else from_csv(path, data, form)
    found, at = Read(), []
    for record in records:
        found.records += 1
        event, time = event_of(record, form, widths, f"record {found.records}", found)
        if event is not None:
            found.events.append(event)
            at.append(time)
    if not found.records:
        raise Error(f"{path}: it has no records")
    count = switches or max((it.switch for it in found.events), default=0) + 1
    found.events = list(placed(found, at, form, count))
    if not found.events:
        raise Error(f"{path}: no event comes of its {found.records} records: {reasons(found)}")
    return found, count


def event_of(record: Record, form: Form, widths: Optional[List[int]], where: str, found: Read) -> Tuple[Optional[FileEvent], Decimal]:
    """The event of a record, at tick 0, and its time in ticks; None if the record lacks a field."""
    values: List[int] = []
    for at, name in enumerate([*form.args, form.switch]):
        value = int(name) if re.fullmatch("[0-9]{1,20}", name) else number_of(record(name), f"{where}: {name}")
        if value is None:
            found.left[f"without {name}"] += 1
            return None, Decimal(0)
        width = (widths or [64] * 8)[at] if at < len(form.args) else 6
        if value >= 2**width:
            raise Error(f"{where}: {name} is {value}, which does not fit {width} bits")
        values.append(value)
    try:
        ticks = record("at")
        found.has_ticks = ticks is not None
        time = Decimal(str(ticks)) if found.has_ticks else Decimal(str(record("time"))) * 1000000 / form.tick_us
    except InvalidOperation:
        raise Error(f"{where} has no time: a number in `at`, in ticks, or in `time`, in seconds") from None
    if not time.is_finite() or abs(time) > MOST or found.has_ticks and (time < 0 or time != int(time)):
        raise Error(f"{where} has no time within the limits: {cut(str(time))}")
    return FileEvent(0, values[-1], form.name, tuple(values[:-1])), time


def placed(found: Read, at: List[Decimal], form: Form, switches: int) -> Iterator[FileEvent]:
    """The events at their ticks, the first at 0 if times are seconds; those that a scenario can not hold are left out."""
    first, last, size = Decimal(0) if found.has_ticks else min(at, default=Decimal(0)), TICKS // switches, 0
    for event, time in zip(found.events, at):
        tick = int((time - first).to_integral_value("ROUND_FLOOR"))
        size += len(json.dumps({**event.__dict__, "at": tick})) + 2
        if event.switch >= switches:
            found.left[f"for a switch beyond {switches - 1}"] += 1
        elif tick >= last:
            found.left[f"at tick {last} or later"] += 1
        elif size > FILE - 2**20:
            found.left[f"beyond {FILE} bytes"] += 1
        else:
            yield FileEvent(tick, event.switch, event.name, event.args)


def reasons(found: Read) -> str:
    """Says how many records were left out, and why."""
    return ", ".join(f"{count} {why}" for why, count in found.left.items()) or "none was left out"


def scene_of(found: Read, switches: int, base: Optional[Scene], stop: Optional[int]) -> Scene:
    """Returns the scenario, with the links of another one if it is given. It runs for 1,000 ticks after its last event, as far as it may."""
    usual = min(max(it.at for it in found.events) + 1000, TICKS // switches)
    made = Scene(switches, usual if stop is None else stop, events=found.events)
    if base is not None:
        made.links, made.down = base.links, base.down
    return made


def widths_of(program: Source, form: Form) -> List[int]:
    """The widths of the parameters of an event. Raises Error if the program has no such event."""
    core = core_of(program)
    number = core.event_named(form.name)
    if number is None or len(core.events[number].params) != len(form.args):
        raise Error(f"{program.name}: it has no event {form.name} with {len(form.args)} parameters")
    return core.events[number].params


# Files ----------------------------------------------------------------------------------------------------------------------------------


def from_csv(path: str, data: bytes, form: Form) -> Iterator[Record]:
    """The rows of a CSV file, by the names in its first line."""
    try:
        rows = csv.DictReader(data.decode("utf-8").splitlines(), strict=True)
        names = rows.fieldnames or []
        wanted = [name for name in [*form.args, form.switch] if not re.fullmatch("[0-9]{1,20}", name)]
        missing = [name for name in wanted if name not in names] + ([] if {"at", "time"} & set(names) else ["at or time"])
        if missing:
            raise Error(f"{path}: it has no column {missing[0]}; its columns are {cut(', '.join(names))}")
        for number, row in enumerate(rows, 1):
            if None in row or None in row.values():
                raise Error(f"{path}: record {number} has not as many values as the first line has names")
            yield row.get
    except UnicodeDecodeError:
        raise Error(f"{path}: it is neither a capture nor a text in UTF-8") from None
    except csv.Error as fault:
        raise Error(f"{path}: {fault}") from None


def check_whole(path: str, data: bytes) -> None:
    """Refuses a capture that ends within a record; scapy reads such a record as a shorter one."""
    order, at, number = PCAP.get(data[:4], ""), 24, 1
    is_next = not order
    if is_next:
        order, at, number = "<" if data[8:12] == b"\x4d\x3c\x2b\x1a" else ">", 0, 0
    while at < len(data):
        if is_next:
            kind, size = struct.unpack(f"{order}II", data[at:at + 8]) if at + 8 <= len(data) else (0, MOST)
            number += kind in (2, 3, 6)
            if size < 12 or size % 4:
                raise Error(f"{path}: the block behind record {number} has a length of {size}")
        else:
            size = 16 + struct.unpack(f"{order}I", data[at + 8:at + 12])[0] if at + 16 <= len(data) else MOST
        if at + size > len(data):
            raise Error(f"{path}: record {max(1, number)} is cut off")
        at += size
        number += not is_next
    if len(data) < 24:
        raise Error(f"{path}: its head is cut off")


def from_capture(path: str, data: bytes) -> Iterator[Record]:
    """The packets of a capture. A field is named LAYER.FIELD as scapy names both, in small letters (`eth` is `ether`); `len` is the length on the wire."""
    check_whole(path, data)
    logging.getLogger("scapy").setLevel(logging.CRITICAL)
    warnings.filterwarnings("ignore")
    try:
        utils: Any = importlib.import_module("scapy.utils")
        importlib.import_module("scapy.layers.all")
    except ImportError:
        raise Error("a capture needs scapy: install the Debian package python3-scapy") from None
    try:
        with utils.PcapReader(path) as packets:
            for packet in packets:
                yield reader_of(packet)
    except (OSError, ValueError, EOFError, struct.error) as fault:
        raise Error(f"{path}: scapy can not read it: {cut(str(fault))}") from None
    except Exception as fault:
        if type(fault).__name__ != "Scapy_Exception":
            raise
        raise Error(f"{path}: scapy can not read it: {cut(str(fault))}") from None


def reader_of(packet: Any) -> Record:
    """Returns what reads the fields of a packet."""
    layers = {layer.__name__.lower(): layer for layer in packet.layers()[::-1]}

    def value(name: str) -> Any:
        if name in ("len", "time"):
            return (packet.wirelen or len(packet)) if name == "len" else packet.time
        layer, _, rest = name.partition(".")
        found = layers.get({"eth": "ether", "vlan": "dot1q"}.get(layer, layer))
        return packet[found].getfieldval(rest) if found is not None and rest in {it.name for it in found.fields_desc} else None

    return value
