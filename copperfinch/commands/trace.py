"""Writes a scenario whose events are the records of a capture (pcap or pcapng, by scapy), or of a CSV file whose first line names its columns.

--event says how a record becomes an event: a name, and for each argument a field or a number. Fields of a capture are LAYER.FIELD in small letters
as scapy names them, as ip.src, udp.dport, ether.type, and `len`; those of a CSV file are its columns. --switch is a number or a field. A tick has
--tick-us microseconds, 1 if it is not given; the first record is at tick 0. A CSV file has the column `time` in seconds, or `at` with its tick.

Records without a field, or beyond what a scenario holds, are left out; a line on standard error says how many, and why. A value that does not fit
its parameter is an error; --program names the program, and without it a parameter has 64 bits. --into takes switches and links of a scenario.
"""
import argparse

from ..command import Once, number
from ..files import read_scene
from ..streams import Source, complain, read, write
from ..traffic import TICKS, form_of, read_traffic, reasons, scene_of, widths_of

USAGE = "%(prog)s FILE --event EVENT --switch SWITCH [--tick-us MICROSECONDS] [--stop TICK] [--program PROGRAM] [--into SCENARIO]"


def add_words(parser: argparse.ArgumentParser) -> None:
    """Adds the words."""
    parser.add_argument("file", metavar="FILE", help="the capture or the CSV file")
    parser.add_argument("--event", action=Once, required=True, metavar="EVENT", help="as 'pkt(ip.src, ip.dst, udp.dport)'")
    parser.add_argument("--switch", action=Once, required=True, metavar="SWITCH", help="a number, or a field")
    parser.add_argument("--tick-us", type=number(1, 10**12), default=1, metavar="MICROSECONDS", help="the length of a tick")
    parser.add_argument("--stop", type=number(0, TICKS), metavar="TICK", help="the tick at which the scenario stops")
    parser.add_argument("--program", action=Once, metavar="PROGRAM", help="the program that declares the event")
    parser.add_argument("--into", action=Once, metavar="SCENARIO", help="a scenario whose switches and links are taken")


def run(given: argparse.Namespace) -> int:
    """Writes the scenario."""
    form = form_of(given.event, given.switch, given.tick_us)
    widths = None if given.program is None else widths_of(Source.of(given.program), form)
    base = None if given.into is None else read_scene(read(given.into))
    found, switches = read_traffic(given.file, form, widths, None if base is None else base.switches)
    write(scene_of(found, switches, base, given.stop).text() + "\n")
    complain(f"trace: {found.records} records, {len(found.events)} events; left out: {reasons(found) if found.left else 'none'}")
    return 0
