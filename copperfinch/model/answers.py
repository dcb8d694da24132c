"""The answer of a call: its words, then its files in word order, and what is asked of each (docs/ERRORS.md)."""
from dataclasses import dataclass, field
from typing import Any, Callable, Dict, List, Optional, Sequence, Tuple, Union

from . import gen
from .audit import audit
from .core import Core
from .declarations import elaborate
from .drive import drive
from .expand import Expanded, expand
from .interpret import block_text, cells_text, empty_cells, run_whole
from .json_files import read_limits, read_scene
from .layout import Layout
from .lexer import Token, lex
from .network import Network
from .nodes import Code
from .order import check_order
from .parser import parse
from .passes import PASSES, Passes, compose
from .refusals import Fault, Refused
from .values import fnv

Word = Union[str, bytes]
ReadFile = Callable[[bytes], bytes]
MOST_BYTES = {'program': 1048576, 'limits': 1048576, 'scenario': 8388608, 'placement': 8388608}
MOST_EVENTS = 10000
# README, Usage: the files that follow each command, and how many numbers follow them; `once` has an event and its arguments.
NETWORK = ['program', 'limits', 'scenario']
FORMS: Dict[str, Tuple[List[str], Optional[int]]] = {'check': (['program'], 0), 'once': (['program'], None), 'expand': (['program'], 0), 'layout': (['program', 'limits'], 0),
         'run whole': (NETWORK, 0), 'run pipe': (NETWORK, 0), 'run placed': (NETWORK + ['placement'], 0), 'drive': (NETWORK, 0),
         'snap': (NETWORK, 1), 'audit': (['program', 'limits', 'placement'], 0), 'gen program': ([], 2), 'gen limits': ([], 2),
         'gen scene': ([], 2), 'bench': ([], 2)}


def usage(problem: str) -> Refused:
    """1 usage: returns the refusal of words that are no form."""
    return Refused(1, 'usage', Fault('usage', None, problem), 'words')


def number_of(word: str) -> int:
    """1 usage: a number is decimal and below 2^64, without a leading zero."""
    plain = word.isascii() and word.isdigit() and (word == '0' or word[0] != '0') and len(word) <= 20
    if not plain or int(word) >= 2 ** 64:
        raise usage(f'{word!r} is no number below 2^64 in decimal without a leading zero')
    return int(word)


@dataclass
class Call:
    """The words of a call: its command, the files that it names, the event of `once`, and its numbers."""
    command: str
    files: Dict[str, str]
    event: str
    numbers: List[int]


def call_of(raw: Sequence[bytes]) -> Call:
    """1 usage: the words must be one of the forms of README."""
    try:
        b' '.join(raw).decode('utf-8')
    except UnicodeDecodeError:
        raise usage('a word is no UTF-8') from None
    words = [word.decode('latin-1') for word in raw]
    count = next((k for k in (2, 1) if ' '.join(words[:k]) in FORMS and len(words) >= k), 0)
    kinds, numbers = FORMS.get(' '.join(words[:count]), ([], 0))
    named, rest = words[count:count + len(kinds)], words[count + len(kinds):]
    if count == 0 or len(named) < len(kinds) or (len(rest) != numbers if numbers is not None else not rest):
        raise usage('these words are no form of a call')
    first = 1 if numbers is None else 0
    call = Call(' '.join(words[:count]), dict(zip(kinds, named)), ''.join(rest[:first]), [number_of(word) for word in rest[first:]])
    if not kinds and not 1 <= call.numbers[1] <= MOST_EVENTS:
        raise usage('N is 1 to 10,000')
    return call


def read_files(call: Call, read: ReadFile) -> Dict[str, bytes]:
    """2 read fault, 3 too long: reads all files in word order, each whole, before any is judged."""
    found: Dict[str, bytes] = {}
    for kind, name in call.files.items():
        try:
            found[kind] = read(name.encode('latin-1'))
        except OSError:
            raise Refused(2, f'read fault: {name}', Fault('read fault', None, name), 'words') from None
        if len(found[kind]) > MOST_BYTES[kind]:
            raise Refused(3, f'too long: {name}', Fault('long file', None, name), 'words')
    return found


@dataclass
class Program:
    """A program that is accepted, or so much of it as was read before it was refused."""
    text: str
    tokens: List[Token] = field(default_factory=list)
    expanded: Optional[Expanded] = None
    core: Optional[Core] = None
    code: Optional[Code] = None

    def expand(self) -> str:
        """Expands the text."""
        self.tokens = lex(self.text)
        self.expanded = expand(self.text, self.tokens)
        return self.expanded.text

    def check(self) -> Core:
        """Expands, reads, types and orders the program."""
        source = self.expand()
        core = elaborate(parse(source, self.tokens if source == self.text else lex(source)))
        check_order(core)
        self.core = core
        return core


@dataclass
class Answer:
    """An answer: the exit code, both streams, and what it was made from."""
    status: int = 0
    out: bytes = b''
    err: bytes = b''
    refused: Optional[Refused] = None
    call: Any = None  # a Call; None of words that are none
    files: Dict[str, bytes] = field(default_factory=dict)
    program: Any = None  # a Program; None of a call without one, or of a file that cannot be read


def once(core: Core, name: str, args: List[int]) -> str:
    """README, Usage: runs one event whole, from empty cells, at tick 0 on switch 0."""
    event = core.event_named(name)
    if event is None or not core.fits(event, args):
        raise usage(f'the program has no event {name!r} with these arguments')
    cells = empty_cells(core)
    outs = run_whole(core, cells, 0, 0, event, args)
    return block_text(core, 0, 0, event, args, [(out, False) for out in outs]) + cells_text(core, 0, cells)


def run_call(call: Call, files: Dict[str, bytes], program: Program, passes: Passes, runs: bool = True) -> str:
    """Does the work of a command that reads a program, and refuses what is wrong first in the order of docs/ERRORS.md.

    A network runs after all that can be refused; where `runs` is false, it does not, and there is no output.
    """
    command = call.command
    if command == 'expand':
        return program.expand()
    core = program.check()
    if command == 'check':
        return (f'ok arrays {len(core.arrays)} memops {core.memops} events {len(core.events)} handlers {len(core.handlers)} '
                f'functions {len(core.funs)}\n')
    if command == 'once':
        return once(core, call.event, call.numbers)
    limits = read_limits(files['limits'])
    if command == 'run whole':
        network = Network(core, limits, read_scene(files['scenario'], core), None)
        return network.run() if runs else ''
    program.code = compose(core, passes)
    placed = Layout(program.code, limits)
    placed.check_code()
    if 'placement' not in files:  # for `audit` and `run placed` only the counts of a layout come before the scenario
        placed.fit()
    scene = read_scene(files['scenario'], core) if 'scenario' in files else None
    if 'placement' in files:
        audit(placed, files['placement'])
    if scene is None:
        return placed.text()
    if command in ('run pipe', 'run placed'):
        return Network(core, limits, scene, placed).run() if runs else ''
    return drive(placed, scene, call.numbers[0] if command == 'snap' else None)


def generated(call: Call, passes: Passes) -> str:
    """README, Usage: does the work of `gen` and `bench`."""
    seed, count = call.numbers
    texts = {'gen program': gen.make_program(seed), 'gen limits': gen.make_limits(), 'gen scene': gen.make_scene(seed, count)}
    if call.command != 'bench':
        return texts[call.command]
    files = {'limits': texts['gen limits'].encode(), 'scenario': texts['gen scene'].encode()}
    text = run_call(Call('run pipe', {}, '', []), files, Program(texts['gen program']), passes)
    return f'bench seed {seed} n {count} {text.splitlines()[-1]} bytes {len(text)} fnv {fnv(text.encode()):016x}\n'


def judge(words: Sequence[Word], read: ReadFile, runs: bool = True, passes: Passes = PASSES) -> Answer:
    """Returns the answer of a call of the program with these passes; `runs` says whether a network runs.

    Texts are `str` with one character for each byte.
    """
    made = Answer()
    try:
        made.call = call_of([word.encode('utf-8') if isinstance(word, str) else word for word in words])
        if made.call.files:
            made.files = read_files(made.call, read)
            made.program = Program(made.files['program'].decode('latin-1'))
            made.out = run_call(made.call, made.files, made.program, passes, runs).encode('latin-1')
        else:
            made.out = generated(made.call, passes).encode('latin-1')
    except Refused as refused:
        made.status, made.err, made.refused = refused.status, (refused.line + '\n').encode('latin-1'), refused
    return made


def agrees(made: Answer, status: int, out: Optional[bytes], err: bytes) -> bool:
    """Whether the program may answer so: byte for byte, but that the cycle of status 6 may be any that the order allows.

    If `out` is None, the outputs are not compared.
    """
    if (made.status, made.out if out is not None else None, made.err) == (status, out, err):
        return True
    fault = made.refused.fault if made.refused else None
    if made.status != 6 or status != 6 or out or fault is None:
        return False
    line, order, _ = fault.values
    text = err.decode('latin-1')
    return text.startswith(line + ' ') and text.endswith('\n') and order.allows(text[len(line):].split())
