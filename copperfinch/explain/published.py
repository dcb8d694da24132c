"""Forms of the published Lucid that this profile lacks or writes in another way: one table, from which docs/PUBLISHED.md is made.

A form has the code that is refused and the code that is accepted in its place, both of which the tests check. Its pattern finds it in a
program: if a refusal is at a place within a match, the explanation names the form and ours. Its edit, if there is one, is what replaces
the match. A form that was not compared with the published compiler or its pages is marked.
"""
from __future__ import annotations

import re
from dataclasses import dataclass
from typing import Callable, List, Match, Optional, Tuple, Union

from ..model.refusals import Fault
from .places import Edit
from .words import Words

SYNTAX = ('no tree', 'no token')
PUBLISHED = 'is of the published language'
# Programs in which the code of a form stands at the sign @.
DECLARED, SENT = '@', 'event e(int n); handle e(int n) { @ }'
VALUE = 'const int k = 3; event e(int n); handle e(int n) { int y = @; printf("%d", y); }'
MEMOP = 'memop m(int s, int x) { @ }'
CONDITION = 'memop m(int<<8>> s, int<<8>> x) { if (@) { return s; } return x; }'
Change = Union[str, Callable[[Match[str]], str], None]


@dataclass(frozen=True)
class Form:
    """A form of the published language: as it is shown, ours in words, the command that refuses it, and how it is found and replaced.

    `within` is a program with `@`, where `wrong` is refused and `right` accepted; each `@` of these is the whole program. `rules` are the
    broken rules by which the form is refused, and `wants` is the token that is then expected, if that tells the form from others.
    """

    section: str
    published: str
    here: str
    otherwise: str
    within: str = DECLARED
    wrong: str = ''
    right: str = ''
    pattern: str = ''
    edit: Change = None
    rules: Tuple[str, ...] = SYNTAX
    wants: str = ''
    is_checked: bool = True


def shift(sign: str) -> Callable[[Match[str]], str]:
    """Returns the edit of a product, a quotient or a remainder by a power of two; of another number it leaves the match."""
    def edit(found: Match[str]) -> str:
        number = int(found.group(2), 0)
        if number <= 0 or number & number - 1:
            return found.group(0)
        amount = number - 1 if sign == '&' else number.bit_length() - 1
        return f'({found.group(1)} {sign} {amount})'
    return edit


def bits(found: Match[str]) -> str:
    """The edit of a part of a number."""
    high, low = int(found.group(2)), int(found.group(3))
    return f'(int<<{high - low + 1}>>) ({found.group(1)} >> {low})' if high >= low else found.group(0)


DECLARATIONS, STATEMENTS, EXPRESSIONS, MEMOPS = 'Declarations', 'Statements', 'Expressions', 'Memops'
SIZED = 'memop plus(int s, int x) { return s + x; } global Array.t<<32>> a = Array.create(4); event e(int n); handle e(int n) { @ }'
FORMS = [
    Form(DECLARATIONS, '`new Array<<32>>(4)`', '`Array.create(4)`', '`syntax`', DECLARED, 'global Array.t<<32>> a = new Array<<32>>(4);',
         'global Array.t<<32>> a = Array.create(4);', r'\bnew\s+Array\s*<<\s*\d+\s*>>\s*\(', 'Array.create('),
    Form(DECLARATIONS, '`int<32>`, `hash<32>`, `Array.t<32>`', '`int<<32>>`, `hash<<32>>`, `Array.t<<32>>`', '`syntax`', DECLARED, 'event e(int<32> x);',
         'event e(int<<32>> x);', r'\b(int|hash|Array\.t|Array)\s*<\s*(\d+)\s*>(?!>)', r'\1<<\2>>'),
    Form(DECLARATIONS, '`entry event e(..)`, `packet event e(..)`', '`event e(..);` Any event may come from outside.', '`syntax`', DECLARED,
         'entry event e();', 'event e();', r'\b(entry|packet|control)\s+event\b', 'event'),
    Form(DECLARATIONS, '`exit event e(..)`, ports', '`event e(..);` without a handler: the log has it', '`syntax`', DECLARED,
         'exit event e();', 'event e();', r'\bexit\s+event\b', 'event', is_checked=False),
    Form(DECLARATIONS, '`event e(..) { .. }`', '`event e(..);` and `handle e(..) { .. }`', '`syntax`', DECLARED, 'event e(int x) { }',
         'event e(int x); handle e(int x) { }', r'\bevent\s+(\w+)\s*\(([^()]*)\)\s*\{', r'event \1(\2);\nhandle \1(\2) {'),
    Form(DECLARATIONS, '`bool` parameters of events', '`int<<1>>`', '`types`', DECLARED, 'event e(bool b);', 'event e(int<<1>> b);',
         r'\bbool\b', 'int<<1>>', ('int',)),
    Form(DECLARATIONS, '`size n = 4;`', '`const int n = 4;` sizes an array; a width is a number', '`syntax`', DECLARED, 'size n = 4;', 'const int n = 4;',
         r'\bsize\s+(\w+)\s*=\s*', r'const int \1 = '),
    Form(DECLARATIONS, '`symbolic int n;`, `symbolic size n;`', '`const int n = 4;`, with a number of your own', '`syntax`', DECLARED,
         'symbolic int n;', 'const int n = 4;', r'\bsymbolic\b', is_checked=False),
    Form(DECLARATIONS, '`type t = int;`', 'none: write the type itself', '`syntax`', DECLARED, 'type t = int;', 'const int t = 1;', r'\btype\s+\w+\s*='),
    Form(DECLARATIONS, '`module M { .. }`, `constr`', 'none: write its declarations without it', '`syntax`', DECLARED,
         'module M { event e(); }', 'event m_e();', r'\b(module|constr)\b'),
    Form(DECLARATIONS, '`include "file"`', 'none: put the text of the file there', '`syntax`', DECLARED, 'include "library.dpt"', 'event e();', r'\binclude\b'),
    Form(DECLARATIONS, '`extern`', 'none: what is computed outside comes with an event', '`syntax`', DECLARED, 'extern fun int f(int x);',
         'event f(int x, int answer);', r'\bextern\b'),
    Form(DECLARATIONS, '`#define N 4`', '`const int N = 4;`', '`syntax`', DECLARED, '#define N 4', 'const int N = 4;',
         r'#\s*(define|include|if|ifdef|ifndef|else|endif|undef|pragma)\b[^\n]*'),
    Form(DECLARATIONS, '`@main`', 'none: leave it out', '`syntax`', DECLARED, '@@main event e();', 'event e();', r'@\w*', ''),
    Form(DECLARATIONS, '`const group g = { 1 };`', '`group g = { 1 };`', '`syntax`', DECLARED, 'const group g = { 1 };', 'group g = { 1 };',
         r'\bconst\s+group\b', 'group'),
    Form(DECLARATIONS, '`const int a = 1 + 2;`, `= -1;`, `= b;`', 'a number: `const int a = 3;`', '`syntax`', DECLARED, 'const int a = 1 + 2;',
         'const int a = 3;', r'\bconst\s+(int|bool)\b[^;={}]*=[^;]*'),
    Form(DECLARATIONS, '`Counter.t c`, `global int a`', 'an array of one cell: `global Array.t<<32>> a = Array.create(1);`', '`syntax`', DECLARED,
         'global int a = 4;', 'global Array.t<<32>> a = Array.create(1);', r'\bglobal\s+(int|bool|Counter)\b|\bCounter\.t\b'),
    Form(DECLARATIONS, "`fun int<<'a>> f(..)`", '`fun <<w>> int<<w>> f(..)`, used as `f<<8>>(..)`: the width goes before the type', '`syntax`', DECLARED,
         "fun int<<'a>> f(int<<'a>> x) { return x; }", 'fun <<w>> int<<w>> f(int<<w>> x) { return x; } event e(int n); handle e(int n) { n = f<<32>>(n); }',
         r"\bfun\s+int\s*<<\s*'?[A-Za-z_]\w*\s*>>|'\w+"),
    Form(DECLARATIONS, '`fun .. f(..) [start <= a; end b] { .. }`', 'none: leave it out', '`syntax`',
         'global Array.t<<32>> a = Array.create(4); fun void f(Array.t<<32>> b) @ event e(); handle e() { f(a); }', '[start <= b; end b] { Array.set(b, 0, 1); }',
         '{ Array.set(b, 0, 1); }', r'(?<=\))\s*\[[^\]{}]*\]?', ' ', is_checked=False),
    Form(DECLARATIONS, '`parser p(..) { .. }`', 'none: an event of the scenario has the fields', '`syntax`', DECLARED,
         'parser main(bitstring pkt) { }', 'event packet(int<<48>> to, int<<16>> kind);', r'\bparser\b', is_checked=False),
    Form(DECLARATIONS, '`table`, `action`, `table_match`, `Table.lookup`', '`match` of 32 numbers, or an array that an event fills', '`syntax`',
         DECLARED, 'action go(int port) { }', 'global Array.t<<32>> ports = Array.create(16); event install(int key, int port); handle install(int key, int port) { Array.set(ports, key, port); }',
         r'\b(table|table_type|table_match|table_install|table_multi_install|action|action_constr|Table)\b', None, (*SYNTAX, 'name'), is_checked=False),
    Form(DECLARATIONS, '`PairArray.t<<32>> a`', 'two arrays, if no memop needs both numbers of a cell; else none', '`syntax`', DECLARED,
         'global PairArray.t<<32>> a = PairArray.create(4);', 'global Array.t<<32>> one = Array.create(4); global Array.t<<32>> two = Array.create(4);',
         r'\bPairArray\b', is_checked=False),
    Form(DECLARATIONS, 'arrays of any size', '1 to 65,536 cells', '`types`', DECLARED, 'global Array.t<<32>> a = Array.create(1048576);',
         'global Array.t<<32>> a = Array.create(65536);'),
    Form(DECLARATIONS, 'parameters of any number', '8 value parameters, 8 array parameters', '`types`, `limit ..`', DECLARED,
         'event e(int a, int b, int c, int d, int f, int g, int h, int i, int j);', 'event e(int a, int b, int c, int d, int f, int g, int h, int i);'),
    Form(STATEMENTS, '`mgenerate`, `generate_ports(g, ..)`', '`generate Event.locate(e(..), g);` with a named group', '`syntax`, `types`', SENT,
         'mgenerate e(n);', 'generate Event.locate(e(n), n);', r'\bmgenerate\b\s*|\bgenerate_ports\b', None, (*SYNTAX, 'name')),
    Form(STATEMENTS, '`generate_switch(n, ..)`, `generate_port(n, ..)`', '`generate Event.locate(e(..), n);` There are switches and no ports.', '`types`', SENT,
         'generate_switch(1, e(n));', 'generate Event.locate(e(n), 1);', r'\bgenerate_(?:switch|port)\b(?:\s*\(([^,()]*),\s*(\w+\s*\([^()]*\))\s*\))?',
         lambda found: f'generate Event.locate({found.group(2)}, {found.group(1)})' if found.group(2) else found.group(0), (*SYNTAX, 'name')),
    Form(STATEMENTS, '`Event.locate(e(..), { 1, 2 })`', 'a named group: `group g = { 1, 2 };`', '`syntax`', 'group g = { 1, 2 }; ' + SENT,
         'generate Event.locate(e(n), { 1, 2 });', 'generate Event.locate(e(n), g);', r'\bEvent\.locate\s*\([^;{}]*\{[^{};]*\}?'),
    Form(STATEMENTS, '`event.delay(e(..), t)`', '`Event.delay(e(..), t)`', '`syntax`', SENT, 'generate event.delay(e(n), 3);', 'generate Event.delay(e(n), 3);',
         r'\bevent\s*\.\s*(delay|locate)\b', r'Event.\1'),
    Form(STATEMENTS, '`Event.sslocate(e(..), n)`', '`Event.locate(e(..), n)`', '`syntax`', SENT, 'generate Event.sslocate(e(n), 3);', 'generate Event.locate(e(n), 3);',
         r'\bEvent\s*\.\s*sslocate\b', 'Event.locate', is_checked=False),
    Form(STATEMENTS, '`event x = e(..);`', 'none: `generate` takes the call itself', '`syntax`', SENT, 'event x = e(n);', 'generate e(n);', r'\bevent\s+\w+\s*='),
    Form(STATEMENTS, '`auto x = ..;`', '`int x = ..;`, with the width of its value', '`syntax`', SENT, 'auto x = 1;', 'int x = 1;', r'\bauto\s+\w*'),
    Form(STATEMENTS, '`int y;`', '`int y = 0;` A local has a value.', '`syntax`', SENT, 'int y;', 'int y = 0;', r'\b(int(?:<<\d+>>)?)\s+(\w+)\s*;', r'\1 \2 = 0;'),
    Form(STATEMENTS, '`if (c) x = 1;`', '`if (c) { x = 1; }`', '`syntax`', SENT, 'if (n == 1) n = 2;', 'if (n == 1) { n = 2; }', r'(?<=[)e])\s*([A-Za-z_](?:[^;{}]|\{[^;{}]*\})*;)',
         r' { \1 }', wants='`{`'),
    Form(STATEMENTS, '`x++`, `x--`', '`x = x + 1`, `x = x - 1`', '`syntax`', SENT, 'n++;', 'n = n + 1;', r'\b(\w+)\s*([-+])\2', r'\1 = \1 \2 1'),
    Form(STATEMENTS, '`x += 1`', '`x = x + 1`', '`syntax`', SENT, 'n += 1;', 'n = n + 1;', r'\b(\w+)\s*([-+&|^])=(?!=)\s*', r'\1 = \1 \2 '),
    Form(STATEMENTS, '`skip;`', 'an empty block', '`syntax`', SENT, 'skip;', '', r'\bskip\s*;', ''),
    Form(STATEMENTS, '`match (x, y) with ..`', '`match` of one value; nest two', '`syntax`', SENT, 'match (n, n) with | 1, 2 -> { } | _ -> { }',
         'match n with | 1 -> { match n with | 2 -> { } } | _ -> { }', r'\bmatch\b[^;{}|]*,[^;{}|]*'),
    Form(STATEMENTS, 'a case by a constant, `\\| k -> { .. }`', 'a number', '`syntax`', SENT, 'match n with | k -> { }', 'match n with | 3 -> { }',
         r'\|\s*[A-Za-z]\w*\s*->'),
    Form(STATEMENTS, '`for (i < 4) { .. }`, `while`', 'none: there is no loop. Write the copies, or go on by an event.', '`syntax`', SENT, 'for (i < 4) { }',
         'n = n + 1; n = n + 1;', r'\b(for|while)\b[^{};]*'),
    Form(STATEMENTS, '`int[4] v = [n for i < 4];`', 'a name for each element', '`syntax`', SENT, 'int[4] v = [n for i < 4];', 'int v0 = n; int v1 = n;',
         r'\bint(<<\d+>>)?\s*\[[^\]\n;]*|\[[^\]\n;:]*\bfor\b[^\]\n;]*', is_checked=False),
    Form(STATEMENTS, '`return` in a branch with an `else`, and statements after the `if`', 'put them into the `else`', '`types`', SENT,
         'if (n == 1) { return; } else { n = 2; } n = 3;', 'if (n == 1) { return; } else { n = 2; n = 3; }'),
    Form(EXPRESSIONS, '`Sys.self()`, `self`', '`SELF`', '`syntax`, `types`', VALUE, 'Sys.self()', 'SELF', r'\bSys\s*\.\s*self\s*\(\s*\)|\bself\b', 'SELF',
         (*SYNTAX, 'name')),
    Form(EXPRESSIONS, '`Sys.random()`', 'none: an event may bring drawn numbers', '`syntax`', VALUE, 'Sys.random()', 'n',
         r'\bSys\s*\.\s*random\b'),
    Form(EXPRESSIONS, '`Array.update(a, i, m, v)` with one memop', '`Array.setm` stores, `Array.getm` answers, `Array.update(a, i, m, v, n, w)` does both', '`syntax`',
         SIZED, 'int y = Array.update(a, n, plus, 1);', 'int y = Array.update(a, n, plus, 1, plus, 1);', r'\bArray\s*\.\s*update\s*\([^;]*', wants='`,`'),
    Form(EXPRESSIONS, '`size_cast(n)`', '`(int<<w>>) n`', '`types`', VALUE, 'size_cast(n)', '(int<<32>>) n', r'\bsize_(cast|to_int)\b', None, ('name',)),
    Form(EXPRESSIONS, '`n * 2`', 'shifts by a number, sums: `n << 1`', '`syntax`', VALUE, 'n * 2', 'n << 1', r'(\w+)\s*\*\s*(\d+)?',
         lambda found: shift('<<')(found) if found.group(2) else found.group(0)),
    Form(EXPRESSIONS, '`n / 2`', '`n >> 1`, by a power of two', '`syntax`', VALUE, 'n / 2', 'n >> 1', r'(\w+)\s*/\s*(\d+)?',
         lambda found: shift('>>')(found) if found.group(2) else found.group(0)),
    Form(EXPRESSIONS, '`n % 2`', '`n & 1`, by a power of two', '`syntax`', VALUE, 'n % 2', 'n & 1', r'(\w+)\s*%\s*(\d+)?',
         lambda found: shift('&')(found) if found.group(2) else found.group(0)),
    Form(EXPRESSIONS, '`n << k`', 'a shift by a number, `n << 3`', '`syntax`', VALUE, 'n << k', 'n << 3', r'(<<|>>)\s*[A-Za-z_]\w*(?!\s*>>)'),
    Form(EXPRESSIONS, '`int<<k>>` with a constant `k`', 'a number, `int<<8>>`', '`syntax`', VALUE, '(int<<k>>) n', '(int<<32>>) n', r'\b(int|hash)\s*<<\s*[A-Za-z_]\w*\s*>>'),
    Form(EXPRESSIONS, '`Array.get(a, i) == Array.get(a, j)`', 'one call of an array for each event; call again from another event', '`order`', SIZED,
         'if (Array.get(a, n) == Array.get(a, n)) { n = 2; }', 'if (Array.get(a, n) == n) { n = 2; }'),
    Form(EXPRESSIONS, '`c ? x : y`', 'assign by an `if`', '`syntax`', VALUE, 'n ? 1 : 2', '1; if (n == 0) { y = 2; } n = y', r'\?[^;{}]*'),
    Form(EXPRESSIONS, '`n[7:0]`', 'a cast of a shift: `(int<<8>>) (n >> 0)`', '`syntax`', VALUE, 'n[31:0]', '(int<<32>>) (n >> 0)',
         r'(\w+)\s*\[\s*(\d+)\s*:\s*(\d+)\s*\]', bits),
    Form(EXPRESSIONS, '`10us`', 'ticks, as a number', '`syntax`', VALUE, '10us', '10', r'\b(\d+)(ns|us|ms|s)\b', r'\1'),
    Form(EXPRESSIONS, '`5w8`', '`5`: a number has the width of its place', '`syntax`', VALUE, '5w32', '5', r'\b(\d+)w\d+\b', r'\1', is_checked=False),
    Form(EXPRESSIONS, '`n == true`', '`n == 1`; a `bool` is a condition as it is', '`types`', 'event e(int n); handle e(int n) { if (@) { n = 2; } }', 'n == true', 'n == 1',
         r'([=!]=)\s*true\b', r'\1 1', ('type', 'free type')),
    Form(EXPRESSIONS, '`a ^^ b`', '`a ^ b`: the exclusive or of two numbers', '`syntax`', VALUE, 'n ^^ k', 'n ^ k', r'\^\s*\^', '^', is_checked=False),
    Form(EXPRESSIONS, '`a ^ b` for the bits of `a` before those of `b`', '`(int<<16>>) a << 8 \\| (int<<16>>) b`. Of two numbers of one width, `^` is the exclusive or here.', '`types`',
         'event e(int<<8>> n, int<<16>> m); handle e(int<<8>> n, int<<16>> m) { m = @; }', 'n ^ n', '(int<<16>>) n << 8 | (int<<16>>) n', r'\w+\s*\^\s*\w+', None, ('type',),
         is_checked=False),
    Form(EXPRESSIONS, 'a rotation', '`n << 3 \\| n >> 29`', '`types`', VALUE, 'rotl(n, 3)', 'n << 3 | n >> 29', r'\b(rotl|rotr|rotate\w*)\b', None, ('name',), is_checked=False),
    Form(EXPRESSIONS, 'two widths in one operation', 'a cast', '`types`', 'event e(int<<8>> n, int<<16>> m); handle e(int<<8>> n, int<<16>> m) { int<<8>> y = @; }',
         'n + m', 'n + (int<<8>>) m'),
    Form(EXPRESSIONS, '`printf("%s", ..)`', '`%d` alone', '`types`', SENT, 'printf("%s", n);', 'printf("%d", n);', r'\bprintf\s*\(\s*"[^"\n]*%[a-ce-z]', None, ('holes',)),
    Form(EXPRESSIONS, '`true` in a cell of an array', '1', '`types`', SIZED, 'Array.set(a, 0, true);', 'Array.set(a, 0, 1);', r'\btrue\b', '1', ('type',)),
    Form(MEMOPS, 'two comparisons joined by `&&`', 'one comparison; choose by the other in the handler', '`types`', CONDITION,
         's < x && x < 4', 's < x'),
    Form(MEMOPS, 'a sum or a mask within a comparison, `s - x < 10`', 'give the sum as the argument: `s < x`, with `x + 10` in the call', '`types`', CONDITION, 's - x < 10', 's < x'),
    Form(MEMOPS, '`\\|+\\|`, `\\|-\\|`', 'two memops of one `Array.update`, or a sum that stops in the handler', '`types`', MEMOP, 'return s |+| x;', 'return s + x;'),
]

SAME = [
    ('`global Array.t<<32>> a = Array.create(4);`', 'the same, or `Array<<32>>`'),
    ('`generate e(..);`, `Sys.time()`', 'the same; the time is that of the tick at which the event entered'),
    ('a compiler to P4 for the Tofino', 'none: `layout` places the program in a model whose limits you state'),
    ('an interpreter with a JSON specification of the network', '`run whole` and `run pipe` with a scenario ([SCENARIO](SCENARIO.md))'),
    ('its `events` with `name`, `args`, `timestamp`, `locations` †', '`events` with `name`, `args`, `at`, `switch`'),
    ('its `max time`, `links` of ports †', '`stop`; `links` of two switches and a latency'),
    ('its commands that set cells, and `externs` †', 'none: an event of your own sets a cell'),
    ('ports and external hosts', 'switches and links with latencies and outages'),
    ('order of arrays by types and effects', 'the same rule: [LANGUAGE](LANGUAGE.md#the-order-of-arrays)'),
    ('compilation that keeps the meaning, by design', 'a clause of the one call that the program makes ([PROMISES](PROMISES.md))')]


def tables() -> str:
    """The tables of docs/PUBLISHED.md."""
    lines: List[str] = []
    for section in (DECLARATIONS, STATEMENTS, EXPRESSIONS, MEMOPS):
        lines += [f'## {section}', '', '| Published | Here | Otherwise |', '|---|---|---|']
        lines += [f'| {form.published}{"" if form.is_checked else " †"} | {form.here} | {form.otherwise} |' for form in FORMS if form.section == section]
        lines.append('')
    lines += ['## Around the language', '', '| Published | Here |', '|---|---|', *(f'| {published} | {here} |' for published, here in SAME), '']
    return '\n'.join(lines)


def is_published(name: str) -> bool:
    """Whether a name that is not declared is one of the published language."""
    return any('name' in form.rules and form.pattern and re.match(form.pattern, name) for form in FORMS)


def form_at(text: str, at: int, fault: Fault) -> Optional[Tuple[Form, Match[str]]]:
    """Returns the form of the published language that a fault at a place of a text is about, if there is one, with its match."""
    begin = max(0, at - 400, *(text.rfind(sign, 0, at) + 1 for sign in ';{}'))
    for form in FORMS:
        if not form.pattern or fault.rule not in form.rules or form.wants and form.wants not in fault.values[1:]:
            continue
        for found in re.compile(form.pattern).finditer(text, begin, at + 200):
            if found.start() <= at <= found.end() and found.end() > found.start():
                return form, found
    return None


def plain(text: str) -> str:
    """Text of the table without the signs of a page."""
    return text.replace('\\|', '|')


def name_form(text: str, fault: Fault, words: Words) -> Optional[List[Edit]]:
    """Names the form of the published language in the words of a fault, and ours as the remedy; returns its edits, or None if there is none."""
    found = form_at(text, fault.at, fault) if isinstance(fault.at, int) else None
    if found is None:
        return None
    form, match = found
    words.problem += f'; {plain(form.published)} {PUBLISHED}'
    words.rule = 'The profile is smaller than the published language (docs/PUBLISHED.md has a table of its forms).'
    words.remedy = ('write ' if form.here.startswith('`') else '') + plain(form.here)
    if form.edit is None:
        return []
    new = match.expand(form.edit) if isinstance(form.edit, str) else form.edit(match)
    return [] if new == match.group(0) else [Edit(match.start(), match.end(), new)]
