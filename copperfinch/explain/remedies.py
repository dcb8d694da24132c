"""Remedies that depend on the text round a fault, and remedies that are known to the byte."""
from __future__ import annotations

import re
from difflib import get_close_matches
from typing import Callable, Dict, List

from ..model.lexer import scan
from ..model.refusals import Fault
from ..model.types import BOOL
from .places import Edit
from .words import Words, shown

ARRAY_SIZE = re.compile(r'Array\s*\.\s*create\s*\(\s*\w+\s*$')
BEFORE_NEXT = re.compile(r'\s*\n|\s*(?:\}|if\b|match\b|int\b|bool\b|return\b|generate\b|printf\b|Array\b|event\b|handle\b|memop\b|fun\b|const\b|global\b|group\b)')


def of_size(text: str, at: int, words: Words) -> bool:
    """Says that an array has no computed size, if the place is behind the first operand of one."""
    if not ARRAY_SIZE.search(text[max(0, at - 80):at]):
        return False
    words.problem = 'the size of an array is computed'
    words.rule = 'The size of an array is a number or the name of a constant.'
    words.remedy = 'write the number itself, or declare a constant with it: sums and shifts are refused here, too'
    return True


def no_tree(text: str, fault: Fault, words: Words) -> List[Edit]:
    """A `;` that is missing."""
    if fault.values[1:] != ('`;`',):
        return []
    before = re.sub(r'//[^\n]*|/\*.*?\*/', lambda found: ' ' * len(found.group()), text[:fault.at], flags=re.DOTALL)
    end = len(before.rstrip())
    return [Edit(end, end, ';')] if BEFORE_NEXT.match(text, end) else []


def name(text: str, fault: Fault, words: Words) -> List[Edit]:
    """A group in parentheses, a group that is no target, or a name that is close to another one."""
    word, _, found = fault.values
    if found == 'group':
        bare = re.compile(r'\(\s*(\w+)\s*\)').match(text, text.rfind('(', 0, fault.at))
        words.remedy = 'name it as the target of an `Event.locate`: a group is no number'
        if bare and bare.start(1) == fault.at and re.search(r',\s*$', text[:bare.start()]):
            words.problem = f'{word} is a group in parentheses'
            words.rule = 'A target is the bare name of a group, or a number.'
            words.remedy = f'write {word} without parentheses'
            return [Edit(bare.start(), bare.end(), word)]
    if found is None:
        others = {token.text for token in scan(text)[0] if token.kind == 'name'} - {word}
        close = get_close_matches(word, sorted(others), 1, 0.74)
        words.remedy += f', or write {close[0]}' if close else ''
    return []


def typed(text: str, fault: Fault, words: Words) -> List[Edit]:
    """A cast before an operand, or a comparison within a condition."""
    asked, found = fault.values
    if isinstance(asked, int) and isinstance(found, int):
        return [Edit(fault.at, fault.at, f'({shown(asked)}) ')]
    if asked != BOOL or not isinstance(found, int) or not re.search(r'\bif\s*\(\s*$', text[max(0, fault.at - 60):fault.at]):
        return []
    depth = 0
    for at in range(fault.at, min(len(text), fault.at + 400)):
        depth += (text[at] == '(') - (text[at] == ')')
        if depth < 0:
            return [Edit(at, at, ' != 0')]
    return []


def bare_name(text: str, fault: Fault, words: Words) -> List[Edit]:
    """An array in parentheses."""
    found = re.compile(r'\(\s*(\w+)\s*\)').match(text, fault.at)
    return [Edit(found.start(), found.end(), found.group(1))] if found else []


BY_RULE: Dict[str, Callable[[str, Fault, Words], List[Edit]]] = {
    'no tree': no_tree, 'name': name, 'type': typed, 'bare name': bare_name}


def mend(text: str, fault: Fault, words: Words) -> List[Edit]:
    """Writes a remedy for what stands round a fault of a program; returns its edits, if it is known to the byte."""
    return BY_RULE[fault.rule](text, fault, words) if fault.rule in BY_RULE else []
