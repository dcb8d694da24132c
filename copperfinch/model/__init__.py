"""A second implementation of `lucid`, for tests and for explanations.

This package is NOT VERIFIED. It was written from docs/LANGUAGE.md, docs/SCENARIO.md, docs/ERRORS.md and the definitions in
crates/*/specs, and not from the sources in crates/*/src. Its purpose is to disagree: `tests/run drawn` compares its
answers with those of the built program, byte for byte. copperfinch.explain has the words for its refusals.

`judge(words, read_file)` returns the exit code and the bytes of both streams, and the refusal itself. The head of a module names the
page that it follows, and the comment of a function the section. The modules in reading order: lexer, expand, tree, parser,
values, core, types, statements, declarations, order, nodes, normal, inline, passes, more_passes, json_files, layout, audit, interpret, drive,
network, gen, answers.
"""
from .answers import Answer, agrees, judge

__all__ = ['Answer', 'agrees', 'judge']
