"""Draws calls: `cases` with their files, `programs`, and `mutated` texts; `faults` measures how many faults drawn calls see."""
