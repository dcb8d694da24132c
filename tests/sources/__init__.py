"""What a clause or a law rests on, read from the sources, and the pages that follow from it. `tests/pages` is the command."""
