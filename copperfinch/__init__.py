"""Copperfinch for Python: reads what `lucid` reads and prints, calls it, explains its refusals, and draws runs. Standard library only, but for `testing`.

docs/PYTHON.md has examples. The modules:

    program                  calls of the built program
    log, layout, drive       readers of its answers; `lines` has what they share
    files, scenarios         limits, scenarios and placements; scenarios that are drawn
    traffic                  scenarios of captures, which scapy reads, and of CSV files
    network, follow          the ledger of a run: what became of each event; and its text
    cells                    the changes of cells in a run
    labels, runs             formats and names that a user gives; the files of a run for tools
    explain                  explanations of refusals, on the second implementation
    model                    that implementation of all commands; it is not verified
    draw, page               pictures and pages of runs
    testing                  properties of a network, on scenarios that are drawn; it needs pytest and hypothesis
    command, commands        the command `lucid-tools` and the scripts of tools/
    errors, streams, bounded faults, files and streams, and work with a bound
"""
