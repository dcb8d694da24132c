"""Builds the program: what tools/compile, tools/prove and tools/install share.

- `crates`: the crates that the program is made of, lowest first.
- `kept`: the record of a built program, the lock of a build, and files that are replaced whole.
- `running`: child processes that end with this one, and a line of progress each few seconds.
- `front`: the kit's front end, which makes an LLVM module of the sources.
- `module`: splits that module into parts that are compiled side by side.
- `compiling`: the whole way from the sources to a kept program.
- `trying`: a call by `rt try`, for a kit with which that way fails.
"""
