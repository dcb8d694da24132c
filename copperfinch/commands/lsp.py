"""Serves an editor by the language server protocol on standard input and output.

It shows all mistakes and warnings as one types, with the limits of the file P.limits.json beside a program P.luc if there is one. It answers
hover, definition, references, symbols, completion, rename, code actions for remedies that are edits, and formatting. tools/editor has the
files of neovim, vim, emacs and VS Code.
"""
import argparse

USAGE = "%(prog)s [--stdio]"


def add_words(parser: argparse.ArgumentParser) -> None:
    """Adds the words."""
    parser.add_argument("--stdio", action="store_true", help="what some editors add; there is no other way")


def run(given: argparse.Namespace) -> int:
    """Serves until the client ends."""
    from ..lsp.server import serve  # here, since only this command needs the module pylsp_jsonrpc

    return serve()
