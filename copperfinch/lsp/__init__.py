"""The language server `lucid-lsp`: `server` speaks the protocol, `names` finds names in a text, and `analysis` judges one in a process of its own.

No proof speaks of it. It needs the module pylsp_jsonrpc (Debian's python3-pylsp-jsonrpc).
"""
