"""The exceptions of the package. The text of each is one line that a tool prints."""


class Error(Exception):
    """A file, an answer, a program or an output that cannot be used."""


class FormatError(Error, ValueError):
    """A text of another form than its reader wants. Its text says which line or key, and why."""
