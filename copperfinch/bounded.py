"""Work with a bound: on a stack for programs that are nested as deep as their limits allow, for some seconds and in some memory."""
import resource
import sys
import threading
import time
from typing import Callable, List, Optional, TypeVar

from .errors import Error

T = TypeVar("T")
STACK = 1 << 29


class Exceeded(Error):
    """A bound was exceeded. The text says which."""


def deeply(work: Callable[[], T], seconds: Optional[float] = None, megabytes: Optional[int] = None) -> T:
    """Does work in a thread with a deep stack. Raises Exceeded after so many seconds of this process, or if it wants so much more memory.

    Work that is left after its seconds goes on until the process ends.
    """
    found: List[T] = []
    failed: List[BaseException] = []

    def on_stack() -> None:
        try:
            found.append(work())
        except MemoryError:
            failed.append(Exceeded(f"it takes more than {megabytes} MB"))
        except BaseException as fault:  # raised again by the caller
            failed.append(fault)

    depth = sys.getrecursionlimit()
    sys.setrecursionlimit(10**6)
    threading.stack_size(STACK)
    thread = threading.Thread(target=on_stack, daemon=True)
    soft, hard = resource.getrlimit(resource.RLIMIT_AS)
    if megabytes is not None:
        most = address_space() + STACK + megabytes * 2**20
        resource.setrlimit(resource.RLIMIT_AS, (most if soft < 0 else min(most, soft), hard))
    try:
        thread.start()
        threading.stack_size(0)
        while thread.is_alive():
            thread.join(None if seconds is None else 0.05)
            if seconds is not None and thread.is_alive() and time.process_time() > seconds:
                raise Exceeded(f"it takes more than {seconds:g} s of a processor")
    finally:
        resource.setrlimit(resource.RLIMIT_AS, (soft, hard))
        if not thread.is_alive():  # Python ends a process with a thread that is deeper than the limit
            sys.setrecursionlimit(depth)
    if failed:
        raise failed[0]
    return found[0]


def address_space() -> int:
    """Returns the bytes of addresses that this process has."""
    with open("/proc/self/statm") as file:
        return int(file.read().split()[0]) * resource.getpagesize()
