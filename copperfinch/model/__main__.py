"""`python3 -m copperfinch.model [-O] WORDS`: answers as `lucid` does, with -O as it would with the further passes, by streams and exit code. Not verified."""
import os
import sys

from ..bounded import deeply
from ..streams import read_again

from .answers import Answer, judge
from .more_passes import MORE
from .passes import PASSES


def write_all(stream: int, data: bytes) -> bool:
    """10 write fault: says whether a stream took all bytes."""
    try:
        while data:
            data = data[os.write(stream, data):]
        return True
    except OSError:
        return False


if __name__ == '__main__':
    more = sys.argv[1:2] == ['-O']
    words = [os.fsencode(word) for word in sys.argv[1 + more:]]
    made: Answer = deeply(lambda: judge(words, read_again, passes=MORE if more else PASSES))
    if not write_all(1, made.out):
        made = Answer(10, b'', b'write fault\n')
    write_all(2, made.err)
    sys.exit(made.status)
