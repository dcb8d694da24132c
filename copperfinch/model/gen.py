"""Texts that are made from a number, for `gen` and `bench` (crates/lucid_gen/specs)."""
from typing import Callable, List


def drawing(state: int) -> Callable[[int], int]:
    """Returns a linear congruential generator of numbers below a bound, which takes its high bits."""
    def draw(bound: int) -> int:
        nonlocal state
        state = (6364136223846793005 * state + 1442695040888963407) % 2 ** 64
        return (state >> 33) % bound
    return draw


def make_program(seed: int) -> str:
    """Returns a program of eight arrays and eight handlers."""
    draw = drawing(seed)
    lines = [f'global Array.t<<32>> a{j} = Array.create({1 + draw(64)});' for j in range(8)]
    lines.append('memop plus(int stored, int x) { return stored + x; }')
    lines += [f'event e{j}(int i, int v);' for j in range(8)]
    for j in range(8):
        lines.append(f'handle e{j}(int i, int v) {{')
        for q in range(8):
            kind = draw(4)
            if kind == 1:
                lines.append(f'  v = Array.getm(a{q}, i, plus, v);')
            elif kind == 2:
                lines.append(f'  Array.setm(a{q}, i, plus, v);')
            elif kind == 3:
                lines.append(f'  if (v > {draw(1000)}) {{ v = Array.update(a{q}, i, plus, 1, plus, v); }}')
        located = draw(2)
        sent = f'Event.delay(e{draw(8)}(i + 1, v), {draw(100)})'
        lines += [f'  generate Event.locate({sent}, SELF ^ 1);' if located else f'  generate {sent};', '}']
    return ''.join(line + '\n' for line in lines)


def make_limits() -> str:
    """Returns the limits file of generated networks."""
    return '{"stages":32,"tables":64,"rows":1024,"bits":65536}\n'


def make_scene(seed: int, count: int) -> str:
    """Returns a scenario of so many events."""
    draw = drawing(seed)
    items: List[str] = []
    for _ in range(count):
        at, switch, event = draw(100), draw(4), draw(8)
        items.append(f'{{"at":{at},"switch":{switch},"name":"e{event}","args":[{draw(1000)},{draw(1000)}]}}')
    return '{"switches":4,"stop":1000,"links":[[0,1,1],[2,3,2]],"events":[' + ','.join(items) + ']}\n'
