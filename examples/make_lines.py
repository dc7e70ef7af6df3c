#!/usr/bin/env python3
"""Writes the lines files of this folder, and what is settled with them: python3 examples/make_lines.py

The stable routing by the rules of docs/RULES.md, in a few lines that share nothing with the programs: all look at once,
2n + 1 times, from nothing. NAME.lines says which lines are up, NAME.settled what every network goes by for the blocks of a
block file. make_ties.py and make_blocks.py have to be run before."""
import os
from make_script import best, head, read_blocks, read_ties, says

here = os.path.dirname(os.path.abspath(__file__))

def routing(n, rel, up, home):
    routes = [None] * n
    for _ in range(2 * n + 1):
        routes = [best(n, rel, i, home, up, {j: says(n, rel, j, i, routes[j]) for j in range(n) if (j, i) in rel and up(i, j)})
                  for i in range(n)]
    return routes

def reaching(n, rel, up, home):
    reached, todo = {home}, [home]
    while todo:
        i = todo.pop()
        for j in range(n):
            if (i, j) in rel and up(i, j) and j not in reached: reached.add(j); todo.append(j)
    return reached

def told(i, route, reached):
    if route is None: return f"{i} nothing, {'unpaid' if i in reached else 'cut off'}"
    return f'{i} home' if route == 'home' else f"{i} by {route[0]} over {', '.join(map(str, route[1]))}"

def settled(name, ties, blocks, down=(), note=''):
    """All lines come up, and some go down again."""
    n, rel = read_ties(ties)
    pairs = sorted((i, j) for i, j in rel if i < j)
    assert all((min(p), max(p)) in pairs for p in down)
    lost = {frozenset(p) for p in down}
    up = lambda i, j: frozenset((i, j)) not in lost
    lines = [f'turn {i} {j} up' for i, j in pairs]
    if down: lines += ['# ' + note] + [f'turn {i} {j} down' for i, j in down]
    shown = []
    for b, (first, last, home) in enumerate(read_blocks(blocks)):
        routes, reached = routing(n, rel, up, home), reaching(n, rel, up, home)
        shown += [head(b, first, last, home)] + [told(i, routes[i], reached) for i in range(n)]
    for end, text in (('lines', lines), ('settled', shown)):
        open(os.path.join(here, f'{name}.{end}'), 'w').write(''.join(line + '\n' for line in text))
    kinds = [line.split(' ', 1)[1] for line in shown]
    print(f'{name}: {len(lines)} lines,', *(f'{sum(k == w for k in kinds)} {w}' for w in ('nothing, unpaid', 'nothing, cut off')))

if __name__ == '__main__':
    settled('a', 'a.ties', 'a.blocks')
    settled('b', 'a.ties', 'a.blocks', [(0, 1)], '0 and 1 lose their line')
    settled('c', 'c.ties', 'c.blocks')
    settled('d', 'd.ties', 'd.blocks')
    settled('e', 'e.ties', 'e.blocks')
    settled('sixty', 'sixty.ties', 'sixty.blocks', [(0, 3), (2, 3), (6, 1), (12, 1), (16, 6), (16, 8), (54, 10), (54, 11), (24, 10), (24, 12), (24, 15), (27, 4), (27, 8)],
            'some lines are lost: 54 has none left, 16 and 24 none but to a peer')
