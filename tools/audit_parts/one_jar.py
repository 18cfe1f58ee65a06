"""The same recording in a browser with one jar of cookies, as a script for the same program.

Each cross-site request is made by a spare frame of its own origin, below the document that made it, which was granted
storage access and is dropped afterwards. So it has the unpartitioned cookies of its site, and its answer sets them.
"""
from . import addresses
from .conversion import SPARE_FRAME


def lines_of(judge):
    """The lines, each with the step whose request it makes or None."""
    parents = {}
    for step in judge.steps:
        line = step.line
        if line['do'] == 'frame':
            parents[line['tab'], line['frame']] = line.get('parent', 0)
        if line['do'] == 'request':
            continue
        is_third = step.item.get('chain') and 'url' in line and line['do'] != 'open' and judge.context(step)[1]
        if not is_third:
            yield line, step
            continue
        yield from by_spare_frame(step, owner(line, parents))
        if line['do'] != 'fetch':
            yield {name: value for name, value in line.items() if name != 'head'}, None


def owner(line, parents):
    """The number of the document that makes the request of a line."""
    if line['do'] == 'fetch':
        return line.get('frame', 0)
    return parents.get((line['tab'], line.get('frame', 0)), 0)


def by_spare_frame(step, parent):
    """The request of a step, made by a frame of its own that has access."""
    line = step.line
    frame = {'tab': line['tab'], 'frame': SPARE_FRAME}
    below = {'parent': parent} if parent else {}
    yield {'do': 'frame', **frame, **below, 'url': addresses.origin_of(line['url']) + '/'}, None
    yield {'do': 'click', **frame}, None
    yield {'do': 'request', **frame, 'answer': 'grant'}, None
    kept = {name: line[name] for name in ('method', 'head') if name in line}
    yield {'do': 'fetch', **frame, 'url': line['url'], **kept}, step
    yield {'do': 'drop', **frame}, None


def replies(judge, program, start):
    """The reply to the request of each step, by its number."""
    lines, steps = zip(*lines_of(judge))
    return {step.number: reply for step, reply in zip(steps, program.replay(lines, start)) if step}
