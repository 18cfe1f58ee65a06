"""A report as a table for a terminal."""
from . import codes
from .checking import shown
from .findings import ONE_JAR, PARTITIONED, sentence

LONGEST_NAME = 40
HEADS = ('embedded site', 'tops', 'one jar links', 'partitioned links', 'own-partition cookies', 'by grant')


def sizes(groups):
    """The sizes of groups of top-level sites."""
    return '+'.join(str(len(group['tops'])) for group in groups) or '-'


def names(site, kind):
    """The names of a site's cookies of this kind, under any top-level site."""
    found = {short(name) for cell in site['tops'].values() for name in cell[kind]}
    return ','.join(sorted(found)) or '-'


def short(name):
    """A cookie's name, which may have 4,096 bytes."""
    return name if 0 < len(name) <= LONGEST_NAME else name[:LONGEST_NAME - 1] + '…' if name else '(no name)'


def row(domain, site):
    """The row of an embedded site."""
    groups = site['groups']
    return (shown(domain), str(len(site['tops'])), sizes(groups[ONE_JAR]), sizes(groups[PARTITIONED]),
            shown(names(site, 'partitioned')), shown(names(site, 'granted')))


def lines(found):
    """The table and what stands below it."""
    yield sentence(found)
    yield ''
    rows = [HEADS, *(row(domain, site) for domain, site in found['sites'].items())]
    widths = [max(len(it[place]) for it in rows) for place in range(len(HEADS))]
    for it in rows:
        yield '  '.join(text.rjust(width) if place == 1 else text.ljust(width)
                        for place, (text, width) in enumerate(zip(it, widths))).rstrip()
    yield ''
    yield from below(found)


def below(found):
    """How far the table can be trusted."""
    yield 'replayed against the recording: ' + counted(found['check'])
    if found['partitions']['named']:
        yield (f'partitions that the browser names: {found["partitions"]["as_converted"]} of '
               f'{found["partitions"]["named"]} as converted')
    beside = one_jar(found)
    if beside:
        yield f'one-jar run: {beside}'
    yield 'not carried over, or not as it was: ' + counted(found['lost'])
    yield codes.NEVER


def one_jar(found):
    """How the run with one jar compares with a recording that can tell, or an empty text."""
    beside = dict(found['one_jar_beside_recording'])
    held = beside.pop('held', None)
    told = []
    if found['recording']['setting'] == 'allowed':
        told.append('beside the recording, ' + counted(beside))
    if held:
        told.append(f'what the browser says that it held back is sent in {held["sent"]} of {held["told"]} requests')
    return '; '.join(told)


def counted(found):
    """Counts in one line."""
    return ', '.join(f'{name} {count}' for name, count in found.items()) or 'nothing'
