"""Who links whom, as a graph of two columns."""
from . import pages

WIDTH, LEFT, RIGHT = 460, 150, 310
# Space for a name at 12 px.
LONGEST_NAME = 22
KINDS = {'links': 'recognises across sites', 'apart': 'kept apart', 'nothing': 'no cookie sent'}


def graph(found, run, title, only_linking):
    """An SVG of one run."""
    edges = [(domain, top, pages.state(site, run, top)) for domain, site in found['sites'].items()
             for top in site['tops']]
    if only_linking:
        edges = [edge for edge in edges if edge[2] == pages.LINKS]
    if not edges:
        return '<p class=note>No edge.</p>'
    used = {top for _, top, _ in edges}, {domain for domain, _, _ in edges}
    tops = [top for top in found['tops'] if not only_linking or top in used[0]]
    domains = [domain for domain in found['sites'] if not only_linking or domain in used[1]]
    step = 20 if only_linking else 34
    height = step * max(len(tops), len(domains)) + 12
    rows = [place(tops, height), place(domains, height)]
    drawn = ''.join(edge(*it, rows) for it in sorted(edges, key=lambda it: it[2] == pages.LINKS))
    drawn += ''.join(node(name, y, LEFT, -8, 'end', pages.short(name)) for name, y in rows[0].items())
    drawn += ''.join(node(name, y, RIGHT, 8, 'start', name) for name, y in rows[1].items())
    return f'<svg viewBox="0 0 {WIDTH} {height}" width={WIDTH} role=img aria-label="{pages.escaped(title)}">{drawn}</svg>'


def place(names, height):
    """The heights of names that are spread over a column."""
    step = height / len(names)
    return {name: round(step * (number + 0.5)) for number, name in enumerate(names)}


def edge(domain, top, kind, rows):
    """A line from a top-level site to an embedded one."""
    left, right = rows[0][top], rows[1][domain]
    middle = (LEFT + RIGHT) // 2
    text = pages.escaped(f'{domain} under {pages.short(top)}: {KINDS[kind]}')
    return (f'<path class={kind} d="M{LEFT} {left}C{middle} {left} {middle} {right} {RIGHT} {right}">'
            f'<title>{text}</title></path>')


def node(name, y, x, offset, anchor, text):
    """A site with its name."""
    shown = text if len(text) <= LONGEST_NAME else text[:LONGEST_NAME - 1] + '…'
    return (f'<circle cx={x} cy={y} r=3.5 /><text x={x + offset} y={y + 4} text-anchor={anchor}>'
            f'<title>{pages.escaped(name)}</title>{pages.escaped(shown)}</text>')
