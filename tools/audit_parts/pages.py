"""A report as one HTML page without scripts.

All that comes out of a recording is hostile text: it stands in the page only through `escaped`.
"""
import datetime
import html

from . import codes, graphs, tables
from .findings import ONE_JAR, PARTITIONED, sentence
from .styles import STYLE

# Past so many sites a matrix has small boxes, and a graph the edges alone that link.
MANY = 25
LINKS, APART, NOTHING = 'links', 'apart', 'nothing'
GLYPHS = {LINKS: '●', APART: '○', NOTHING: '·'}


def escaped(text):
    """A text of a recording, for a page or an attribute in double quotes."""
    return html.escape(''.join(it if it.isprintable() or it == '\n' else '\ufffd' for it in text))


def short(top):
    """A site without its scheme, where that is https."""
    return top.removeprefix('https://')


def is_linked(site, run, top):
    """Whether a site recognises the visitor under a top-level site in a run."""
    return any(top in group['tops'] for group in site['groups'][run])


def state(site, run, top):
    """What a site can do under a top-level site in a run."""
    if is_linked(site, run, top):
        return LINKS
    cell = site['tops'][top]
    names = cell['one_jar'] or cell['partitioned'] if run == ONE_JAR else cell['partitioned'] or cell['granted']
    return APART if names else NOTHING


def listed(names):
    """Names of cookies in one text."""
    return ', '.join(name or '(no name)' for name in names) or 'none'


def tip(domain, site, top):
    """What a cell of the matrix says in words."""
    cell = site['tops'][top]
    lines = [f'{domain} under {short(top)}: {cell["requests"]} requests',
             f'one jar: {listed(cell["one_jar"])}' + (', recognises' if is_linked(site, ONE_JAR, top) else ''),
             f'partitioned: {listed(cell["partitioned"])}']
    if cell['granted']:
        linked = ', recognises' if is_linked(site, PARTITIONED, top) else ''
        lines.append(f'by granted access: {listed(cell["granted"])}{linked}')
    if cell['refused']:
        lines.append(f'Set-Cookie refused: {tables.counted(cell["refused"])}')
    return '\n'.join(lines)


def box(kind, glyph):
    """One box of a cell."""
    return f'<i class={kind}>{glyph}</i>'


def matrix_cell(domain, site, top):
    """The two boxes of a site under a top-level site, or an empty cell. Cells are many, so their end tags are left out."""
    if top not in site['tops']:
        return '<td class=no>own' if short(top) == domain else '<td>'
    left, right = state(site, ONE_JAR, top), state(site, PARTITIONED, top)
    glyph = 'G' if site['tops'][top]['granted'] else GLYPHS[right]
    text = escaped(tip(domain, site, top))
    return f'<td title="{text}">{box(left, GLYPHS[left])}{box(right, glyph)}'


def matrix(found, sites):
    """Embedded sites by top-level sites."""
    heads = ''.join(f'<th scope=col title="{escaped(top)}"><span>{escaped(short(top))}</span></th>'
                    for top in found['tops'])
    rows = ''.join(
        f'<tr><th scope=row title="{escaped(domain)}">{escaped(domain)}</th>'
        + ''.join(matrix_cell(domain, site, top) for top in found['tops']) + '</tr>\n'
        for domain, site in sites.items())
    small = ' small' if is_large(found) else ''
    return (f'<div class="scroll{small}" tabindex=0 role=region aria-label="Matrix"><table class="matrix{small}">'
            f'<thead><tr><td></td>{heads}</tr></thead>\n<tbody>{rows}</tbody></table></div>')


def is_large(found):
    """Whether there are too many sites for large boxes."""
    return max(len(found['tops']), len(found['sites'])) > MANY


def matrix_part(found):
    """The matrix; where there are many sites, without those that are embedded under one alone."""
    sites = found['sites']
    left_out = ''
    if is_large(found):
        kept = {domain: site for domain, site in sites.items() if len(site['tops']) > 1 or any(site['groups'].values())}
        if len(kept) < len(sites):
            left_out = (f'<p class=note>{len(sites) - len(kept)} sites that are embedded under one top-level site alone, '
                        'and recognise nobody, stand in the list below only.')
        sites = dict(sorted(kept.items(), key=by_reach))
    return f'<h2>Embedded site by top-level site</h2>\n{legend(found)}\n{matrix(found, sites)}{left_out}'


def by_reach(it):
    """The order of sites: those that recognise under most sites first."""
    domain, site = it
    reach = sum(len(group['tops']) for group in site['groups'][ONE_JAR])
    return -reach, -len(site['tops']), domain


def legend(found):
    """What boxes mean."""
    first, second = ('upper', 'lower') if is_large(found) else ('left', 'right')
    return (f'<p class=note>In each cell the {first} box is a browser with one jar, the {second} one with partitions.</p>'
            f'<p class=legend><span>{box(LINKS, "●")} recognises across sites</span> '
            f'<span>{box(APART, "○")} has cookies, kept apart</span> '
            f'<span>{box(NOTHING, "·")} no cookie sent</span> '
            f'<span><b>G</b> by granted access</span>')


def graph_part(found):
    """Both graphs, side by side where there is room."""
    large = is_large(found)
    drawn = ''.join(
        f'<figure><figcaption>{title}</figcaption>{graphs.graph(found, run, title, large)}</figure>'
        for run, title in ((ONE_JAR, 'One jar'), (PARTITIONED, 'Partitioned')))
    what = 'Only edges that link are drawn.' if large else ''
    return (f'<h2>The same as a graph</h2><p class=note>Top-level sites left, embedded sites right. {what}</p>'
            f'<div class=graphs>{drawn}</div>')


def groups_text(site, run):
    """The groups of a run in words."""
    return '; '.join(' = '.join(short(top) for top in group['tops']) + f' by {listed(group["by"])}'
                     for group in site['groups'][run]) or 'recognises nobody across sites'


def site_part(domain, site):
    """One embedded site, with its groups and cookies."""
    rows = ''.join(
        f'<tr><td>{escaped(short(top))}<td>{cell["requests"]}<td>{escaped(listed(cell["one_jar"]))}'
        f'<td>{escaped(listed(cell["partitioned"]))}<td>{escaped(listed(cell["granted"]))}'
        f'<td>{escaped(tables.counted(cell["refused"]) if cell["refused"] else "none")}'
        for top, cell in site['tops'].items())
    counts = [sum(len(group['tops']) for group in site['groups'][run]) for run in (ONE_JAR, PARTITIONED)]
    marks = (f'embedded under {len(site["tops"])}; recognises across {counts[0]} with one jar, '
             f'{counts[1]} with partitions')
    return (f'<details><summary><b>{escaped(domain)}</b> <small>{marks}</small></summary>'
            f'<p>One jar: {escaped(groups_text(site, ONE_JAR))}.<br>'
            f'Partitioned: {escaped(groups_text(site, PARTITIONED))}.</p>'
            '<div class=scroll tabindex=0><table class=list><thead><tr><th>under<th>requests<th>one jar<th>own partition'
            f'<th>by grant<th>Set-Cookie refused</thead><tbody>{rows}</tbody></table></div></details>\n')


def counted_list(found, meanings):
    """Counts with what they mean."""
    return '<ul>' + ''.join(
        f'<li><b>{count}</b> <code>{escaped(name)}</code>'
        + (f': {escaped(meanings[name])}' if name in meanings else '')
        for name, count in found.items()) + '</ul>'


def difference_row(it):
    """One request whose header differs."""
    return (f'<tr><td>{escaped(it["code"])}<td>{escaped(it["from"])}<td>{escaped(it["url"])}'
            f'<td>{escaped(short(it["top"]))}<td>{escaped(listed(it["sent_only"]))}'
            f'<td>{escaped(listed(it["predicted_only"]))}')


def trust_part(found):
    """How far the page can be trusted."""
    named = found['partitions']
    told = (f'<p>{named["as_converted"]} of {named["named"]} partitions that the browser names are as converted.'
            if named['named'] else '')
    beside = tables.one_jar(found)
    one_jar = f'<p>The run with one jar: {escaped(beside)}.' if beside else ''
    lost = counted_list(found['lost'], codes.LOSSES) if found['lost'] else '<p>All was carried over.'
    rows = ''.join(map(difference_row, found['differences']))
    table = (f'<details><summary>{len(found["differences"])} requests whose header is not the recorded one to the letter'
             '</summary><div class=scroll tabindex=0><table class=list><thead><tr><th>code<th>entry<th>address<th>under'
             f'<th>sent and not predicted<th>predicted and not sent</thead><tbody>{rows}</tbody></table></div></details>'
             if rows else '')
    return (f'<h2>How far this can be trusted</h2>\n'
            '<p>The partitioned run is the program’s answer to the script that was made of the recording. Each '
            '<code>Cookie</code> header that it predicts was compared with the recorded one:</p>'
            f'{counted_list(found["check"], codes.EXPLANATIONS)}{told}{table}'
            f'{one_jar}'
            f'<h3>Not carried over, or not as it was</h3>{lost}<p>{escaped(found["never"])}</p>'
            '<h3>What this page can’t say</h3><p>The recording’s servers answered to the browser that they met; with other '
            'cookies they would have answered otherwise. Links by parameters of addresses, by a login, by network address '
            'or by fingerprint are not in it. That the program keeps partitions apart is proved; that the script is what '
            'the browser did is this tool’s reading of the recording.</p>')


def about(found):
    """What was recorded."""
    it = found['recording']
    began = datetime.datetime(1970, 1, 1) + datetime.timedelta(seconds=it['start'])
    files = ', '.join(it['files'])
    redacted = '; values of cookies were replaced, and queries cut' if it['redacted'] else ''
    return (f'<p class=note>{escaped(files)}: {it["requests"]} requests from {began:%Y-%m-%d %H:%M:%S} UTC on, '
            f'browser {escaped(it["browser"])}, third-party cookies {escaped(it["setting"])}{redacted}.')


def page(found):
    """The whole page."""
    sites = ''.join(site_part(domain, site) for domain, site in sorted(found['sites'].items(), key=by_reach))
    return (
        '<!doctype html>\n<html lang=en><meta charset=utf-8>\n'
        '<meta http-equiv=Content-Security-Policy content="default-src \'none\'; style-src \'unsafe-inline\'">\n'
        '<meta name=viewport content="width=device-width, initial-scale=1"><meta name=referrer content=no-referrer>\n'
        f'<title>Who could recognise whom</title>\n<style>{STYLE}</style>\n'
        f'<main><h1>Who could recognise whom</h1>{about(found)}\n<p class=sentence>{escaped(sentence(found))}.</p>\n'
        f'{matrix_part(found)}\n{graph_part(found)}\n<h2>Each embedded site</h2>{sites}\n{trust_part(found)}</main></html>\n')
