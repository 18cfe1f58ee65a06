"""Which embedded sites could recognise the visitor, under which top-level sites, and by which cookies."""
import collections

from . import codes, cookies, one_jar
from .checking import counts, partitions, summary
from .judging import Judge
from .runs import Program, replayed

KEPT = ('added', 'replaced')
ONE_JAR, PARTITIONED = 'one_jar', 'partitioned'


class Groups:
    """The top-level sites under which a site could recognise the visitor as the same, and by what."""

    def __init__(self):
        self.groups = []

    def join(self, tops, name):
        """A cookie was there under all these top-level sites."""
        tops, names = set(tops), {name}
        apart = []
        for group, known in self.groups:
            if group & tops:
                tops |= group
                names |= known
            else:
                apart.append((group, known))
        self.groups = [*apart, (tops, names)]

    def told(self):
        """The groups, the largest first."""
        found = [{'tops': sorted(tops), 'by': sorted(names)} for tops, names in self.groups]
        return sorted(found, key=lambda it: (-len(it['tops']), it['tops']))


class Tops(set):
    """Top-level sites under which a value of a cookie was met, and how many of them are in a group."""

    joined = 1


class Run:
    """Where each cookie was met in a run: by domain, cell and name, the top-level sites of each value."""

    def __init__(self):
        self.met = {}
        self.groups = collections.defaultdict(Groups)

    def cell_of(self, domain, pair, context, taken):
        """The cell that a sent cookie came from: the partition's, where one is there and not taken yet."""
        for cell in (context, None):
            found = self.met.get((domain, cell, cookies.name_of(pair)), {})
            if pair in found and (cell, pair) not in taken:
                return cell
        return context if context[1] else None

    def send(self, domain, cell, pair, top):
        """A cookie was sent: whoever set it or got it elsewhere can know the visitor again."""
        tops = self.tops(domain, cell, pair)
        tops.add(top)
        if len(tops) > tops.joined:
            tops.joined = len(tops)
            self.groups[domain].join(tops, cookies.name_of(pair))

    def keep(self, domain, cell, pair, top):
        """A cookie was stored."""
        self.tops(domain, cell, pair).add(top)

    def tops(self, domain, cell, pair):
        """The top-level sites under which a value was met."""
        return self.met.setdefault((domain, cell, cookies.name_of(pair)), {}).setdefault(pair, Tops())

    def remove(self, domain, cell, pair):
        """A cookie is gone."""
        self.met.pop((domain, cell, cookies.name_of(pair)), None)


class Cell:
    """What a site did under one top-level site that is another."""

    def __init__(self):
        self.requests = 0
        self.one_jar, self.partitioned, self.granted, self.stored = set(), set(), set(), set()
        self.refused = collections.Counter()

    def told(self):
        """The cell for a report."""
        return {'requests': self.requests, 'one_jar': sorted(self.one_jar), 'partitioned': sorted(self.partitioned),
                'granted': sorted(self.granted), 'stored': sorted(self.stored), 'refused': dict(self.refused)}


class Findings:
    """Both runs, gone through line by line."""

    def __init__(self, judge, one_jar_replies):
        self.judge = judge
        self.replies = one_jar_replies
        self.runs = {ONE_JAR: Run(), PARTITIONED: Run()}
        self.tops, self.cells = [], {}
        for step in judge.steps:
            if step.item.get('chain') and 'url' in step.line:
                self.take(step)

    def take(self, step):
        """The replies to one line."""
        context, domain = self.judge.context(step), self.judge.domain(step)
        top, is_third = context
        if step.kind == 'request' and top not in self.tops:
            self.tops.append(top)
        cell = self.cells.setdefault((domain, top), Cell()) if is_third else None
        if cell:
            cell.requests += step.kind == 'request'
            self.note_answers(step, cell)
        for name, reply in ((PARTITIONED, step.reply), (ONE_JAR, self.replies.get(step.number, {}))):
            self.take_sent(name, domain, context, reply, cell)
            self.take_set(name, domain, context, step, reply)

    def note_answers(self, step, cell):
        """What became of the Set-Cookie texts of a third party."""
        for text, answer in zip(step.texts, step.reply.get('set', [])):
            if answer in KEPT:
                cell.stored.add(cookies.name_of(cookies.pair(text)))
            elif answer != 'removed':
                cell.refused[answer] += 1

    def take_sent(self, name, domain, context, reply, cell):
        """The cookies that were sent in a run."""
        run, taken = self.runs[name], set()
        for pair in cookies.sent_pairs(reply.get('cookie')):
            origin = run.cell_of(domain, pair, context, taken)
            taken.add((origin, pair))
            run.send(domain, origin, pair, context[0])
            if cell and name == PARTITIONED:
                (cell.partitioned if origin else cell.granted).add(cookies.name_of(pair))
            elif cell and not origin:
                cell.one_jar.add(cookies.name_of(pair))

    def take_set(self, name, domain, context, step, reply):
        """The cookies that were set in a run."""
        for text, answer in zip(step.texts, reply.get('set', [])):
            cell = context if cookies.is_partitioned(text) else None
            pair = cookies.pair(text)
            if answer in KEPT:
                self.runs[name].keep(domain, cell, pair, context[0])
            elif answer == 'removed':
                self.runs[name].remove(domain, cell, pair)

    def sites(self):
        """Each embedded site, with what it did under each top-level site, and its groups."""
        found = {}
        for (domain, top), cell in self.cells.items():
            site = found.setdefault(domain, {'tops': {}, 'groups': {}})
            site['tops'][top] = cell.told()
        for domain, site in found.items():
            for name, run in self.runs.items():
                site['groups'][name] = run.groups[domain].told() if domain in run.groups else []
        return found


def beside_recording(judge, one_jar_replies):
    """The run with one jar against the recorded headers, and against what the browser says that it held back."""
    found = {'equal': 0, 'order': 0, 'other': 0}
    held = {'told': 0, 'sent': 0}
    for step in judge.steps:
        if step.kind != 'request':
            continue
        sent = cookies.sent_pairs(step.item['sent'])
        predicted = cookies.sent_pairs(one_jar_replies.get(step.number, {}).get('cookie'))
        found['equal' if sent == predicted else 'order' if sorted(sent) == sorted(predicted) else 'other'] += 1
        if step.item.get('held'):
            held['told'] += 1
            held['sent'] += set(step.item['held']) <= set(map(cookies.name_of, predicted))
    return {**found, **({'held': held} if held['told'] else {})}


def difference(verdict, with_values):
    """A request whose header differs, for a report."""
    step = verdict.step
    names = (lambda pairs: pairs) if with_values else (lambda pairs: [cookies.name_of(it) for it in pairs])
    return {'code': summary(verdict), 'from': step.item['from'], 'do': step.line['do'], 'url': step.line['url'],
            'top': step.item['chain'][0], 'sent_only': names(verdict.missing), 'predicted_only': names(verdict.extra)}


def report(words, suffixes):
    """All that a report says."""
    program = Program(words.program, words.list)
    imported = replayed(words.out, program)
    judge = Judge(imported, suffixes)
    verdicts = judge.verdicts()
    replies = one_jar.replies(judge, program, imported.start)
    findings = Findings(judge, replies)
    named, otherwise = partitions(judge)
    return {
        'recording': {name: imported.head[name] for name in (
            'browser', 'files', 'redacted', 'requests', 'setting', 'start')},
        'check': counts(verdicts),
        'partitions': {'named': len(named), 'as_converted': len(named) - len(otherwise)},
        'one_jar_beside_recording': beside_recording(judge, replies),
        'lost': imported.head['lost'],
        'never': codes.NEVER,
        'tops': findings.tops,
        'sites': findings.sites(),
        'differences': [difference(it, words.values) for it in verdicts if it.code != 'equal'],
    }


def sentence(found):
    """The report in one sentence."""
    sites = found['sites'].values()
    linking = {name: sum(1 for site in sites if site['groups'][name]) for name in (ONE_JAR, PARTITIONED)}
    by = ' (by granted access)' if linking[PARTITIONED] else ''
    return (f'{linking[ONE_JAR]} of {len(sites)} embedded sites could recognise the visitor across sites with one '
            f'cookie jar; {linking[PARTITIONED]} with partitions{by}')
