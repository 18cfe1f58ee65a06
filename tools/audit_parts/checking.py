"""The word `check`: each predicted Cookie header against the recorded one."""
import collections

from . import codes, cookies
from .faults import UNEXPLAINED
from .judging import Judge
from .runs import Program, replayed


def counts(verdicts):
    """How many requests have each set of codes, the frequent first."""
    found = collections.Counter(summary(verdict) for verdict in verdicts)
    return dict(sorted(found.items(), key=lambda it: (-it[1], it[0])))


def summary(verdict):
    """The codes of a request; what is unexplained hides all others."""
    return 'UNEXPLAINED' if 'UNEXPLAINED' in verdict.codes else verdict.code


def partitions(judge):
    """The requests whose partition key the browser names, and those of them that were converted otherwise."""
    told = [step for step in judge.steps if step.item.get('partition')]
    return told, [step for step in told if tuple(step.item['partition']) != judge.context(step)]


def shown(text):
    """A text of a recording without characters that a terminal would act upon."""
    return ''.join(it if it.isprintable() else it.encode('unicode_escape').decode('ascii') for it in text)


def names(pairs, with_values):
    """Cookies, by their names or as they are sent."""
    return shown(', '.join(it if with_values else cookies.name_of(it) or '(no name)' for it in pairs)) or '-'


def line_of(verdict, with_values):
    """One request that differs, in one line."""
    step = verdict.step
    parts = [verdict.code, step.item['from'], step.line['do'], step.line['url'], f'under {step.item["chain"][0]}']
    if step.reply['is'] != 'ok':
        parts.append(f'answered {step.reply["is"]}')
    return (shown(' '.join(parts)) + f'; sent and not predicted: {names(verdict.missing, with_values)}'
            f'; predicted and not sent: {names(verdict.extra, with_values)}')


def run(words, suffixes):
    """Prints what the headers come to; status 1 where one is unexplained."""
    imported = replayed(words.out, Program(words.program, words.list))
    judge = Judge(imported, suffixes)
    verdicts = judge.verdicts()
    for line in told(imported, judge, verdicts):
        print(line)
    _, otherwise = partitions(judge)
    for verdict in verdicts:
        if 'UNEXPLAINED' in verdict.codes or (words.all and verdict.code != 'equal'):
            print(line_of(verdict, words.values))
    for step in otherwise:
        site, is_below = step.item['partition']
        print(shown(f'UNEXPLAINED {step.item["from"]} {step.line["url"]}; the browser names the partition of {site}, '
                    f'{"with" if is_below else "without"} a cross-site frame above'))
    if words.all:
        for loss in imported.losses:
            print(shown(f'{loss["lost"]} {loss["from"]}'))
    is_unexplained = otherwise or any('UNEXPLAINED' in verdict.codes for verdict in verdicts)
    return UNEXPLAINED if is_unexplained else 0


def told(imported, judge, verdicts):
    """The counts, as lines."""
    head = imported.head
    with_cookies = sum(1 for verdict in verdicts if verdict.step.item['sent'])
    yield (f'{len(verdicts)} requests, {with_cookies} with a Cookie header; browser {head["browser"]}, '
           f'third-party cookies {head["setting"]}')
    for code, count in counts(verdicts).items():
        meaning = codes.EXPLANATIONS.get(code, '')
        yield f'  {count:5}  {code}' + (f': {meaning}' if meaning else '')
    named, otherwise = partitions(judge)
    if named:
        yield f'  {len(named) - len(otherwise)} of {len(named)} partitions that the browser names are as converted'
    if head['lost']:
        yield 'not carried over, or not as it was:'
        for line in codes.told(head['lost']):
            yield f'  {line}'
