"""Whether each Cookie header that the program predicts is the recorded one, and if not, what explains it.

An explanation is given cookie by cookie, and only where the replies bear it out:

* a cookie that was sent and not predicted is `sent-to-third-party` only where the browser was set to allow that and
  the program has it in the unpartitioned jar; `kept-by-browser` only where the program refused it as a third party's
  and the browser was set to keep it, or is Firefox and sends it below the site where it was set; `not-in-recording`
  where nothing in the whole recording set it; `timing` where an answer that sets it stands behind the request by at
  most 250 ms, or changed it before it by as much;
* a cookie that was predicted and not sent has the explanation of the one of its name that was sent in its place.
"""
import bisect

from . import contexts, cookies

NEAR = 0.25
STORED = ('added', 'replaced', 'removed')
THIRD_PARTY, SAME_SITE = 'third-party', 'same-site'
# Below whichever site.
ANYWHERE = 'any'


class Set:
    """A Set-Cookie text of the script that came with an answer of this moment."""

    __slots__ = ('at', 'number', 'cell', 'is_stored', 'is_kept_below')

    def __init__(self, at, number, cell, is_stored, is_kept_below):
        self.at, self.number, self.cell = at, number, cell
        self.is_stored, self.is_kept_below = is_stored, is_kept_below


class Sets:
    """What the Set-Cookie texts of a script came to, and the first line at which each of that was so."""

    def __init__(self):
        self.first = {}
        self.by_time = {}

    def note(self, number, *key):
        """Something is so from this line on."""
        self.first.setdefault(key, number)

    def is_before(self, number, *key):
        """Whether something is so before a line."""
        return self.first.get(key, number) < number

    def is_anywhere(self, *key):
        """Whether something is so in any line."""
        return key in self.first

    def sort(self):
        """Orders the texts of each name by their moments."""
        for found in self.by_time.values():
            found.sort(key=lambda it: it.at)

    def near(self, domain, name, moment):
        """The texts of a name whose answers came within 250 ms of a moment."""
        found = self.by_time.get((domain, name), [])
        for place in range(bisect.bisect_left(found, moment - NEAR, key=lambda it: it.at), len(found)):
            if found[place].at > moment + NEAR:
                break
            yield found[place]


class Verdict:
    """The codes of one request, and the cookies that differ."""

    __slots__ = ('step', 'codes', 'missing', 'extra')

    def __init__(self, step, codes, missing, extra):
        self.step, self.codes, self.missing, self.extra = step, codes, missing, extra

    @property
    def code(self):
        """All codes in one text."""
        return '+'.join(sorted(self.codes))


class Judge:
    """Goes through the replies of a script, in two passes: what is set, and then what is sent."""

    def __init__(self, imported, suffixes):
        self.suffixes = suffixes
        self.is_allowed = imported.head['setting'] == 'allowed'
        self.is_firefox = imported.head['browser'] == 'firefox'
        self.steps = imported.steps
        self.sets = Sets()
        for step in self.steps:
            if step.item.get('chain') and 'url' in step.line:
                self.note_sets(step)
        self.sets.sort()

    def domain(self, step):
        """The domain that a line requests."""
        return self.suffixes.domain_of(step.line['url'])

    def context(self, step):
        """The partition of a line's request, by the recording and not by the script."""
        return contexts.context(step.item['chain'], self.suffixes.site_of(step.line['url']))

    def note_sets(self, step):
        """Notes each Set-Cookie text of a line with its reply."""
        context, domain, number = self.context(step), self.domain(step), step.number
        for text, answer in zip(step.texts, step.reply.get('set', [])):
            pair = cookies.pair(text)
            name = cookies.name_of(pair)
            cell = context if cookies.is_partitioned(text) else None
            is_stored, below = answer in STORED, self.kept_below(answer, context[0])
            self.sets.note(number, 'set', domain, pair)
            if is_stored:
                self.sets.note(number, 'stored', domain, pair, cell)
            if below:
                self.sets.note(number, 'kept', domain, pair, below)
                self.sets.note(number, 'kept name', domain, name, below)
            if step.kind in ('guess', 'jar'):
                self.sets.note(number, 'guessed', domain, pair, cell)
            if step.item.get('answered') is not None:
                found = self.sets.by_time.setdefault((domain, name), [])
                found.append(Set(step.item['answered'], number, cell, is_stored, below))

    def kept_below(self, answer, top):
        """Below which site a browser sends a cookie that the program refused: below any, this one, or none."""
        if self.is_firefox:
            return top if answer in (THIRD_PARTY, SAME_SITE) else None
        return ANYWHERE if self.is_allowed and answer == THIRD_PARTY else None

    def below(self, step):
        """The same of a request."""
        return self.context(step)[0] if self.is_firefox else ANYWHERE

    def verdicts(self):
        """A verdict on each request that was recorded."""
        return [self.verdict(step) for step in self.steps if step.kind == 'request']

    def verdict(self, step):
        """Compares one header."""
        sent, predicted = cookies.sent_pairs(step.item['sent']), cookies.sent_pairs(step.reply.get('cookie'))
        if step.reply['is'] != 'ok':
            return Verdict(step, {'UNEXPLAINED'}, sent, [])
        missing = [pair for pair in sent if pair not in predicted]
        extra = [pair for pair in predicted if pair not in sent]
        if not missing and not extra:
            return Verdict(step, {'equal' if sent == predicted else 'order'}, [], [])
        if step.item.get('credentials_unknown') and not sent:
            return Verdict(step, {'credentials-unknown'}, [], extra)
        codes = {pair: self.why_sent(step, pair) for pair in missing}
        in_place = {cookies.name_of(pair): code for pair, code in codes.items()}
        found = set(codes.values())
        for pair in extra:
            found.add(in_place.get(cookies.name_of(pair)) or self.why_not_sent(step, pair))
        return Verdict(step, found, missing, extra)

    def why_sent(self, step, pair):
        """Why a cookie was sent that was not predicted."""
        domain, number, context = self.domain(step), step.number, self.context(step)
        if not self.sets.is_anywhere('set', domain, pair):
            return 'not-in-recording'
        if self.sets.is_before(number, 'kept', domain, pair, self.below(step)):
            return 'kept-by-browser'
        is_in_jar = self.sets.is_before(number, 'stored', domain, pair, None)
        if self.is_allowed and context[1] and is_in_jar:
            return 'sent-to-third-party'
        was_there = is_in_jar or self.sets.is_before(number, 'stored', domain, pair, context)
        return self.by_time(step, pair, was_there)

    def why_not_sent(self, step, pair):
        """Why a cookie was predicted that was not sent."""
        domain, number = self.domain(step), step.number
        if any(self.sets.is_before(number, 'guessed', domain, pair, cell) for cell in (None, self.context(step))):
            return 'guessed-cookie'
        if self.sets.is_before(number, 'kept name', domain, cookies.name_of(pair), self.below(step)):
            return 'kept-by-browser'
        return self.by_time(step, pair, True)

    def by_time(self, step, pair, was_there):
        """Whether answers that are near explain a cookie: a later one, or an earlier one that changed it."""
        for it in self.sets.near(self.domain(step), cookies.name_of(pair), step.item['at']):
            is_read = it.is_stored and it.cell in (None, self.context(step))
            is_known = is_read or (it.is_kept_below and it.is_kept_below == self.below(step))
            if is_known and (it.number > step.number or (was_there and it.number < step.number)):
                return 'timing'
        return 'UNEXPLAINED'
