"""Requests of a recording as lines of a script."""
import bisect
import heapq

from . import addresses, contexts
from .guesses import Guesses
from .output import LONGEST_LINE, compact
from .requests import FRAME, TOP

METHODS = ('GET', 'HEAD', 'OPTIONS', 'POST', 'PUT', 'DELETE', 'PATCH')
MOST_HEADERS = 64
LAST_TAB, OPENER_TAB, SPARE_TAB = 65533, 65534, 65535
# The last number of a frame is kept for redirects and for the run with one jar.
LAST_FRAME, SPARE_FRAME = 254, 255
# Stands for a page of another site of which the recording knows nothing.
UNKNOWN_OPENER = 'https://opener.invalid/'


class Document:
    """A document that is open in a tab."""

    __slots__ = ('tab', 'number', 'url', 'parent', 'is_open', 'is_granted')

    def __init__(self, tab, number, url, parent):
        self.tab, self.number, self.url, self.parent = tab, number, url, parent
        self.is_open, self.is_granted = True, False

    def place(self):
        """How a script line names the document."""
        return {'tab': self.tab, **({'frame': self.number} if self.number else {})}


class Tab:
    """The documents that are open in a tab, by the names that the recording has for them."""

    def __init__(self, number):
        self.number = number
        self.documents = {}

    def load(self, name, url):
        """A new top document; all others are gone."""
        for document in self.documents.values():
            document.is_open = False
        self.documents = {name: Document(self.number, 0, url, None)}

    def free_number(self):
        """A number that no frame has, or None."""
        used = {document.number for document in self.documents.values()}
        return next((number for number in range(1, LAST_FRAME + 1) if number not in used), None)

    def remove(self, name):
        """A frame is gone, with all below it."""
        document = self.documents.pop(name)
        document.is_open = False
        for below in [it for it, other in self.documents.items() if other.parent is document]:
            self.remove(below)


class Conversion:
    """Writes the lines of a recording's events, in the order of their moments."""

    def __init__(self, recording, setting, suffixes, output, guess, jar, redaction):
        self.recording, self.setting = recording, setting
        self.suffixes, self.output, self.redaction = suffixes, output, redaction
        self.events = sorted(recording.events, key=lambda event: event.at)
        recording.events = []
        requests = [event for event in self.events if event.kind != 'removal']
        self.start = int(requests[0].at) if requests else 0
        self.now = self.clock = self.start
        self.tabs = {}
        self.waiting = []
        self.began = {}
        for request in requests:
            self.began.setdefault(suffixes.domain_of(request.url), []).append(request.at)
        self.guesses = Guesses(self, requests, guess, jar)

    def run(self):
        """Writes all lines."""
        handlers = {'removal': self.remove, TOP: self.top, FRAME: self.frame, 'resource': self.resource}
        self.events.reverse()
        while self.events:
            event = self.events.pop()
            self.answer_until(event.at)
            self.now = event.at
            if event.kind != 'removal' and event.method not in METHODS:
                self.lose('method', event)
            else:
                handlers[event.kind](event)
        self.answer_until(float('inf'))

    def lose(self, code, request):
        """Notes a code of a request."""
        self.recording.lose(code, request.source)

    def put(self, line, kind, request=None, **item):
        """A line of the script at this moment, with what it came from."""
        second = max(int(self.now), self.clock)
        while second > self.clock:
            step = min(second - self.clock, 1_000_000_000)
            self.clock += step
            self.output.put({'do': 'tick', 's': step}, {'kind': 'clock'})
        if self.redaction:
            line, item = self.redaction.line(line), self.redaction.item(item)
        self.output.put(line, {'kind': kind, **({'from': request.source} if request else {}), **item})

    def chain(self, document):
        """The sites of the documents from the top down to this one."""
        sites = []
        while document:
            sites.append(self.suffixes.site_of(document.url))
            document = document.parent
        return sites[::-1]

    def context(self, chain, url):
        """The partition of a request's cookies."""
        return contexts.context(chain, self.suffixes.site_of(addresses.as_http(url)))

    def told(self, request, chain):
        """What the recording says of a request, for OUT.map."""
        item = {'at': round(request.at, 6), 'sent': request.sent, 'chain': chain}
        if request.answered is not None:
            item['answered'] = round(request.answered, 6)
        for name, value in (('access', request.access), ('partition', request.partition), ('held', request.held),
                            ('credentials_unknown', request.credentials_unknown)):
            if value:
                item[name] = value
        return item

    def heads(self, request):
        """The Set-Cookie texts of the answer that the program can be given."""
        texts = request.set_cookies
        if len(texts) > MOST_HEADERS:
            self.lose('over-64-headers', request)
            texts = texts[:MOST_HEADERS]
        kept = [text for text in texts if not set(text) & {'\0', '\n', '\r'}]
        for _ in range(len(texts) - len(kept)):
            self.lose('bad-header', request)
        return kept

    def is_overlapped(self, request):
        """Whether another request of the domain began between the request and its answer."""
        began = self.began[self.suffixes.domain_of(request.url)]
        return bisect.bisect_left(began, request.answered) > bisect.bisect_right(began, request.at)

    def line(self, do, request, texts, **fields):
        """A line that requests the address."""
        line = {'do': do, **fields, 'url': addresses.as_http(request.url)}
        if request.method != 'GET' and do != 'frame':
            line['method'] = request.method
        if texts:
            line['head'] = [['Set-Cookie', text] for text in texts]
            if len(compact(line).encode('utf-8')) > LONGEST_LINE:
                self.lose('over-1-MiB-line', request)
                del line['head']
        return line

    def top(self, request):
        """The load of a tab's top document, or a redirect of it."""
        texts = self.heads(request)
        if texts and self.is_overlapped(request):
            self.lose('overlap-kept-together', request)
        chain = [self.suffixes.site_of(request.url)]
        self.guesses.before(request, None, chain)
        self.guesses.learn(request, chain, texts)
        tab, told = self.tabs.get(request.tab), self.told(request, chain)
        if request.redirects:
            self.lose('top-redirect-as-tab', request)
            self.open(request, texts, SPARE_TAB, tab, told)
            self.put({'do': 'close', 'tab': SPARE_TAB}, 'aid', request)
            return
        if tab is None:
            if len(self.tabs) == LAST_TAB:
                self.lose('over-65533-tabs', request)
                return
            tab = self.tabs[request.tab] = Tab(len(self.tabs) + 1)
            self.open(request, texts, tab.number, None, told)
        else:
            by = {'by': 'page'} if request.by_page else {}
            self.put(self.line('go', request, texts, tab=tab.number, **by), 'request', request, **told)
        tab.load(request.tab, request.url)

    def open(self, request, texts, number, tab, told):
        """Opens a tab by the user, by the tab that the load is of, or by the one that opened it."""
        opener, is_made = None, False
        if request.by_page:
            opener = tab.number if tab else self.opener(request)
            is_made = opener == OPENER_TAB
        if is_made:
            self.put({'do': 'open', 'tab': OPENER_TAB, 'url': UNKNOWN_OPENER}, 'aid', request)
        fields = {'opener': opener, 'noopener': True} if opener else {}
        self.put(self.line('open', request, texts, tab=number, **fields), 'request', request, **told)
        if is_made:
            self.put({'do': 'close', 'tab': OPENER_TAB}, 'aid', request)

    def opener(self, request):
        """The number of the tab whose page opened another, or None where it makes no difference."""
        if request.opener in self.tabs:
            return self.tabs[request.opener].number
        self.lose('opener-unknown', request)
        origin = addresses.origin_of(request.referrer)
        for name, tab in self.tabs.items():
            if origin and addresses.origin_of(tab.documents[name].url) == origin:
                return tab.number
        return OPENER_TAB if request.site == 'cross-site' else None

    def owner(self, request):
        """The tab and the document that a request came from, or nothing."""
        tab = self.tabs.get(request.tab)
        document = tab.documents.get(request.owner) if tab else None
        if document is None:
            self.lose('no-document', request)
        return tab, document

    def prepare(self, request, document, chain):
        """The texts to set with a request, and whether they are set at its answer."""
        texts = self.heads(request)
        self.guesses.before(request, document, chain)
        self.guesses.learn(request, chain, texts)
        if not texts or not self.is_overlapped(request):
            return texts
        self.lose('split-in-two', request)
        heapq.heappush(self.waiting, (request.answered, self.output.lines, request, document, chain, texts))
        return []

    def frame(self, request):
        """The load of a frame, or a redirect of it."""
        tab, document = self.owner(request)
        if document is None:
            return
        before = tab.documents.get(request.frame)
        number = before.number if before and not request.redirects else tab.free_number()
        if number is None and not request.redirects:
            self.lose('over-255-frames', request)
            return
        chain = self.chain(document)
        told = self.told(request, chain)
        texts = self.prepare(request, document, chain)
        if before and not request.redirects:
            self.put(self.line('nav', request, texts, tab=tab.number, frame=number), 'request', request, **told)
            tab.remove(request.frame)
        else:
            if request.method != 'GET':
                self.lose('frame-method', request)
            number = SPARE_FRAME if request.redirects else number
            parent = {'parent': document.number} if document.number else {}
            self.put(self.line('frame', request, texts, tab=tab.number, frame=number, **parent), 'request', request,
                     **told)
        if request.redirects:
            self.put({'do': 'drop', 'tab': tab.number, 'frame': number}, 'aid', request)
            self.lose('frame-redirect-as-frame', request)
        else:
            tab.documents[request.frame] = Document(tab.number, number, request.url, document)

    def resource(self, request):
        """A request of a document."""
        _, document = self.owner(request)
        if document is None:
            return
        chain = self.chain(document)
        told = self.told(request, chain)
        self.grant(request, document)
        texts = self.prepare(request, document, chain)
        self.put(self.line('fetch', request, texts, **document.place()), 'request', request, **told)

    def grant(self, request, document):
        """Where third-party cookies are blocked, `active` tells that the document was granted access."""
        is_own = addresses.origin_of(document.url) == addresses.origin_of(request.url)
        is_told = self.setting == 'blocked' and request.access == 'active' and is_own
        if is_told and document.number and not document.is_granted:
            document.is_granted = True
            self.lose('grant-inferred', request)
            self.put({'do': 'click', **document.place()}, 'grant', request)
            self.put({'do': 'request', **document.place(), 'answer': 'grant'}, 'grant', request)

    def answer_until(self, moment):
        """The answers that came before a moment and have lines of their own."""
        while self.waiting and self.waiting[0][0] <= moment:
            at, _, request, document, chain, texts = heapq.heappop(self.waiting)
            self.now = at
            if not document.is_open:
                self.lose('answer-after-document', request)
                continue
            line = {'do': 'fetch', **document.place(), 'url': addresses.as_http(request.url),
                    'head': [['Set-Cookie', text] for text in texts]}
            if len(compact(line).encode('utf-8')) > LONGEST_LINE:
                self.lose('over-1-MiB-line', request)
                continue
            self.put(line, 'answer', request, at=round(at, 6), answered=round(at, 6), chain=chain)

    def remove(self, removal):
        """A frame is gone."""
        tab = self.tabs.get(removal.tab)
        document = tab.documents.get(removal.frame) if tab else None
        if document and document.number:
            self.put({'do': 'drop', **document.place()}, 'gone')
            tab.remove(removal.frame)
