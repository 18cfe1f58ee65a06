"""What a recording is read into: requests and the ends of documents, each with its moment."""
from . import addresses

TOP, FRAME, RESOURCE = 'top', 'frame', 'resource'


class Request:
    """One request that was sent, and its answer.

    `frame` is the name of the document that a frame's load makes, or that makes a resource's request; `parent` that
    of the document above a frame. The names are the recording's own, and one tab's top document has the tab's name.
    """

    __slots__ = ('kind', 'at', 'tab', 'frame', 'parent', 'url', 'method', 'sent', 'source', 'by_page', 'opener',
                 'redirects', 'site', 'referrer', 'access', 'partition', 'held', 'credentials_unknown', 'answered',
                 'set_cookies')

    def __init__(self, kind, at, tab, url, method, source):
        self.kind, self.at, self.tab, self.url, self.method, self.source = kind, at, tab, url, method, source
        self.frame = self.parent = self.opener = None
        self.sent = None
        self.by_page = self.redirects = self.credentials_unknown = False
        self.site = self.referrer = self.access = ''
        self.partition = self.held = None
        self.answered, self.set_cookies = None, ()

    @property
    def owner(self):
        """The document that makes the request, or that embeds the frame."""
        return self.parent if self.kind == FRAME else self.frame


class Removal:
    """A frame is gone."""

    __slots__ = ('at', 'tab', 'frame')
    kind = 'removal'

    def __init__(self, at, tab, frame):
        self.at, self.tab, self.frame = at, tab, frame


class Recording:
    """What was read of some files."""

    def __init__(self):
        self.events = []
        self.losses = []
        self.agents = {'firefox': 0, 'chromium': 0}
        self.files = []

    def lose(self, code, source):
        """Notes that something was not carried over, or was carried over in a way that is told."""
        self.losses.append((code, source))

    def met(self, agent):
        """Counts a User-Agent header."""
        for name, mark in (('firefox', 'Firefox/'), ('chromium', 'Chrome/')):
            if mark in agent:
                self.agents[name] += 1

    def browser(self):
        """The family of the browser that was recorded."""
        name = max(self.agents, key=self.agents.get)
        return name if self.agents[name] else 'unknown'

    def setting(self):
        """Whether third-party cookies were blocked, and what tells it."""
        told = {event.access for event in self.events if event.kind != Removal.kind}
        if 'none' in told:
            return 'blocked'
        return 'allowed' if 'active' in told else 'unknown'


def is_uncredentialed(request, document, mode, allows):
    """Whether a request is one by CORS to another origin, whose answer does not allow credentials."""
    return is_to_other_origin(request, document, mode) and not allows


def is_to_other_origin(request, document, mode):
    """Whether a request is one by CORS to another origin than its document's."""
    return mode == 'cors' and bool(document) and addresses.origin_of(request.url) != addresses.origin_of(document)


def starts_by_page(site, referrer):
    """Whether a page started a load, and not the user, by its Sec-Fetch-Site and Referer."""
    return site not in ('', 'none') or bool(referrer)
