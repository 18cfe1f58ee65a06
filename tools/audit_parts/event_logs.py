"""What the logs of both protocols share: requests are announced, and what was sent in truth is told apart from that."""
from .requests import FRAME, RESOURCE, TOP, Request, is_to_other_origin, is_uncredentialed, starts_by_page


class Sent:
    """A request as it was announced."""

    __slots__ = ('number', 'key', 'url', 'method', 'at', 'is_load', 'frame', 'tab', 'parent', 'document', 'is_local',
                 'headers', 'is_preflight')

    def __init__(self, number, key, url, method, at):
        self.number, self.key, self.url, self.method, self.at = number, key, url, method, at
        self.is_load = self.is_local = self.is_preflight = False
        self.frame, self.tab, self.parent, self.document, self.headers = None, None, None, '', None

    def put(self, frames, frame):
        """The request was made in a frame: by its load, or by the document that it shows."""
        self.frame, self.tab, self.parent = frame, frames.root(frame), frames.parents.get(frame)
        if frame and not self.is_load:
            self.frame, self.is_local = frames.with_address(frame)
            self.document = frames.urls.get(self.frame, '')


def request_of(recording, sent, asked, answered, source, has_cookies=False):
    """The request with its headers and those of its answer, or None where it has no credentials.

    `has_cookies` says that the log names cookies for the request, so that it had credentials for certain.
    """
    kind = RESOURCE if not sent.is_load else TOP if sent.frame == sent.tab else FRAME
    request = Request(kind, sent.at, sent.tab, sent.url, sent.method, source)
    request.frame, request.parent = sent.frame, sent.parent if kind == FRAME else None
    request.sent, request.access = asked.cookies(), asked.first('sec-fetch-storage-access')
    request.site, request.referrer = asked.first('sec-fetch-site'), asked.first('referer')
    request.by_page = starts_by_page(request.site, request.referrer)
    recording.met(asked.first('user-agent'))
    if sent.is_local:
        recording.lose('local-document', source)
    if kind == RESOURCE and not has_cookies:
        mode = asked.first('sec-fetch-mode')
        if is_uncredentialed(request, sent.document, mode, bool(answered) and answered.allows_credentials()):
            recording.lose('uncredentialed', source)
            return None
        request.credentials_unknown = is_to_other_origin(request, sent.document, mode)
    if answered:
        request.set_cookies = answered.set_cookies()
    return request
