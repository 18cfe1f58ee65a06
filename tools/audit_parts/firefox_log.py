"""Recordings as logs of the events of WebDriver BiDi, one JSON object a line, as Firefox sends them."""
import base64
import binascii
import os

from . import addresses, shapes, streams
from .event_logs import Sent, request_of
from .faults import RECORDING, Fault
from .frame_trees import Frames
from .requests import Removal


def headers_of(value):
    """Header fields as BiDi has them."""
    return shapes.Headers((shapes.text(it.get('name')), text_of(it.get('value'))) for it in shapes.items(value))


def text_of(value):
    """A text, which may be written in base 64."""
    text = shapes.text(shapes.member(value, 'value'))
    if shapes.member(value, 'type') != 'base64':
        return text
    try:
        return base64.b64decode(text).decode('utf-8', 'replace')
    except (binascii.Error, ValueError):
        return ''


class Answer:
    """The answer to a request, with what was sent in truth."""

    __slots__ = ('at', 'asked', 'headers', 'is_cached')


class Log:
    """A log, read in one pass."""

    def __init__(self, path, number, recording, allow_no_cookies):
        self.name = os.path.basename(path)
        self.recording = recording
        self.frames = Frames()
        self.openers = {}
        self.sent, self.removals, self.answers, self.last, self.began = [], [], {}, {}, {}
        self.now, self.number = 0.0, 0
        for self.number, event in enumerate(streams.line_values(path), 1):
            self.take(event)
        if not self.sent:
            raise Fault(RECORDING, f'{path}: no entries')
        if not self.has_cookies():
            if not allow_no_cookies:
                raise Fault(RECORDING, f'{path}: no-cookies-in-file')
            recording.lose('no-cookies-in-file', self.name)

    def has_cookies(self):
        """Whether any request or answer has a cookie."""
        return any('cookie' in answer.asked or 'set-cookie' in answer.headers for answer in self.answers.values())

    def take(self, event):
        """One event of the log."""
        method, parameters = shapes.member(event, 'method'), shapes.member(event, 'params')
        if not isinstance(method, str) or not isinstance(parameters, dict):
            return
        at = shapes.number(event.get('t')) or shapes.number(parameters.get('timestamp'))
        self.now = shapes.in_range(at / 1000 if at > 1e11 else at) or self.now
        handle = self.HANDLERS.get(method)
        if handle:
            handle(self, parameters)

    def create_context(self, parameters):
        """A tab, or a frame below another."""
        name, parent = shapes.text(parameters.get('context')), shapes.text(parameters.get('parent'))
        if parent:
            self.frames.parents[name] = parent
        self.openers[name] = shapes.text(parameters.get('originalOpener'))
        self.navigate(parameters)

    def destroy_context(self, parameters):
        """A tab or a frame is gone."""
        frame = shapes.text(parameters.get('context'))
        if frame in self.frames.parents:
            self.removals.append(Removal(self.now, self.frames.root(frame), frame))

    def navigate(self, parameters):
        """A context shows another document."""
        self.frames.urls[shapes.text(parameters.get('context'))] = shapes.text(parameters.get('url'))

    def announce(self, parameters):
        """A request is to be sent."""
        asked = shapes.member(parameters, 'request')
        at = shapes.in_range(shapes.number(shapes.member(asked, 'timings', 'requestTime')) / 1000) or self.now
        url, method = shapes.text(shapes.member(asked, 'url')), shapes.text(shapes.member(asked, 'method'))
        sent = Sent(self.number, self.key(parameters), url, method, at)
        self.began[sent.key] = at
        sent.headers = headers_of(shapes.member(asked, 'headers'))
        sent.is_load = bool(parameters.get('navigation'))
        sent.put(self.frames, shapes.text(parameters.get('context')))
        self.sent.append(sent)

    def receive(self, parameters):
        """The answer has begun, or is complete."""
        key = self.key(parameters)
        answer = Answer()
        answer.at = self.answers[key].at if key in self.answers else self.now
        answer.asked = headers_of(shapes.member(parameters, 'request', 'headers'))
        answer.headers = headers_of(shapes.member(parameters, 'response', 'headers'))
        answer.is_cached = bool(shapes.member(parameters, 'response', 'fromCache'))
        self.answers[key] = answer
        self.last[key[0]] = max(self.last.get(key[0], 0), key[1])

    def key(self, parameters):
        """What names a request: its identifier, and how often it was redirected."""
        name = shapes.text(shapes.member(parameters, 'request', 'request'))
        return name, int(shapes.number(parameters.get('redirectCount')))

    HANDLERS = {
        'browsingContext.contextCreated': create_context,
        'browsingContext.contextDestroyed': destroy_context,
        'browsingContext.navigationCommitted': navigate,
        'browsingContext.load': navigate,
        'network.beforeRequestSent': announce,
        'network.responseStarted': receive,
        'network.responseCompleted': receive,
    }

    def requests(self):
        """The requests of the log, and the ends of frames."""
        yield from self.removals
        for sent in self.sent:
            source = f'{self.name}#{sent.number}'
            answer = self.answers.get(sent.key)
            headers = answer.asked if answer else sent.headers
            code = self.code_of_none(sent, answer, headers)
            if code:
                self.recording.lose(code, source)
                continue
            request = self.request(sent, answer, headers, source)
            if request:
                yield request

    def code_of_none(self, sent, answer, headers):
        """Why a request was not sent with cookies, or None."""
        if not addresses.is_web(sent.url):
            return 'not-http'
        if answer and answer.is_cached:
            return 'from-cache-or-worker'
        if sent.method == 'OPTIONS' and 'access-control-request-method' in headers:
            return 'preflight'
        if not sent.frame:
            return 'no-document'
        return addresses.fault_of(sent.url)

    def request(self, sent, answer, headers, source):
        """The request with its headers, or None where it has no credentials."""
        request = request_of(self.recording, sent, headers, answer and answer.headers, source)
        if request:
            name, hop = sent.key
            request.opener = self.openers.get(sent.tab)
            request.redirects = self.last.get(name, 0) > hop
            if request.set_cookies:
                # That of a redirect was there before the next request began.
                request.answered = min(answer.at, self.began.get((name, hop + 1), answer.at))
        return request
