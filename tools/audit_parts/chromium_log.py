"""Recordings as logs of the events of Chromium's DevTools protocol, one JSON object a line."""
import os

from . import addresses, har_entries, shapes, streams
from .event_logs import Sent, request_of
from .faults import RECORDING, Fault
from .frame_trees import Frames
from .requests import Removal


class Extra:
    """What was sent or received in truth: headers, and what became of the cookies."""

    __slots__ = ('at', 'headers', 'is_preflight', 'partition', 'held', 'has_cookies')


class Log:
    """A log, read in one pass."""

    def __init__(self, path, number, recording, allow_no_cookies):
        self.name = os.path.basename(path)
        self.recording = recording
        self.frames = Frames()
        self.tabs, self.openers = {}, {}
        self.sent, self.removals = [], []
        self.asked, self.answered, self.hops, self.began = {}, {}, {}, {}
        self.now, self.clock, self.number = 0.0, None, 0
        for self.number, event in enumerate(streams.line_values(path), 1):
            self.take(event)
        if not self.sent:
            raise Fault(RECORDING, f'{path}: no entries')
        if not any(self.asked.values()):
            if not allow_no_cookies:
                raise Fault(RECORDING, f'{path}: no-cookies-in-file')
            recording.lose('no-cookies-in-file', self.name)
        self.leave_out_preflights()

    def take(self, event):
        """One event of the log."""
        method, parameters = shapes.member(event, 'method'), shapes.member(event, 'params')
        if not isinstance(method, str) or not isinstance(parameters, dict):
            return
        self.now = self.moment(event, parameters)
        session = shapes.member(event, 'sessionId')
        handle = self.HANDLERS.get(method)
        if handle:
            handle(self, parameters, session)

    def moment(self, event, parameters):
        """The moment of an event: the log's own, the event's, or that of the one before."""
        at = shapes.number(event.get('t'))
        stamp, wall = shapes.number(parameters.get('timestamp')), shapes.number(parameters.get('wallTime'))
        if wall and stamp:
            self.clock = wall - stamp
        if not at and stamp and self.clock is not None:
            at = stamp + self.clock
        return shapes.in_range(at / 1000 if at > 1e11 else at) or self.now

    def attach_target(self, parameters, session):
        """A page, or a frame or a worker of one."""
        target = shapes.member(parameters, 'targetInfo')
        name = shapes.text(shapes.member(parameters, 'sessionId'))
        if shapes.member(target, 'type') == 'page':
            self.tabs[name] = shapes.text(shapes.member(target, 'targetId'))
            self.openers[self.tabs[name]] = shapes.text(shapes.member(target, 'openerId'))
        else:
            self.tabs[name] = self.tabs.get(session)

    def attach_frame(self, parameters, session):
        """A frame below another."""
        self.frames.parents[shapes.text(parameters.get('frameId'))] = shapes.text(parameters.get('parentFrameId'))

    def detach_frame(self, parameters, session):
        """A frame is gone, and not only moved to another process."""
        frame = shapes.text(parameters.get('frameId'))
        if parameters.get('reason') != 'swap':
            self.removals.append(Removal(self.now, self.frames.root(frame), frame))

    def navigate_frame(self, parameters, session):
        """A frame shows another document."""
        frame = shapes.text(shapes.member(parameters, 'frame', 'id'))
        self.frames.urls[frame] = shapes.text(shapes.member(parameters, 'frame', 'url'))
        parent = shapes.text(shapes.member(parameters, 'frame', 'parentId'))
        if parent:
            self.frames.parents[frame] = parent

    def announce(self, parameters, session):
        """A request is to be sent."""
        name, asked = shapes.text(parameters.get('requestId')), shapes.member(parameters, 'request')
        key = name, self.hops.get(name, 0)
        at = shapes.in_range(shapes.number(parameters.get('wallTime'))) or self.now
        url, method = shapes.text(shapes.member(asked, 'url')), shapes.text(shapes.member(asked, 'method'))
        sent = Sent(self.number, key, url, method, at)
        if addresses.is_web(url):
            self.hops[name] = key[1] + 1
        self.began[key] = at
        sent.is_preflight = parameters.get('type') == 'Preflight'
        sent.is_load = parameters.get('type') == 'Document' and parameters.get('loaderId') == name
        sent.put(self.frames, shapes.text(parameters.get('frameId')) or self.tabs.get(session))
        self.sent.append(sent)

    def open_socket(self, parameters, session):
        """A web socket, of which the log does not say which frame opened it."""
        self.recording.lose('no-document', f'{self.name}#{self.number}')

    def send(self, parameters, session):
        """The headers that were sent."""
        extra = self.extra(parameters)
        cookies = shapes.items(parameters.get('associatedCookies'))
        extra.is_preflight = 'access-control-request-method' in extra.headers
        extra.has_cookies = bool(cookies)
        extra.held = tuple(shapes.text(shapes.member(it, 'cookie', 'name')) for it in cookies
                           if it.get('blockedReasons') == ['UserPreferences'])
        self.asked.setdefault(shapes.text(parameters.get('requestId')), []).append(extra)

    def receive(self, parameters, session):
        """The headers that were received."""
        extra = self.extra(parameters)
        extra.partition = har_entries.partition_key(parameters.get('cookiePartitionKey'))
        self.answered.setdefault(shapes.text(parameters.get('requestId')), []).append(extra)

    def extra(self, parameters):
        """Headers with their moment."""
        extra = Extra()
        extra.at, extra.headers = self.now, shapes.Headers.of_object(parameters.get('headers'))
        extra.is_preflight, extra.partition, extra.held = False, None, None
        return extra

    HANDLERS = {
        'Target.attachedToTarget': attach_target,
        'Page.frameAttached': attach_frame,
        'Page.frameDetached': detach_frame,
        'Page.frameNavigated': navigate_frame,
        'Network.requestWillBeSent': announce,
        'Network.requestWillBeSentExtraInfo': send,
        'Network.responseReceivedExtraInfo': receive,
        'Network.webSocketCreated': open_socket,
    }

    def leave_out_preflights(self):
        """Takes out the headers of a preflight, which stand under the name of the request behind it, too."""
        for name, asked in self.asked.items():
            kept = [place for place, extra in enumerate(asked) if not extra.is_preflight]
            if len(kept) < len(asked):
                answered = self.answered.get(name, [])
                self.answered[name] = [extra for place, extra in enumerate(answered)
                                       if place in kept or place >= len(asked)]
                self.asked[name] = [asked[place] for place in kept]

    def requests(self):
        """The requests of the log, and the ends of frames."""
        yield from self.removals
        for sent in self.sent:
            source = f'{self.name}#{sent.number}'
            asked, answered = self.extras(self.asked, sent), self.extras(self.answered, sent)
            code = self.code_of_none(sent, asked)
            if code:
                self.recording.lose(code, source)
                continue
            request = self.request(sent, asked, answered, source)
            if request:
                yield request

    def extras(self, extras, sent):
        """What was sent or received in truth for this hop of a request, or None."""
        name, hop = sent.key
        found = extras.get(name, [])
        return found[hop] if hop < len(found) else None

    def code_of_none(self, sent, asked):
        """Why a request was not sent with cookies, or None."""
        if not addresses.is_web(sent.url):
            return 'not-http'
        if sent.is_preflight:
            return 'preflight'
        if not asked:
            return 'from-cache-or-worker'
        if not sent.frame:
            return 'no-document'
        return addresses.fault_of(sent.url)

    def request(self, sent, asked, answered, source):
        """The request with its headers, or None where it has no credentials."""
        request = request_of(self.recording, sent, asked.headers, answered and answered.headers, source,
                             asked.has_cookies)
        if request:
            name, hop = sent.key
            request.opener = self.openers.get(sent.tab)
            request.held = asked.held or None
            request.redirects = hop + 1 < min(len(self.asked[name]), self.hops[name])
            request.partition = answered and answered.partition
            if request.set_cookies:
                # An answer is told later, mostly; that of a redirect was there before the next request began.
                request.answered = min(answered.at, self.began.get((name, hop + 1), answered.at))
        return request
