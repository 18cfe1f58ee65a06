"""Cookies that were sent and that nothing in the recording set: of scripts, or of the time before it."""
from . import addresses, cookies

SPARE_TAB = 65535


class Guesses:
    """What the recording is known to have set, and what has to be guessed beyond it."""

    def __init__(self, conversion, requests, guess, jar):
        self.conversion, self.guess, self.jar = conversion, guess, jar
        self.domain_of = conversion.suffixes.domain_of
        # Texts of the whole recording, and names with their cells up to here; a cell is None or a partition.
        self.recorded = {(self.domain_of(request.url), cookies.pair(text))
                         for request in requests for text in request.set_cookies}
        self.known = {}

    def cells(self, request, chain, is_granted):
        """The cells whose cookies a request may be sent with."""
        partition = self.conversion.context(chain, request.url)
        is_third = partition[1]
        is_blocked = self.conversion.setting == 'blocked' and request.access != 'active' and not is_granted
        return [partition] if is_third and is_blocked else [partition, None]

    def learn(self, request, chain, texts):
        """Notes what an answer sets."""
        domain = self.domain_of(request.url)
        cells = self.cells(request, chain, False)
        for text in texts:
            pair = cookies.pair(text)
            in_partition = cookies.is_partitioned(text) or None not in cells
            self.known[domain, cookies.name_of(pair), cells[0] if in_partition else None] = pair

    def before(self, request, document, chain):
        """Notes each cookie of a request that nothing has set, and sets it where that is asked for."""
        cells = self.cells(request, chain, bool(document) and document.is_granted)
        domain = self.domain_of(request.url)
        for pair in cookies.sent_pairs(request.sent):
            name = cookies.name_of(pair)
            known = [self.known[domain, name, cell] for cell in cells if (domain, name, cell) in self.known]
            if known and (pair in known or (domain, pair) in self.recorded):
                continue
            self.conversion.lose('cookie-of-unknown-origin', request)
            cell = None if None in cells else cells[0]
            self.known[domain, name, cell] = pair
            text, kind = self.text(request, pair, cell, self.conversion.context(chain, request.url)[1])
            if text:
                self.set(request, document, chain, text, kind, cell)

    def text(self, request, pair, cell, is_third):
        """The Set-Cookie text for a cookie: out of the jar, or as it is guessed, or None."""
        text = self.jar.text(request.url, pair, cell) if self.jar else None
        if text:
            return text, 'jar'
        if not self.guess:
            return None, None
        text = f'{pair}; Path=/'
        if addresses.as_http(request.url)[:5].lower() == 'https':
            text += '; Secure'
        if is_third:
            text += '; SameSite=None'
        if cell:
            text += '; Partitioned'
        return text, 'guess'

    def set(self, request, document, chain, text, kind, cell):
        """The line that sets a cookie: in a partition by the document itself, else by a tab of its own site."""
        head = [['Set-Cookie', text]]
        url = addresses.as_http(request.url)
        if cell and document:
            self.conversion.put({'do': 'fetch', **document.place(), 'url': url, 'head': head}, kind, request,
                                chain=chain)
            return
        site = self.conversion.suffixes.site_of(request.url)
        url = url if self.jar else addresses.origin_of(url) + '/'
        self.conversion.put({'do': 'open', 'tab': SPARE_TAB, 'url': url, 'head': head}, kind, request, chain=[site])
        self.conversion.put({'do': 'close', 'tab': SPARE_TAB}, 'aid', request)
