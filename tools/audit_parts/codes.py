"""The codes that say what a recording lacks and what its conversion had to do, each with one sentence."""

LOSSES = {
    'no-cookies-in-file': 'the file has no cookie at all, as one that was exported without sensitive data',
    'bad-entry': 'an entry without an address, a method or a moment that can be read',
    'not-http': 'a request of another scheme than http, https, ws and wss',
    'bad-url': 'an address that the program does not take',
    'url-too-long': 'an address of more than 8,192 bytes',
    'host-ends-with-dot': 'an address whose host ends with a dot',
    'method': 'a request with a method that the program does not have',
    'from-cache-or-worker': 'an answer out of the cache or a service worker, so that no request was sent',
    'headers-unknown': 'a request whose headers the recording does not have',
    'preflight': 'a preflight, which never has cookies',
    'uncredentialed': 'a request to another origin without credentials',
    'background': 'a request of the browser itself, and of no page',
    'no-document': 'a request of no document that the recording knows',
    'before-any-document': 'a request of a tab before its first document',
    'document-guessed': 'more than one document, or none, could have made the request',
    'loaded-ahead': 'an address was loaded ahead, and the recording does not say whether its page was shown',
    'tab-guessed': 'the file names no tabs, and a new one was begun here',
    'opener-unknown': 'a page opened this tab, and the recording does not say which',
    'local-document': 'a document without an address of its own, whose parent stands for it',
    'cookie-of-unknown-origin': 'a cookie was sent that nothing in the recording set there before',
    'grant-inferred': 'storage access was granted before this request, as its headers tell',
    'split-in-two': 'other requests of the domain began before the answer, which has a line of its own',
    'overlap-kept-together': 'the same, of a page\'s own load, whose answer stays with it',
    'answer-after-document': 'the answer came when its document was gone',
    'top-redirect-as-tab': 'a redirect of a page\'s load, made in a tab of its own',
    'frame-redirect-as-frame': 'a redirect of a frame\'s load, made in a frame of its own',
    'frame-method': 'a frame\'s first load with another method than GET',
    'set-cookie-was-folded': 'several Set-Cookie headers stood in one, and were divided',
    'cookie-header-was-folded': 'a Cookie header was joined with commas, and was mended',
    'over-64-headers': 'an answer with more than 64 Set-Cookie headers; the first 64 count',
    'bad-header': 'a Set-Cookie header with a character that a header can\'t have',
    'over-255-frames': 'a tab with more frames than the program has numbers for, of which one is kept free',
    'over-65533-tabs': 'more tabs than the program has numbers for, of which two are kept free',
    'over-1-MiB-line': 'a line of more than 1 MiB, whose Set-Cookie headers were left out',
}

NEVER = 'Never in a recording: sandboxes of frames, calls of storage areas, and cookies that scripts set.'

EXPLANATIONS = {
    'equal': 'the header is the recorded one',
    'order': 'the same cookies in another order',
    'sent-to-third-party': 'the browser sent a cookie of the unpartitioned jar to a third party, as it was set to',
    'kept-by-browser': 'the browser kept a third party\'s cookie that the program refuses',
    'not-in-recording': 'a cookie, or its value, was set nowhere in the recording',
    'timing': 'an answer that sets the cookie came within 250 ms, and the order of both is not known',
    'guessed-cookie': 'a cookie that was guessed to be there was not sent',
    'credentials-unknown': 'nothing was sent to another origin, and the recording does not say if credentials were asked for',
    'UNEXPLAINED': 'none of these',
}


def told(lost):
    """A line for each code that was met."""
    width = max(map(len, lost), default=0)
    return [f'{code:{width}} {count:5}  {LOSSES[code]}' for code, count in lost.items()]
