"""The word `import`: recordings in, a script and its map out."""
import os
import sys

from . import chromium_log, codes, firefox_log, har, shapes, streams
from .conversion import Conversion
from .faults import READ, RECORDING, Fault
from .jars import Jar
from .output import Output
from .redaction import Redaction
from .requests import Recording

VERSION = 1
# What a HAR, or the log in it, begins with.
OF_HAR = {'log', 'version', 'creator', 'browser', 'pages', 'entries', 'comment'}
FIRST_BLOCK = 4096


def kind_of(path):
    """Which reader takes a file, told by what is in it."""
    with streams.open_file(path) as file:
        name = first_name(file)
    if name is None or name in OF_HAR:
        return har.File
    for value in streams.line_values(path):
        domain, _, _ = shapes.text(shapes.member(value, 'method')).partition('.')
        if domain in ('network', 'browsingContext'):
            return firefox_log.Log
        if domain in ('Network', 'Page', 'Target'):
            return chromium_log.Log
    return har.File


def first_name(file):
    """The name of the first member of the object that a file begins with, or None."""
    try:
        return next(streams.Reader(file, FIRST_BLOCK).members(), None)
    except (streams.NotJson, streams.CutOff):
        return None


def read(paths, allow_no_cookies):
    """What some files recorded."""
    recording = Recording()
    for number, path in enumerate(paths):
        recording.files.append(os.path.basename(path))
        try:
            file = kind_of(path)(path, number, recording, allow_no_cookies)
        except OSError as error:
            raise Fault(READ, f'{path}: {error.strerror}') from None
        recording.events.extend(file.requests())
    return recording


def run(words, suffixes):
    """Imports recordings, and tells what was lost."""
    recording = read(words.files, words.allow_no_cookies)
    jar = Jar.read(words.jar, suffixes) if words.jar else None
    setting, browser = words.setting or recording.setting(), recording.browser()
    output = Output(words.out)
    try:
        redaction = Redaction() if words.redact else None
        conversion = Conversion(recording, setting, suffixes, output, words.guess, jar, redaction)
        conversion.run()
        if not output.requests:
            raise Fault(RECORDING, f'{words.files[0]}: no entries')
        lost = counts(recording.losses)
        head = {'audit': VERSION, 'browser': browser, 'files': recording.files, 'lost': lost,
                'redacted': words.redact, 'requests': output.requests, 'setting': setting, 'start': conversion.start}
        output.finish(head, recording.losses)
    finally:
        output.close()
    print(f'{words.out}.script: {output.lines} lines of {output.requests} requests; '
          f'browser {browser}, third-party cookies {setting}', file=sys.stderr)
    for line in codes.told(lost):
        print(f'  {line}', file=sys.stderr)
    return 0


def counts(losses):
    """How often each code was met, in the order of the codes."""
    found = {}
    for code, _ in losses:
        found[code] = found.get(code, 0) + 1
    return {code: found[code] for code in codes.LOSSES if code in found}
