"""The word `report`: as a table, as JSON, and as one page."""
import json

from . import findings, pages, tables
from .faults import WRITE, Fault


def run(words, suffixes):
    """Prints the table, and writes what else is asked for."""
    found = findings.report(words, suffixes)
    for line in tables.lines(found):
        print(line)
    if words.json:
        write(words.json, json.dumps(found, indent=1, ensure_ascii=False) + '\n')
    if words.html:
        write(words.html, pages.page(found))
    return 0


def write(path, text):
    """A file of a report."""
    try:
        with open(path, 'w', encoding='utf-8', newline='\n') as file:
            file.write(text)
    except OSError as error:
        raise Fault(WRITE, f'{path}: {error.strerror}') from None
