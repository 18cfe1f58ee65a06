"""The script of the runs, and what has to be in the store behind each of its lines."""
import json
from dataclasses import dataclass

LIST = ''.join(f'// {"-" * 90}\n' for _ in range(50)) + 'test\nco.test\n'
BATCH, CHECKPOINT = 3, 4
OPTIONS = ['--batch', str(BATCH), '--checkpoint', str(CHECKPOINT)]
DOWN = {'is': 'down', 'site': None}


@dataclass
class Line:
    """A line of the script, and the members of a row that it puts into the store or, with `gone`, takes out of it."""
    text: str
    do: str
    row: dict = None
    gone: bool = False


def line(do, row=None, gone=False, **members):
    return Line(json.dumps({'do': do, **members}, separators=(',', ':')), do, row, gone)


def pair(top, key, value=None):
    return {'row': 'area', 'top': top, 'key': key} | ({} if value is None else {'value': value})


def cookie(name):
    return {'row': 'cookie', 'name': name}


def epoch(number):
    """The lines from one restart to the next. A batch ends with the last one, so that none waits at the restart."""
    top, frame, other = (f'https://{name}{number}.test' for name in ('a', 'w', 'o'))
    lasting = 'Path=/; Secure; Max-Age=100000'
    return [
        line('open', cookie(f'h{number}'), tab=1, url=f'{top}/x', head=[['Set-Cookie', f'h{number}=1; {lasting}']]),
        line('open', tab=2, url=f'{top}/y', head=[['X-Padding', 'p' * 700]]),
        line('set', pair(top, f'k{number}', 'v' * 50), tab=1, key=f'k{number}', value='v' * 50),
        line('events', tab=2),
        line('setcookie', cookie(f's{number}'), tab=1, text=f's{number}=2; {lasting}'),
        line('set', tab=1, key='gone', value='v'),
        line('del', pair(top, 'gone'), gone=True, tab=1, key='gone'),
        line('frame', tab=1, frame=1, url=f'{frame}/'),
        line('click', tab=1, frame=1),
        line('request', {'row': 'grant', 'site': frame, 'top': top, 'granted': True}, tab=1, frame=1, answer='grant'),
        line('set', pair(top, f'f{number}', 'w'), tab=1, frame=1, key=f'f{number}', value='w'),
        line('fetch', cookie(f'p{number}'), tab=1, frame=1, url=f'{frame}/z',
             head=[['Set-Cookie', f'p{number}=3; {lasting}; SameSite=None; Partitioned']]),
        line('set', tab=2, area='session', key='s', value='t'),
        line('tick', s=60),
        line('persist', {'row': 'mode', 'top': top, 'origin': top}, tab=1, answer='grant'),
        line('get', tab=2, key=f'k{number}'),
        line('go', tab=2, url=f'{other}/'),
        line('set', tab=2, key='evicted', value='v'),
        line('evict', pair(other, 'evicted'), gone=True, site=other),
        line('cookie', tab=1),
        line('estimate', tab=1),
    ]


def lines_of(epochs):
    """So many epochs with a restart between each two."""
    found = []
    for number in range(epochs):
        found += [line('restart')] * (number > 0) + epoch(number)
    return found


def script_of(lines):
    return ''.join(f'{line.text}\n' for line in lines)


def is_row(row, members):
    return all(row.get(name) == value for name, value in members.items())


def whole_lines(out):
    """The replies of an output, or what is wrong with it."""
    if out and not out.endswith(b'\n'):
        return None, f'ends with a part of a line: {out[-60:]!r}'
    try:
        return [json.loads(text) for text in out.splitlines()], None
    except ValueError:
        return None, f'prints a line that is no reply: {out[-200:]!r}'


class Wanted:
    """What a run has to print and to keep, by its script and by what it prints where nothing fails."""

    def __init__(self, lines, true):
        self.lines, self.true = lines, true
        self.replies = true.splitlines(keepends=True)

    def printed(self, out, status):
        """What is wrong with what a run printed: whole lines, the true ones up to the first that is `down`, from there on
        one for each line of the script, and status 8 exactly where no restart brings it up again."""
        replies, wrong = whole_lines(out)
        if wrong:
            return wrong
        texts = out.splitlines(keepends=True)
        first = next((n for n, reply in enumerate(replies) if reply.get('is') == 'down'), None)
        front = len(texts) if first is None else first
        if texts[:front] != self.replies[:front]:
            return 'prints what is no part of the true replies from the start'
        if status == 0 and first is None and front < len(self.replies):
            return f'ends with 0, and {len(self.replies) - front} replies are missing'
        return None if first is None else self.behind(replies, first, status)

    def behind(self, replies, first, status):
        if status in (0, 8):
            for reply, place in self.placed(replies, first):
                if place < first or reply['do'] != self.lines[place].do:
                    return f'reply {reply} stands for no line'
                if reply['is'] == 'down' and set(reply) != {'do', 'is', 'site'}:
                    return f'reply {reply} is no down line'
        # A reply behind a restart that was made stands for an agent that is up.
        up = False
        for reply in replies[first:]:
            if (reply['is'] == 'down') == up and reply['do'] != 'restart':
                return f'reply {reply} where the agent is {"up" if up else "down"}'
            up = reply['is'] != 'down' if reply['do'] == 'restart' else up
        if status in (0, 8) and (status == 0) != up:
            return f'ends with {status}, and the agent is {"up" if up else "down"} at the end'
        return None

    def placed(self, replies, first):
        """Each reply from the first down line on, with the number of its line: they are the script's last ones."""
        return [(reply, len(self.lines) - len(replies) + n) for n, reply in enumerate(replies) if n >= first]

    def acknowledged(self, out, status):
        """The lines whose replies were printed and say that they ran."""
        replies, _ = whole_lines(out[:out.rfind(b'\n') + 1])
        replies = replies or []
        first = next((n for n, reply in enumerate(replies) if reply.get('is') == 'down'), len(replies))
        front = list(enumerate(replies[:first]))
        back = [(place, reply) for reply, place in self.placed(replies, first)] if status in (0, 8) else []
        return [self.lines[place] for place, reply in front + back if reply['is'] in ('ok', 'granted')]

    def kept(self, out, status, rows):
        """What is wrong with the rows of a store behind a run."""
        for told in self.acknowledged(out, status):
            if told.row and any(is_row(row, told.row) for row in rows) == told.gone:
                return f'was acknowledged and is {"there still" if told.gone else "lost"}: {told.text}'
        for row in rows:
            if not (row['row'] != 'area' or row['key'] in ('gone', 'evicted') or any(
                    told.row and not told.gone and is_row(row, told.row) for told in self.lines)):
                return f'a row that no line wrote: {row}'
        return None
