"""The two files that an import writes: OUT.script, and OUT.map with one line for each of the script's."""
import json
import os
import shutil

from .faults import RECORDING, WRITE, Fault

LONGEST_SCRIPT = 16_777_216
LONGEST_LINE = 1_048_576


def compact(value):
    """JSON in one line, in the alphabet of the text."""
    return json.dumps(value, separators=(',', ':'), ensure_ascii=False)


class Output:
    """Both files as they are written; they stand under their names only when all is done."""

    def __init__(self, out):
        self.script_path, self.map_path = out + '.script', out + '.map'
        self.parts = [f'{self.script_path}.part', f'{self.map_path}.part', f'{self.map_path}.whole']
        self.lines = self.length = self.requests = 0
        try:
            self.script = open(self.parts[0], 'w', encoding='utf-8', newline='\n')
            self.map = open(self.parts[1], 'w', encoding='utf-8', newline='\n')
        except OSError as error:
            raise Fault(WRITE, f'{error.filename}: {error.strerror}') from None

    def put(self, line, item):
        """A line of the script, and what it came from."""
        text = compact(line)
        self.length += len(text.encode('utf-8')) + 1
        if self.length > LONGEST_SCRIPT:
            raise Fault(RECORDING, f'{self.script_path}: too long ({self.requests} requests fit)')
        self.lines += 1
        self.requests += item['kind'] == 'request'
        self.script.write(text + '\n')
        self.map.write(compact({'line': self.lines, **item}) + '\n')

    def finish(self, head, losses):
        """Puts the head before the map and the losses behind it, and gives both files their names."""
        self.script.close()
        for code, source in losses:
            self.map.write(compact({'lost': code, 'from': source}) + '\n')
        self.map.close()
        with open(self.parts[2], 'wb') as whole, open(self.parts[1], 'rb') as items:
            whole.write((compact(head) + '\n').encode('utf-8'))
            shutil.copyfileobj(items, whole)
        os.replace(self.parts[0], self.script_path)
        os.replace(self.parts[2], self.map_path)

    def close(self):
        """Lets the files go, and leaves none of the parts."""
        self.script.close()
        self.map.close()
        for part in self.parts:
            if os.path.exists(part):
                os.remove(part)
