"""Draws scripts from seeds. The model runs beside, so that a line can be drawn by what the volume has."""

import random

from model import Model
from rows import DIRECTORY, LAST_MOMENT, LONGEST_FILE, ROOT, SYMLINK, TRASH, WINDOW, Refusal, Settings
from script import CLIENTS, print_text

LINES = 60  # the most answers that a scene prints whole
GIB = 1 << 30
LARGEST_NUMBER = (1 << 64) - 1
NAMES = [b'a', b'b', b'c', b'd']
ODD_NAMES = [b'.trash', b'..', b'.', b'n' * 255, b'n' * 256, b'\x80\xff', b'a b', b'%', b'~', b'x' * 250]

# How often an operation is drawn, and by what each of its arguments is: of these values, or by a method below.
OPERATIONS = {
    'mount': (0.5,), 'umount': (0.7,), 'beat': (0.5,), 'statfs': (1,), 'stats': (1,), 'lookup': (1, 'path'),
    'stat': (2, 'path'), 'lstat': (1, 'path'), 'readdir': (1, 'path'), 'readlink': (0.5, 'path'), 'open': (6, 'path'),
    'unlink': (3, 'path'), 'rmdir': (0.5, 'path'), 'mkdir': (0.4, 'new_path', 'mode'),
    'create': (4, 'new_path', 'mode'), 'chmod': (0.3, 'path', 'mode'), 'chown': (0.3, 'path', 'owner', 'owner'),
    'utimes': (0.3, 'path', 'time'), 'symlink': (0.3, 'target', 'new_path'), 'link': (1, 'path', 'new_path'),
    'rename': (2, 'path', 'any_path', 'form'),
    'fstat': (4, 'handle'), 'close': (4, 'handle'), 'flush': (6, 'handle'), 'truncate': (5, 'handle', 'size'),
    'read': (16, 'handle', 'position', 'read_length'), 'write': (22, 'handle', 'position', 'data'),
    'copy': (6, 'handle', 'position', 'handle', 'position', 'copy_length'),
}  # fmt: skip
PATHS = {'path': 0.1, 'any_path': 0.5, 'new_path': 0.85}  # how often one has a new last name
VALUES = {
    'mode': ['0644', '0755', '0000', '7777', '1234'],
    'owner': [0, 5, 4294967295],
    'time': [0, 77, LAST_MOMENT],
    'form': ['', '', '', 'noreplace', 'exchange', 'exchange'],
    'read_length': [0, 1, 9, 20, 30, 100, 65537],
    'copy_length': [0, 1, 3, 5, 9, 20, 60, 4096, 65537, WINDOW, LARGEST_NUMBER],
}
# Most of these are a single step, so that a begin is drawn less often.
SINGLE = {name for name, (_, *arguments) in OPERATIONS.items() if 'handle' not in arguments} - {'umount'}

# How often a theme is drawn, the places in files that it is about, and how it weighs operations otherwise.
START = [0, 0, 0, 65536]
BORDERS = [0, 0, 65536, 131072, WINDOW, WINDOW + 65536, 2 * WINDOW]
THEMES = {
    'names': (6, START, {'mkdir': 15, 'create': 12, 'rename': 25, 'symlink': 10, 'link': 8, 'unlink': 10, 'rmdir': 8,
                         'readdir': 6, 'readlink': 5, 'stat': 6, 'lstat': 4, 'lookup': 4, 'chmod': 4, 'chown': 4,
                         'utimes': 4, 'write': 1, 'read': 1, 'copy': 0.5, 'truncate': 1, 'flush': 0.5}),
    'removed': (4, START, {'unlink': 16, 'rename': 9, 'create': 12, 'open': 14, 'close': 12, 'umount': 2, 'link': 4}),
    'bytes': (4, BORDERS, {}),
    'windows': (3, BORDERS, {'copy': 15, 'truncate': 9}),
    'cache': (2, [0, 20, 40, 60], {'read': 70, 'stats': 8, 'write': 12, 'create': 2, 'open': 3}),
    'limits': (4, [0, 0, GIB, GIB - 8192], {'truncate': 15, 'copy': 8, 'write': 25, 'mkdir': 4, 'symlink': 4,
                                            'statfs': 5, 'umount': 2}),
    'far': (1, [LONGEST_FILE, LONGEST_FILE - WINDOW, 0], {'copy': 16, 'truncate': 12}),
    'buffer': (1, BORDERS, {'write': 60, 'read': 3, 'stats': 5, 'flush': 2, 'unlink': 5, 'copy': 1}),
}  # fmt: skip


class Drawing:
    """A script that is drawn from a seed: its settings, lines and answers, and the model behind its last line."""

    def __init__(self, seed):
        self.seed = seed
        self.random = random.Random(seed)
        self.theme = self.random.choices(list(THEMES), [theme[0] for theme in THEMES.values()])[0]
        self.settings = self.draw_settings()
        self.model = Model(self.settings)
        self.volume = self.model.volume
        self.lines, self.answers = [], []
        self.names = NAMES[: self.pick(2, 3, 4)]
        self.weights = {name: weight for name, (weight, *_) in OPERATIONS.items()} | THEMES[self.theme][2]
        self.letters = CLIENTS[: self.pick(1, 2, 2, 3, 4)]
        self.stepping = self.pick(0, 0.2, 0.7)
        self.oddness = self.pick(0, 0.02, 0.1) if self.theme == 'names' else 0.02
        self.byte = 0
        for line in self.draw_beginning() if self.chance(0.8) else ():
            self.say(line)
        while len(self.lines) < LINES:
            self.say(self.draw_line())

    def say(self, line):
        self.lines.append(line)
        self.answers.append(self.model.answer(line))

    def pick(self, *values):
        return self.random.choice(values)

    def chance(self, share):
        return self.random.random() < share

    def draw_settings(self):
        settings = Settings(block_size=self.pick(65536, 65536, 65536, 131072, 1 << 20, 4 << 20))
        settings.trash_days = self.pick(0, 0, 0, 1, 1, 2, 36500)
        settings.clock = self.pick(1000, 1000, 1000, 0, 3599, 3600, 1709251199, LAST_MOMENT - 4000, LAST_MOMENT)
        settings.hash_prefix = self.chance(0.1)
        if self.theme == 'limits':
            settings.capacity, settings.inode_limit = self.pick((1, 0), (1, 0), (1, 3), (0, 2), (0, 4))
        if self.theme == 'cache':
            settings.block_size, settings.cache_size = 1 << 20, self.pick(0, 1, 2, 2, 3, 3, 4)
        if self.theme == 'buffer':
            settings.buffer_size = 8
        return settings

    def draw_beginning(self):
        """All clients mount. Themes about bytes share a file, and a cache has slices to choose from."""
        lines = [f'{letter} mount' for letter in self.letters]
        if self.theme != 'names':
            lines += ['A create /a 0644', 'A create /b 0644']
            lines += [f'{letter} open /a' for letter in self.letters[1:]]
        if self.theme == 'cache':
            for position in THEMES['cache'][1]:
                lines += [f'A write 1 {position} {position + 1:02x}x12', 'A flush 1']
        return lines

    def draw_line(self):
        """A tick, a line about an operation in progress, a crash, or an operation."""
        letter = self.random.choice(self.letters)
        client = self.model.clients[CLIENTS.index(letter)]
        busy = any(other.operation for other in self.model.clients)
        if self.chance(0.1 if busy else 0.02):
            return f'tick {self.pick(1, 60, 1800, 3599, 3600, 3600, 3600, 3600, 86400, self.pick(59, 4294967296))}'
        if client.operation and self.chance(0.85) or self.chance(0.01):
            return f"{letter} {self.pick('step', 'step', 'step', 'run')}"
        if self.chance(0.006):
            return f'{letter} crash'
        name = self.draw_operation(client)
        words = [name] + [str(self.draw_argument(kind, client)) for kind in OPERATIONS[name][1:]]
        begin = 'begin ' if self.chance(self.stepping / 5 if name in SINGLE else self.stepping) else ''
        return f"{letter} {begin}{' '.join(words).rstrip(' ')}"

    def draw_operation(self, client):
        if not client.session and self.chance(0.9):
            return 'mount'
        name = self.random.choices(list(self.weights), list(self.weights.values()))[0]
        if 'handle' in OPERATIONS[name] and not client.handles and self.chance(0.9):
            return self.pick('create', 'open')
        return name

    def draw_argument(self, kind, client):
        if kind in PATHS:
            return print_text(self.draw_path(PATHS[kind]), b'/')
        return self.random.choice(VALUES[kind]) if kind in VALUES else getattr(self, kind)(client)

    def name(self):
        return self.random.choice(ODD_NAMES if self.chance(self.oddness) else self.names)

    def existing(self):
        """The path of some entry of the tree or the trash, and the inode that it leads to."""
        number, path = ROOT, b''
        for _ in range(self.pick(1, 1, 2, 2, 3, 4)):
            if number == ROOT and self.chance(0.2 if self.volume.entries[TRASH] else 0.01):
                number, path = TRASH, b'/.trash'
                continue
            names = sorted(self.volume.entries.get(number, ()))
            if not names:
                break
            name = self.random.choice(names)
            path, number = path + b'/' + name, self.volume.entries[number][name]
            if self.volume.inodes[number].kind == SYMLINK:
                try:
                    number = self.volume.walk(path, True)
                except Refusal:
                    break
        return path or b'/', number

    def draw_path(self, new):
        """A path of which it is drawn whether it is there, with parts that mean nothing and others that refuse it."""
        path, number = self.existing()
        if self.chance(new):
            is_directory = self.volume.inodes[number].kind == DIRECTORY
            path = (path if is_directory and self.chance(0.6) else path[: path.rfind(b'/')]) + b'/' + self.name()
        elif self.chance(0.08):
            path = b''.join(b'/' + self.name() for _ in range(self.pick(1, 1, 2, 3)))
        if self.chance(2 * self.oddness):
            names = path.split(b'/')
            names.insert(self.random.randint(1, len(names)), self.pick(b'.', b'..', b'', b'.trash'))
            path = b'/'.join(names)
        if self.chance(self.oddness / 8):
            path += b'/' * (self.pick(4096, 4097) - len(path))
        if self.chance(self.oddness / 4):
            path = (b'/' + self.name()) * self.pick(40, 41)
        return path

    def target(self, client):
        target = self.pick(b'', b'../', b'./', b'.trash/') + self.name()
        if self.chance(self.oddness):
            target = self.pick(b't' * 4096, b't' * 4097, b'./' * 2048, b'.', b'/')
        return print_text(self.draw_path(0.3) if self.chance(0.4) else target, b'/')

    def handle(self, client):
        if not client.handles or self.chance(0.02):
            return self.pick(0, 1, 2, 9, LARGEST_NUMBER)
        return self.random.choice(sorted(client.handles))

    def position(self, client):
        """A place near one of the theme's, the end of an open file, or a place where something is pending."""
        near = self.random.choice(THEMES[self.theme][1])
        inodes = [handle.inode for handle in client.handles.values() if handle.inode in self.volume.inodes]
        if inodes and self.chance(0.25):
            near = self.volume.inodes[self.random.choice(inodes)].length
        pending = [(start, data) for segments in client.pending.segments.values() for start, data in segments.items()]
        if pending and self.chance(0.4):
            start, data = self.random.choice(pending)
            near = self.pick(start, start + len(data))
        shift = self.pick(0, 0, 1, -1, self.random.randint(-12, 12), self.random.randint(-40, 40), 4096)
        return LARGEST_NUMBER if self.chance(0.005) else max(0, near + shift)

    def size(self, client):
        sizes = [0, 3, 4096, 4097, GIB, GIB - 4096, GIB - 12288, LONGEST_FILE, LONGEST_FILE + 1]
        return self.random.choice(sizes) if self.chance(0.3) else self.position(client)

    def data(self, client):
        """Bytes, in two runs, of values that differ from those of the writes before."""
        self.byte = self.byte % 255 + 1
        length = self.pick(0, 1, 2, 3, 5, 8, 12, 20, 40, self.pick(4, 65537), self.pick(9, 9, 9, 140000))
        room = (self.settings.buffer_size << 20) - client.pending.size()
        if self.theme == 'buffer' and self.chance(0.3):
            length = min(8 << 20, max(0, self.pick(room, room + 1, room - 1, 4 << 20)))
        if length < 4:
            return f'{self.byte:02x}' * length or '-'
        half = self.random.randint(1, length - 1)
        return f'{self.byte:02x}x{half}+{self.byte ^ 255:02x}x{length - half}'
