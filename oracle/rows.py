"""A volume as the oracle has it: its settings, its rows by table, and its objects."""

import struct
from dataclasses import astuple, dataclass
from typing import NamedTuple

FILE, DIRECTORY, SYMLINK = 1, 2, 3
ROOT = 1
TRASH = 9223372032828243968
# The directories of hours have the numbers above the trash's own. That of the first hour of 1970 comes behind the last.
FIRST_HOUR = TRASH + 38177488
LAST_MOMENT = 137438953471
WINDOW = 1 << 26
LONGEST_FILE = 1 << 40
UNLIMITED = 1 << 62
PAGE = 4096


class Refusal(Exception):
    """An operation is refused: the text that its answer has behind `err`, and the inode that is gone, if one is."""

    def __init__(self, text, gone=None):
        super().__init__(text)
        self.gone = gone


def refuse_if(condition, text):
    if condition:
        raise Refusal(text)


@dataclass
class Settings:
    """What the options say. Those of the format come first, in the order of the volume's row."""

    block_size: int = 65536
    trash_days: int = 0
    capacity: int = 0
    inode_limit: int = 0
    hash_prefix: bool = False
    cache_size: int = 64
    buffer_size: int = 32
    clock: int = 1000


@dataclass
class Inode:
    """A row of a file, directory or symlink; its fields but for the target are in the row's order."""

    kind: int
    mode: int
    user: int
    group: int
    links: int
    modified: int
    changed: int
    length: int
    parent: int
    target: bytes = b''

    def space(self, length=None):
        """The bytes that count as used, now or with another length: whole pages, and one at least."""
        length = self.length if length is None else length
        return max(PAGE, -(-length // PAGE) * PAGE) if self.kind == FILE else PAGE


class Record(NamedTuple):
    """A stretch of a window that shows a part of a slice, or zeros where the slice is 0."""

    position: int
    slice: int
    size: int
    offset: int
    length: int

    def end(self):
        return self.position + self.length

    def cut(self, start, stop):
        """The part of a record that lies between two positions."""
        first, end = max(start, self.position), min(stop, self.end())
        offset = self.offset + first - self.position if self.slice else 0
        return Record(first, self.slice, self.size, offset, end - first)


class Volume:
    """The rows of a volume and its objects, at the moment of the step that is made."""

    def __init__(self, settings):
        self.settings = settings
        self.now = now = settings.clock
        self.next_inode, self.next_slice, self.next_session = 2, 1, 1
        self.used_space = self.used_inodes = 0
        root, trash = (Inode(DIRECTORY, mode, 0, 0, 2, now, now, PAGE, ROOT) for mode in (0o777, 0o555))
        self.inodes = {ROOT: root, TRASH: trash}
        self.entries = {ROOT: {}, TRASH: {}}  # by directory: name to inode
        self.lists = {}  # by inode and window: records, the later ones on top
        self.slices = {}  # by number: size, and how many records name it
        self.sessions = {}  # by number: client, and the moment of its end
        self.sustained = set()  # pairs of session and inode
        self.dropped = {}  # by inode: the length alone
        self.dead = {}  # by number of a slice: size, and the moment from which it may go
        self.objects = {}  # by name: bytes

    def refuse_growth(self, space, inodes=0):
        """Refuses what would take the volume past its limits."""
        space_limit, inode_limit = self.settings.capacity << 30 or UNLIMITED, self.settings.inode_limit or UNLIMITED
        refuse_if(space > 0 and self.used_space + space > space_limit, 'ENOSPC')
        refuse_if(inodes > 0 and self.used_inodes + inodes > inode_limit, 'ENOSPC')

    def block_name(self, slice_number, index, size):
        """The name of a block's object."""
        millions, thousands = slice_number // 1000000, slice_number // 1000
        folder = f'{slice_number % 256:02X}/{millions}' if self.settings.hash_prefix else f'{millions}/{thousands}'
        return f'test/chunks/{folder}/{slice_number}_{index}_{size}'

    def print_left(self):
        """The objects and the rows as a scene shows them, in the order of their names and keys."""
        objects = [f'object {name} {len(data)}' for name, data in sorted(self.objects.items())]
        keyed = sorted(self.keyed_rows())
        rows = [f"row {table} {key} {more.hex() or '-'} {value.hex() or '-'}" for table, key, more, value in keyed]
        return objects + rows

    def keyed_rows(self):
        """Each row: its table, the two parts of its key, and its bytes."""
        yield 0, 0, b'', struct.pack('>IIIQQBB4sH1s', 1, *astuple(self.settings)[:5], 4, b'test', 1, b'b')
        counters = self.next_inode, self.next_slice, self.next_session, self.used_space, self.used_inodes
        yield 1, 0, b'', struct.pack('>5Q', *counters)
        for number, inode in self.inodes.items():
            yield 2, number, b'', struct.pack('>BHIIIQQQQ', *astuple(inode)[:9]) + inode.target
        for directory, names in self.entries.items():
            for name, number in names.items():
                yield 3, directory, name, struct.pack('>BQ', self.inodes[number].kind, number)
        for (number, window), records in self.lists.items():
            yield 4, number, struct.pack('>I', window), b''.join(struct.pack('>IQIII', *record) for record in records)
        for session, number in self.sustained:
            yield 7, session, struct.pack('>Q', number), b''
        tables = (5, '>IQ', self.slices), (6, '>BQ', self.sessions), (8, '>Q', self.dropped), (9, '>IQ', self.dead)
        for table, form, rows in tables:
            for number, values in rows.items():
                yield table, number, b'', struct.pack(form, *values)
