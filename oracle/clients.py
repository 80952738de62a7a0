"""Clients: their handles, what they wrote and not yet committed, their caches, and the steps of their operations.

An operation is a generator. It yields before each request, which is a transaction, or an object that is put or asked
for. So what runs from one yield to the next is one step, and what needs no device belongs to the request before it.
"""

from collections import OrderedDict
from dataclasses import dataclass, field

from files import cut, cut_pieces
from rows import FILE, LONGEST_FILE, WINDOW, refuse_if
from script import print_data

MOST_HANDLES = 1024
SESSION_SECONDS = 60
# Where the operations on open files have their handles among their arguments.
HANDLES = {'copy': (0, 2)} | dict.fromkeys(('fstat', 'close', 'flush', 'read', 'write', 'truncate'), (0,))


@dataclass
class Handle:
    """An open file, with a view of each window that was read by it: the file's length, and the window's records."""

    inode: int
    views: dict = field(default_factory=dict)


class Cache:
    """The blocks that a client read last."""

    def __init__(self, settings):
        size = settings.cache_size << 20
        self.room = max(1, size // settings.block_size) if size else 0
        self.blocks = OrderedDict()
        self.hits = self.misses = 0

    def get(self, key):
        """A block, which then is the last one to go, or None."""
        if key not in self.blocks:
            self.misses += 1
            return None
        self.hits += 1
        self.blocks.move_to_end(key)
        return self.blocks[key]

    def keep(self, key, block):
        self.blocks[key] = block
        if len(self.blocks) > self.room:
            self.blocks.popitem(last=False)


class Pending:
    """What a client wrote and not yet committed: bytes by inode and first position. In one window no two touch."""

    def __init__(self):
        self.segments = {}

    def size(self):
        return sum(len(data) for segments in self.segments.values() for data in segments.values())

    def write(self, number, position, data):
        for _, first, end in cut(position, position + len(data), WINDOW):
            self.join(number, first, data[first - position : end - position])

    def join(self, number, start, data):
        """Puts bytes over the segments of their window that they touch, and makes one of them."""
        segments = {}
        for first, old in self.segments.get(number, {}).items():
            end = start + len(data)
            if first // WINDOW != start // WINDOW or first + len(old) < start or first > end:
                segments[first] = old
            else:
                data = old[: max(0, start - first)] + data + old[max(0, end - first) :]
                start = min(first, start)
        self.segments[number] = dict(sorted([*segments.items(), (start, data)]))

    def remove(self, number, start):
        del self.segments[number][start]
        if not self.segments[number]:
            del self.segments[number]


class Client:
    """One client, mounted or not. Its generators have the names of their operations."""

    def __init__(self, volume, number):
        self.volume = volume
        self.number = number
        self.reset()

    def reset(self):
        """Forgets all that goes with a session."""
        self.session = 0
        self.handles = {}
        self.pending = Pending()
        self.cache = Cache(self.volume.settings)
        self.sustaining = set()  # inodes that it has open, and whose last name it took away itself
        self.operation = None
        self.operation_name = ''
        self.at_request = False  # whether the operation has reached its first request

    def handles_of(self, inode):
        """The handles by which an inode is open."""
        return [handle for handle in self.handles.values() if handle.inode == inode]

    def forget_views(self, inode):
        """This client has changed a file, and looks at it anew."""
        for handle in self.handles_of(inode):
            handle.views.clear()

    def begin(self, name, arguments):
        """Begins an operation, or refuses it before its first step."""
        refuse_if(self.operation or name == 'mount' and self.session, 'EALREADY')
        refuse_if(name != 'mount' and not self.session, 'ENOTCONN')
        refuse_if(any(arguments[place] not in self.handles for place in HANDLES.get(name, ())), 'EBADF')
        refuse_if(name in ('create', 'open') and len(self.handles) == MOST_HANDLES, 'EMFILE')
        refuse_if(name == 'write' and arguments[1] + len(arguments[2]) > LONGEST_FILE, 'EFBIG')
        operation = getattr(self, name, None)
        self.operation = operation(*arguments) if operation else self.transact(name, arguments)
        self.operation_name, self.at_request = name, False

    def transact(self, name, arguments):
        """An operation that is one transaction on the tree."""
        yield
        return getattr(self.volume, name)(self, *arguments)

    def mount(self):
        yield
        self.session = self.volume.next_session
        self.volume.next_session += 1
        self.volume.sessions[self.session] = self.number, self.volume.now + SESSION_SECONDS
        return f'ok {self.session}'

    def beat(self):
        yield
        self.volume.sessions[self.session] = self.number, self.volume.now + SESSION_SECONDS
        return 'ok'

    def umount(self):
        yield from self.commit_all()
        yield
        for number in sorted(number for session, number in self.volume.sustained if session == self.session):
            self.release(number)
        del self.volume.sessions[self.session]
        self.reset()
        return 'ok'

    def release(self, number):
        """Lets go of a file that has no name any more."""
        self.volume.sustained.remove((self.session, number))
        self.volume.drop(number)
        self.sustaining.remove(number)

    def stats(self):
        yield from ()
        return f'ok {self.cache.hits} {self.cache.misses} {len(self.cache.blocks)} {self.pending.size()}'

    def create(self, path, mode):
        yield
        return self.add_handle(self.volume.make(path, FILE, mode))

    def open(self, path):
        yield
        return self.add_handle(self.volume.find_file(path))

    def add_handle(self, inode):
        number = min(set(range(1, MOST_HANDLES + 1)) - set(self.handles))
        self.handles[number] = Handle(inode)
        return f'ok {number} {inode}'

    def fstat(self, handle):
        inode = self.handles[handle].inode
        yield from self.commit_files(inode)
        yield
        self.volume.find(inode)
        return self.volume.print_attributes(inode)

    def flush(self, handle):
        yield from self.commit_files(self.handles[handle].inode)
        return 'ok'

    def close(self, handle):
        inode = self.handles[handle].inode
        yield from self.commit_files(inode)
        if inode in self.sustaining and len(self.handles_of(inode)) == 1:
            yield
            self.release(inode)
        del self.handles[handle]
        return 'ok'

    def write(self, handle, position, data):
        if self.pending.size() + len(data) > self.volume.settings.buffer_size << 20:
            yield from self.commit_all()
        self.pending.write(self.handles[handle].inode, position, data)
        return f'ok {len(data)}'

    def commit_all(self):
        yield from self.commit_files(*sorted(self.pending.segments))

    def commit_files(self, *inodes):
        """Commits what is pending of files: for each segment a number, its blocks, and the commit."""
        for inode in inodes:
            while inode in self.pending.segments:
                yield
                number = self.volume.next_slice
                self.volume.next_slice += 1
                start, data = next(iter(self.pending.segments[inode].items()))
                begun = yield from self.put_blocks(number, data)
                yield
                self.volume.commit(inode, start, data, number, begun)
                self.pending.remove(inode, start)
                self.forget_views(inode)

    def put_blocks(self, number, data):
        """Puts a slice's blocks into the store. Returns the moment of the first one."""
        begun = None
        for index, start, end in cut(0, len(data), self.volume.settings.block_size):
            yield
            self.volume.objects[self.volume.block_name(number, index, end - start)] = data[start:end]
            begun = self.volume.now if begun is None else begun
        return begun

    def truncate(self, handle, length):
        inode = self.handles[handle].inode
        yield from self.commit_files(inode)
        yield
        self.volume.truncate(inode, length)
        self.forget_views(inode)
        return 'ok'

    def copy(self, handle, start, new_handle, new_start, length):
        source, target = self.handles[handle].inode, self.handles[new_handle].inode
        yield from self.commit_files(source, target)
        yield
        copied = self.volume.copy(source, start, target, new_start, length)
        self.forget_views(target)  # also where no byte was copied
        return f'ok {copied}'

    def read(self, handle, position, length):
        inode, views = self.handles[handle].inode, self.handles[handle].views
        yield from self.commit_files(inode)
        data = bytearray()
        for window, first, end in cut(position, min(position + length, LONGEST_FILE), WINDOW):
            if window not in views:
                yield
                views[window] = self.volume.find(inode).length, list(self.volume.lists.get((inode, window), ()))
            shown, records = views[window]
            stop, base = min(end, shown), window * WINDOW
            if first < stop:
                data += yield from self.fetch(cut_pieces(records, first - base, stop - base))
            if stop < end:
                break
        return f'ok {print_data(bytes(data))}'

    def fetch(self, pieces):
        """The bytes of pieces. Each block that they need is looked for once, in the order of need."""
        blocks, data, block_size = {}, bytearray(), self.volume.settings.block_size
        for piece in pieces:
            if not piece.slice:
                data += bytes(piece.length)
                continue
            for index, first, end in cut(piece.offset, piece.offset + piece.length, block_size):
                key, base = (piece.slice, index), index * block_size
                if key not in blocks:
                    blocks[key] = self.cache.get(key)
                if blocks[key] is None:
                    yield
                    name = self.volume.block_name(*key, min(block_size, piece.size - base))
                    blocks[key] = self.volume.objects[name]
                    self.cache.keep(key, blocks[key])
                data += blocks[key][first - base : end - base]
        return data
