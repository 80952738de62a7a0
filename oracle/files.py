"""The bytes of files: windows, the records of their lists, slices, and the transactions on them."""

from itertools import groupby

from rows import LONGEST_FILE, WINDOW, Record, Refusal, refuse_if
from tree import Tree

COMMIT_SECONDS = 3600
DAY = 86400


def cut(start, stop, size):
    """The parts of a range by windows or blocks of a size: the number of each, its first position and its end."""
    while start < stop:
        number = start // size
        end = min(stop, (number + 1) * size)
        yield number, start, end
        start = end


def cut_pieces(records, start, stop):
    """What a part of a window shows, piece by piece, each a part of one record; where none covers, of zeros."""
    shown = [record.cut(start, stop) for record in records if record.position < stop and record.end() > start]
    shown.insert(0, Record(start, 0, 0, 0, stop - start))
    edges = sorted({edge for record in shown for edge in (record.position, record.end())})

    def top(stretch):
        """The last one in the list is on top."""
        return max(index for index, record in enumerate(shown) if record.position <= stretch[0] < record.end())

    for index, stretches in groupby(zip(edges, edges[1:]), key=top):
        stretches = list(stretches)
        yield shown[index].cut(stretches[0][0], stretches[-1][1])


class Files(Tree):
    """A whole volume: the transactions on bytes besides those of the tree."""

    def find(self, number):
        """The row of an open file, which another client may have taken away."""
        if number not in self.inodes:
            raise Refusal(f'ESTALE inode {number}', number)
        return self.inodes[number]

    def set_length(self, inode, length):
        """Gives a file another length, within the volume's limit."""
        growth = inode.space(length) - inode.space()
        self.refuse_growth(growth)
        self.used_space += growth
        inode.length = length

    def append_record(self, number, position, *record):
        """Puts a record on top of a window's list; the position is the file's."""
        records = self.lists.setdefault((number, position // WINDOW), [])
        records.append(Record(position % WINDOW, *record))

    def commit(self, number, start, data, slice_number, begun):
        """Makes a slice, whose blocks are in the store, a part of its file."""
        inode = self.find(number)
        refuse_if(self.now - begun >= COMMIT_SECONDS, f'ETIMEDOUT {begun} {self.now}')
        self.set_length(inode, max(inode.length, start + len(data)))
        self.append_record(number, start, slice_number, len(data), 0, len(data))
        self.slices[slice_number] = len(data), 1
        self.touch(number)

    def truncate(self, number, length):
        """Cuts a file or makes it longer."""
        inode = self.find(number)
        refuse_if(length > LONGEST_FILE, 'EFBIG')
        shorter = length < inode.length
        self.set_length(inode, length)
        self.touch(number)
        if not shorter:
            return
        for key in [key for key in self.lists if key[0] == number and key[1] * WINDOW >= length]:
            self.drop_records(self.lists.pop(key))
        # What is cut off within a window stays in its list, below a record of zeros.
        if (number, length // WINDOW) in self.lists:
            self.append_record(number, length, 0, 0, 0, WINDOW - length % WINDOW)

    def drop_records(self, records):
        """Slices that no record names any more are dead; they may go when what goes to the trash now may."""
        for record in records:
            if record.slice:
                size, count = self.slices.pop(record.slice)
                if count > 1:
                    self.slices[record.slice] = size, count - 1
                else:
                    self.dead[record.slice] = size, self.now + self.settings.trash_days * DAY

    def copy(self, source, start, target, new_start, length):
        """Has the target show what the source shows in a range. Returns how many bytes these are."""
        source_inode, target_inode = self.find(source), self.find(target)
        length = min(length, max(0, source_inode.length - start))
        refuse_if(source == target and length and start < new_start + length and new_start < start + length, 'EINVAL')
        refuse_if(new_start + length > LONGEST_FILE, 'EFBIG')
        if not length:
            return 0
        self.set_length(target_inode, max(target_inode.length, new_start + length))
        for window, first, end in cut(start, start + length, WINDOW):
            base = window * WINDOW
            for piece in cut_pieces(self.lists.get((source, window), ()), first - base, end - base):
                self.append_piece(target, piece._replace(position=base + piece.position + new_start - start))
        self.touch(target)
        return length

    def append_piece(self, target, piece):
        """Appends a piece, at its place in the target, to the lists of the windows that it lies in."""
        for _, first, end in cut(piece.position, piece.end(), WINDOW):
            self.append_record(target, first, *piece.cut(first, end)[1:])
            if piece.slice:
                size, count = self.slices[piece.slice]
                self.slices[piece.slice] = size, count + 1
