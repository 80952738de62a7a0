"""The tree: how paths are walked, and the transactions on names and attributes.

A transaction has the name of its operation. It takes the client that asks and the operation's arguments, and returns
the answer's text, or raises a refusal before it has changed anything.
"""

from datetime import datetime, timedelta

from rows import DIRECTORY, FILE, FIRST_HOUR, PAGE, ROOT, SYMLINK, TRASH, Inode, Volume, refuse_if
from script import print_text

LONGEST_PATH = 4096
LONGEST_NAME = 255
MOST_LINKS_FOLLOWED = 40


def split(path):
    """The names of a path; slashes that follow one another, and one at the end, have none."""
    refuse_if(len(path) > LONGEST_PATH, 'ENAMETOOLONG')
    return [name for name in path.split(b'/') if name]


def refuse_trash(directory, name, hours):
    """Refuses the trash and its entries; those of its hours where that is asked."""
    refuse_if(directory == TRASH or (directory, name) == (ROOT, b'.trash') or hours and directory > TRASH, 'EPERM')


class Tree(Volume):
    """The transactions that need no bytes."""

    def is_directory(self, number):
        return self.inodes[number].kind == DIRECTORY

    def touch(self, *numbers):
        """The entries of these directories, or the bytes of these files, have changed."""
        for number in numbers:
            self.inodes[number].modified = self.inodes[number].changed = self.now

    def walk(self, path, follow):
        """The inode that a path leads to; `follow` says whether a symlink at its end is followed."""
        number, followed = ROOT, 0
        ahead = split(path)[::-1]
        while ahead:
            name = ahead.pop()
            refuse_if(not self.is_directory(number), 'ENOTDIR')
            refuse_if(len(name) > LONGEST_NAME, 'ENAMETOOLONG')
            if name == b'..':
                number = self.inodes[number].parent
            elif (number, name) == (ROOT, b'.trash'):
                number = TRASH
            elif name != b'.':
                refuse_if(name not in self.entries[number], 'ENOENT')
                child = self.entries[number][name]
                target = self.inodes[child].target
                if not target or not (ahead or follow):
                    number = child
                    continue
                followed += 1
                refuse_if(followed > MOST_LINKS_FOLLOWED, 'ELOOP')
                ahead += split(target)[::-1]
                number = ROOT if target.startswith(b'/') else number
        return number

    def find_entry(self, path):
        """The directory and the name of an entry, which is there or is to be made."""
        *above, name = split(path) or [b'.']
        refuse_if(name in (b'.', b'..'), 'EINVAL')
        directory = self.walk(b'/'.join(above), True)
        refuse_if(not self.is_directory(directory), 'ENOTDIR')
        refuse_if(len(name) > LONGEST_NAME, 'ENAMETOOLONG')
        return directory, name

    def find_vacant(self, path):
        """The directory and the name of an entry that is to be made."""
        directory, name = self.find_entry(path)
        refuse_trash(directory, name, hours=True)
        refuse_if(name in self.entries[directory], 'EEXIST')
        return directory, name

    def find_removable(self, path):
        """The directory, the name and the inode of an entry that is to go."""
        directory, name = self.find_entry(path)
        refuse_trash(directory, name, hours=False)
        refuse_if(name not in self.entries[directory], 'ENOENT')
        return directory, name, self.entries[directory][name]

    def find_file(self, path):
        """The inode that is to be opened."""
        number = self.walk(path, True)
        refuse_if(self.is_directory(number), 'EISDIR')
        return number

    def print_attributes(self, number):
        """The answer that has an inode's attributes."""
        inode = self.inodes[number]
        head = f"{'?fdl'[inode.kind]} {inode.mode:04o} {inode.links} {inode.user} {inode.group}"
        return f'ok {number} {head} {inode.length} {inode.modified} {inode.changed}'

    def lookup(self, client, path):
        return f'ok {self.walk(path, False)}'

    def stat(self, client, path):
        return self.print_attributes(self.walk(path, True))

    def lstat(self, client, path):
        return self.print_attributes(self.walk(path, False))

    def readdir(self, client, path):
        number = self.walk(path, True)
        refuse_if(not self.is_directory(number), 'ENOTDIR')
        names = sorted(self.entries[number].items())
        return 'ok ' + (' '.join(f'{print_text(name)}:{child}' for name, child in names) or '-')

    def readlink(self, client, path):
        target = self.inodes[self.walk(path, False)].target
        refuse_if(not target, 'EINVAL')
        return f"ok {print_text(target, b'/')}"

    def statfs(self, client):
        return f'ok {self.used_space} {self.settings.capacity} {self.used_inodes} {self.settings.inode_limit}'

    def make(self, path, kind, mode, target=b''):
        """Puts a new inode at a path, and returns its number."""
        directory, name = self.find_vacant(path)
        self.refuse_growth(PAGE, 1)
        number = self.next_inode
        self.next_inode += 1
        self.used_space += PAGE
        self.used_inodes += 1
        self.inodes[number] = inode = Inode(kind, mode, 0, 0, 1, self.now, self.now, len(target), 0, target)
        self.entries[directory][name] = number
        self.touch(directory)
        if kind == DIRECTORY:
            inode.links, inode.length, inode.parent = 2, PAGE, directory
            self.entries[number] = {}
            self.inodes[directory].links += 1
        return number

    def mkdir(self, client, path, mode):
        return f'ok {self.make(path, DIRECTORY, mode)}'

    def symlink(self, client, target, path):
        refuse_if(len(target) > LONGEST_PATH, 'ENAMETOOLONG')
        return f'ok {self.make(path, SYMLINK, 0o777, target)}'

    def change(self, path, **values):
        """Sets attributes of what a path leads to, and when they changed."""
        number = self.walk(path, True)
        refuse_if(number >= TRASH, 'EPERM')
        for name, value in values.items():
            setattr(self.inodes[number], name, value)
        self.inodes[number].changed = self.now
        return 'ok'

    def chmod(self, client, path, mode):
        return self.change(path, mode=mode)

    def chown(self, client, path, user, group):
        return self.change(path, user=user, group=group)

    def utimes(self, client, path, seconds):
        return self.change(path, modified=seconds)

    def drop(self, number):
        """Takes an inode away for good. A file's bytes wait for their cleaning."""
        inode = self.inodes.pop(number)
        self.used_space -= inode.space()
        self.used_inodes -= 1
        self.entries.pop(number, None)
        if inode.kind == FILE:
            self.dropped[number] = (inode.length,)

    def make_hour(self):
        """The trash's directory of the present hour, which is made where there is none."""
        hours = self.now // 3600
        number = TRASH + hours if hours else FIRST_HOUR
        if number not in self.inodes:
            name = (datetime(1970, 1, 1) + timedelta(hours=hours)).strftime('%Y-%m-%d-%H')
            self.inodes[number] = Inode(DIRECTORY, 0o555, 0, 0, 2, self.now, self.now, PAGE, TRASH)
            self.entries[number] = {}
            self.entries[TRASH][name.encode()] = number
            self.inodes[TRASH].links += 1
            self.touch(TRASH)
        return number

    def remove_link(self, client, directory, name):
        """Takes an entry of a file or symlink away; with its last one the inode goes, if nothing keeps it."""
        number = self.entries[directory].pop(name)
        inode = self.inodes[number]
        self.touch(directory)
        inode.changed = self.now
        if inode.links > 1:
            inode.links -= 1
        elif self.settings.trash_days and directory < TRASH:
            hour = self.make_hour()
            self.entries[hour][(b'%d-%d-' % (directory, number) + name)[:LONGEST_NAME]] = number
            self.touch(hour)
        elif client.handles_of(number):
            inode.links = 0
            self.sustained.add((client.session, number))
            client.sustaining.add(number)
        else:
            self.drop(number)

    def remove_directory(self, directory, name):
        """Takes an empty directory away."""
        refuse_if(self.entries[self.entries[directory][name]], 'ENOTEMPTY')
        self.drop(self.entries[directory].pop(name))
        self.inodes[directory].links -= 1
        self.touch(directory)

    def unlink(self, client, path):
        directory, name, number = self.find_removable(path)
        refuse_if(self.is_directory(number), 'EPERM')
        self.remove_link(client, directory, name)
        return 'ok'

    def rmdir(self, client, path):
        directory, name, number = self.find_removable(path)
        refuse_if(not self.is_directory(number), 'ENOTDIR')
        self.remove_directory(directory, name)
        return 'ok'

    def link(self, client, path, new_path):
        number = self.walk(path, False)
        inode = self.inodes[number]
        trashed = any(hour > TRASH and number in names.values() for hour, names in self.entries.items())
        refuse_if(inode.kind == DIRECTORY or trashed, 'EPERM')
        directory, name = self.find_vacant(new_path)
        inode.links += 1
        inode.changed = self.now
        self.entries[directory][name] = number
        self.touch(directory)
        return 'ok'

    def is_below(self, directory, top):
        """Whether a directory is another one or lies below it."""
        while directory not in (top, ROOT):
            directory = self.inodes[directory].parent
        return directory == top

    def rename(self, client, path, new_path, form=''):
        directory, name = self.find_entry(path)
        new_directory, new_name = self.find_entry(new_path)
        refuse_trash(directory, name, hours=form == 'exchange')
        refuse_trash(new_directory, new_name, hours=True)
        source, target = self.entries[directory].get(name), self.entries[new_directory].get(new_name)
        refuse_if(source is None or target is None and form == 'exchange', 'ENOENT')
        refuse_if(target is not None and form == 'noreplace', 'EEXIST')
        if source == target:
            return 'ok'
        # No directory goes into itself. A file has nothing below it, as the way up meets directories alone.
        refuse_if(self.is_below(new_directory, source), 'EINVAL')
        refuse_if(form == 'exchange' and self.is_below(directory, target), 'EINVAL')
        if form != 'exchange' and target is not None:
            self.replace(client, source, target, new_directory, new_name)
        del self.entries[directory][name]
        self.move(source, directory, new_directory, new_name)
        if form == 'exchange':
            self.move(target, new_directory, directory, name)
        self.touch(directory, new_directory)
        return 'ok'

    def replace(self, client, source, target, directory, name):
        """Takes what stands at a rename's new name away."""
        refuse_if(self.is_directory(source) and not self.is_directory(target), 'ENOTDIR')
        refuse_if(self.is_directory(target) and not self.is_directory(source), 'EISDIR')
        if self.is_directory(target):
            self.remove_directory(directory, name)
        else:
            self.remove_link(client, directory, name)

    def move(self, number, directory, new_directory, name):
        """Gives an inode of one directory an entry in another one, or in the same."""
        self.entries[new_directory][name] = number
        self.inodes[number].changed = self.now
        if self.is_directory(number):
            self.inodes[number].parent = new_directory
            self.inodes[directory].links -= 1
            self.inodes[new_directory].links += 1
