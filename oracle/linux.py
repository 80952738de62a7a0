#!/usr/bin/env python3
"""Compares the program with this machine's own file system, over scripts of one client that are drawn from seeds.

Each operation runs to its end. It is made by the kernel, too, as root in a folder of a tmpfs that is the root of a
process. Compared are errors, kinds, modes, link counts, owners, sizes, names, targets and bytes, and which paths lead
to one inode; not times. Where docs/MANUAL.md says that the two differ, either it isn't drawn, or the kernel's answer is
made into the program's (below, where it is said why). The last line that is printed has the sums; the status is 1 where
something differs.
"""

import argparse
import ctypes
import errno
import json
import os
import random
import shutil
import stat
import subprocess
import sys
import tempfile
import traceback
from collections import Counter
from itertools import zip_longest
from pathlib import Path

from script import print_data, print_text, read_line

TOP = Path(__file__).resolve().parent.parent
PROGRAM = TOP / 'crates/juicevol/out/juicevol'
WORDS = ['session', 'sqlite3://:memory:']
TMPFS = '/dev/shm'
LINES = 60
NAMES = [b'a', b'b', b'c', b'd', b'e', b'f']
ON_HANDLES = ['fstat', 'close', 'flush', 'truncate', 'read', 'write', 'copy']
ODD_NAMES = [b'n' * 255, b'n' * 256, b'\x80\xff', b'a b', b'%', b'~', b'x' * 250]
KINDS = {stat.S_IFREG: 'f', stat.S_IFDIR: 'd', stat.S_IFLNK: 'l'}
FORMS = {'': 0, 'noreplace': 1, 'exchange': 2}  # the flags of renameat2
AT_FDCWD = -100

# How often an operation is drawn.
OPERATIONS = {
    'lookup': 2, 'stat': 5, 'lstat': 4, 'readdir': 4, 'readlink': 3, 'open': 6, 'unlink': 6, 'rmdir': 5, 'mkdir': 9,
    'create': 9, 'chmod': 3, 'chown': 3, 'symlink': 6, 'link': 6, 'rename': 14, 'fstat': 4, 'close': 3, 'flush': 2,
    'truncate': 5, 'read': 10, 'write': 14, 'copy': 6,
}  # fmt: skip


class Kernel:
    """What the kernel answers. It runs in a process whose root is the folder."""

    def __init__(self):
        self.handles = {}
        self.pending = set()  # the files that have bytes which no commit has put into them yet
        self.libc = ctypes.CDLL(None, use_errno=True)

    def answer(self, line):
        """The program's answer to the line, with `*` for what isn't compared and the kernel's inodes."""
        _, _, name, arguments = read_line(line)
        try:
            return ' '.join(['ok', *map(str, getattr(self, name)(*arguments))])
        except OSError as error:
            return f'err {errno.errorcode[error.errno]}'

    def handle(self, number):
        if number not in self.handles:
            raise OSError(errno.EBADF, 'no handle')
        return self.handles[number]

    def commit(self, *handles):
        """Those of the files' bytes that the program keeps back are in the files from here on."""
        for handle in handles:
            self.pending.discard(os.fstat(handle).st_ino)

    def describe(self, found, committed=True):
        """Attributes.

        The program's trash has the entry of a file that no directory here has any more. The length of a directory is
        the file system's own, and that of a file by its path the one that is committed.
        """
        kind = KINDS[stat.S_IFMT(found.st_mode)]
        size = '*' if kind == 'd' or not committed and found.st_ino in self.pending else found.st_size
        mode = f'{stat.S_IMODE(found.st_mode):04o}'
        return f'i{found.st_ino}', kind, mode, max(1, found.st_nlink), found.st_uid, found.st_gid, size, '*', '*'

    def mount(self):
        return ('*',)

    def lookup(self, path):
        return (f'i{os.lstat(path).st_ino}',)

    def stat(self, path):
        return self.describe(os.stat(path), committed=False)

    def lstat(self, path):
        return self.describe(os.lstat(path), committed=False)

    def fstat(self, number):
        self.commit(self.handle(number))
        return self.describe(os.fstat(self.handle(number)))

    def mkdir(self, path, mode):
        os.mkdir(path, mode)
        return self.lookup(path)

    def symlink(self, target, path):
        os.symlink(target, path)
        return self.lookup(path)

    def opened(self, path, flags, mode=0):
        handle = os.open(path, flags | os.O_RDWR, mode)
        number = next(n for n in range(1, len(self.handles) + 2) if n not in self.handles)
        self.handles[number] = handle
        return number, f'i{os.fstat(handle).st_ino}'

    def create(self, path, mode):
        return self.opened(path, os.O_CREAT | os.O_EXCL, mode)

    def open(self, path):
        return self.opened(path, 0)

    def readdir(self, path):
        names = sorted(entry.name for entry in os.scandir(path))
        return [f'{print_text(name)}:i{os.lstat(os.path.join(path, name)).st_ino}' for name in names] or ['-']

    def readlink(self, path):
        return (print_text(os.readlink(path), b'/'),)

    def chmod(self, path, mode):
        os.chmod(path, mode)
        return ()

    def chown(self, path, user, group):
        """Linux clears the bits by which a program takes on its owner; the program keeps them."""
        mode = stat.S_IMODE(os.stat(path).st_mode)
        os.chown(path, user, group)
        os.chmod(path, mode)
        return ()

    def unlink(self, path):
        """POSIX has EPERM for a directory, and Linux EISDIR."""
        try:
            os.unlink(path)
        except IsADirectoryError as error:
            raise OSError(errno.EPERM, 'a directory') from error
        return ()

    def rmdir(self, path):
        os.rmdir(path)
        return ()

    def link(self, path, new):
        """The program refuses a directory before it looks at the new name."""
        if stat.S_ISDIR(os.lstat(path).st_mode):
            raise OSError(errno.EPERM, 'a directory')
        os.link(path, new, follow_symlinks=False)
        return ()

    def rename(self, path, new, form=''):
        """POSIX has EISDIR for a file that is to replace a directory; Linux ENOTEMPTY where it lies in that one."""
        if self.libc.renameat2(AT_FDCWD, path, AT_FDCWD, new, FORMS[form]):
            code = ctypes.get_errno()
            is_file = code == errno.ENOTEMPTY and not stat.S_ISDIR(os.lstat(path).st_mode)
            raise OSError(errno.EISDIR if is_file else code, 'renameat2')
        return ()

    def flush(self, number):
        self.commit(self.handle(number))
        return ()

    def close(self, number):
        self.commit(self.handle(number))
        os.close(self.handles.pop(number))
        return ()

    def truncate(self, number, length):
        self.commit(self.handle(number))
        os.ftruncate(self.handle(number), length)
        return ()

    def read(self, number, position, length):
        self.commit(self.handle(number))
        return (print_data(os.pread(self.handle(number), length, position)),)

    def write(self, number, position, data):
        handle = self.handle(number)
        if data:
            self.pending.add(os.fstat(handle).st_ino)
        return (os.pwrite(handle, data, position),)

    def copy(self, source, start, target, place, length):
        handles = self.handle(source), self.handle(target)
        self.commit(*handles)
        wanted = min(length, max(0, os.fstat(handles[0]).st_size - start))
        copied = os.copy_file_range(*handles, length, start, place)
        while copied < wanted:
            copied += os.copy_file_range(*handles, wanted - copied, start + copied, place + copied)
        return (copied,)


class Drawing:
    """A script that is drawn from a seed, by what the kernel's tree has."""

    def __init__(self, seed):
        self.random = random.Random(seed)
        self.kernel = Kernel()
        self.lines, self.answers = [], []
        self.oddness = self.pick(0, 0.02, 0.1)
        self.byte = 0
        self.say('mount')
        while len(self.lines) < LINES:
            name = self.random.choices(list(OPERATIONS), list(OPERATIONS.values()))[0]
            if name in ON_HANDLES and not self.kernel.handles and self.chance(0.9):
                name = self.pick('create', 'create', 'open')
            self.say(name, *getattr(self, f'draw_{name}', self.draw_path_alone)())
        self.say_all()

    def say(self, *words):
        line = ' '.join(['A', *map(str, words)]).rstrip(' ')
        self.lines.append(line)
        self.answers.append(self.kernel.answer(line))

    def say_all(self):
        """Asks for all that is left: each entry, each open file, and its bytes."""
        for number in sorted(self.kernel.handles):
            self.say('fstat', number)
            self.say('read', number, 0, 1 << 20)
        for path in [b'/', *self.paths()]:
            self.say('lstat', print_text(path, b'/'))
            kind = stat.S_IFMT(os.lstat(path).st_mode)
            if kind == stat.S_IFDIR:
                self.say('readdir', print_text(path, b'/'))
            elif kind == stat.S_IFLNK:
                self.say('readlink', print_text(path, b'/'))
            else:
                self.say('open', print_text(path, b'/'))
                if self.answers[-1].startswith('ok'):
                    number = int(self.answers[-1].split(' ')[1])
                    self.say('read', number, 0, 1 << 20)
                    self.say('close', number)

    def pick(self, *values):
        return self.random.choice(values)

    def chance(self, share):
        return self.random.random() < share

    def paths(self):
        found = []
        for folder, folders, files in os.walk(b'/'):
            folders.sort()
            found += [os.path.join(folder, name) for name in sorted(folders + files)]
        return found

    def name(self, odd=True):
        return self.random.choice(ODD_NAMES if odd and self.chance(self.oddness) else NAMES)

    def path(self, new=0.1, last=False, odd=True):
        """A path, of which it is drawn whether it is there.

        Where its last name is to be one of an entry it isn't `.` or `..`, and none ends in a slash: the program has
        rules of its own for these.
        """
        found = self.paths()
        path = self.random.choice(found) if found and self.chance(0.9) else b'/'
        if self.chance(new):
            folder = path if os.path.isdir(path) and self.chance(0.7) or self.chance(0.05) else path[: path.rfind(b'/')]
            path = folder.rstrip(b'/') + b'/' + (self.name(odd) + b'/' if self.chance(0.04) else b'') + self.name(odd)
        elif self.chance(0.1):
            path = b''.join(b'/' + self.name(odd) for _ in range(self.pick(1, 2, 2, 3)))
        elif path == b'/' and last:
            path = b'/' + self.name(odd)
        if self.chance(0.1):
            names = path.split(b'/')
            names.insert(self.random.randint(1, max(1, len(names) - 1)), self.pick(b'.', b'..', b''))
            path = b'/'.join(names)
        if not last and self.chance(0.05):
            path = path.rstrip(b'/') + self.pick(b'/.', b'/..')
        if self.chance(self.oddness / 8):
            path = b'/' * self.pick(3000, 4200) + path
        return print_text(path, b'/')

    def handle(self):
        numbers = sorted(self.kernel.handles)
        return self.random.choice(numbers) if numbers and self.chance(0.97) else self.pick(0, 1, 9)

    def position(self):
        handles = list(self.kernel.handles.values())
        near = os.fstat(self.random.choice(handles)).st_size if handles and self.chance(0.5) else 0
        return max(0, near + self.pick(0, 0, 0, 1, -1, self.random.randint(-20, 20), 4096, 70000))

    def draw_path_alone(self):
        return (self.path(),)

    def draw_unlink(self):
        return (self.path(last=True),)

    draw_rmdir = draw_unlink

    def draw_mkdir(self):
        """Linux drops the bits of the owner and the group of a new directory, and hands on the latter's group."""
        return self.path(0.85, last=True), self.pick('0755', '0700', '1777', '0000')

    def draw_create(self):
        return self.path(0.85, last=True), self.pick('0644', '0755', '4755', '6777', '0000')

    def draw_symlink(self):
        target = self.pick(b'', b'../', b'./', b'/') + self.name()
        if self.chance(self.oddness):
            target = self.pick(b't' * 3000, b't' * 4200, b'.', b'/', b'./' * 1000)
        return print_text(target, b'/'), self.path(0.85, last=True)

    def draw_chmod(self):
        """A directory whose bit of the group is set hands on its group, which the program doesn't."""
        path = self.path()
        return path, self.pick('0644', '0755', '0000', '4711', '1777')

    def draw_chown(self):
        """Linux leaves an owner of 4,294,967,295 as it was."""
        return self.path(), self.pick(0, 5, 4294967294), self.pick(0, 7)

    def draw_link(self):
        return self.path(last=True), self.path(0.85, last=True)

    def draw_rename(self):
        """Which of two names is too long is asked by the program before whether the first one is there."""
        first = self.path(last=True, odd=False)
        return first, self.path(0.5, last=True, odd=False), self.pick('', '', '', 'noreplace', 'exchange')

    def draw_fstat(self):
        return (self.handle(),)

    draw_close = draw_flush = draw_fstat

    def draw_truncate(self):
        return self.handle(), self.pick(0, self.position())

    def draw_read(self):
        return self.handle(), self.position(), self.pick(0, 1, 9, 40, 100, 70000)

    def draw_write(self):
        self.byte = self.byte % 255 + 1
        length = self.pick(0, 1, 2, 3, 5, 8, 20, 40, 5000, 70000)
        return self.handle(), self.position(), f'{self.byte:02x}x{length}' if length else '-'

    def draw_copy(self):
        length = self.pick(0, 1, 3, 9, 20, 4096, 70000)
        return self.handle(), self.position(), self.handle(), self.position(), length


def enter(folder):
    """Makes the folder the root of this process."""
    os.chroot(folder)
    os.chdir('/')
    os.chmod('/', 0o777)
    os.umask(0)


def may_enter():
    """Whether this process may do all that a script asks for; a container can keep some of it from root."""
    folder = tempfile.mkdtemp(prefix='juicevol-linux-', dir=TMPFS)
    child = os.fork()
    if not child:
        try:
            enter(folder)
            os.close(os.open('/f', os.O_CREAT | os.O_RDWR, 0o644))
            os.chown('/f', 4294967294, 7)
            os.chmod('/f', 0o6777)
            os._exit(0)
        finally:
            os._exit(1)
    ended = os.waitpid(child, 0)[1]
    shutil.rmtree(folder)
    return not ended


def draw_in(folder, seed, writing):
    """Draws a script with the folder as the root of this process, hands it on, and ends the process."""
    try:
        enter(folder)
        drawing = Drawing(seed)
        with os.fdopen(writing, 'w') as out:
            json.dump((drawing.lines, drawing.answers), out)
        os._exit(0)
    except BaseException:
        traceback.print_exc()
        os._exit(1)


def drawn(seed):
    """The lines of a script, and the kernel's answers, from a process that is put into a folder of its own."""
    folder = tempfile.mkdtemp(prefix='juicevol-linux-', dir=TMPFS)
    reading, writing = os.pipe()
    child = os.fork()
    if not child:
        os.close(reading)
        draw_in(folder, seed, writing)
    os.close(writing)
    with os.fdopen(reading) as given:
        said = given.read()
    ended = os.waitpid(child, 0)[1]
    shutil.rmtree(folder)
    if ended:
        sys.exit(f'linux: seed {seed} could not be drawn')
    return json.loads(said)


def named(answer, inodes):
    """The words of an answer, with each inode by the order in which the answers first had it."""
    words = answer.split(' ')
    for place, word in enumerate(words):
        name, colon, number = word.rpartition(':')
        if number.startswith('i'):
            words[place] = f'{name}{colon}i{inodes.setdefault(number, len(inodes))}'
    return words


def marked(answer, pattern):
    """The program's answer, with `i` before what is an inode and `*` for what isn't compared, by the kernel's."""
    words, wanted = answer.split(' '), pattern.split(' ')
    if len(words) != len(wanted):
        return answer
    for place, (word, like) in enumerate(zip(words, wanted)):
        name, colon, number = word.rpartition(':')
        if like == '*':
            words[place] = '*'
        elif like.rpartition(':')[2].startswith('i') and number.isdigit():
            words[place] = f'{name}{colon}i{number}'
    return ' '.join(words)


def difference(lines, found, wanted):
    """The first line whose answer differs, with both; or None."""
    theirs, ours = {}, {}
    for line, answer, kernel in zip_longest(lines, found, wanted):
        if answer is None or kernel is None or named(marked(answer, kernel), theirs) != named(kernel, ours):
            return f"{line or 'the end'}\n  program: {answer}\n  Linux:   {kernel}"
    return None


def read_words():
    parser = argparse.ArgumentParser(description="Compares the program with Linux's tmpfs, over drawn scripts.")
    parser.add_argument('--scripts', type=int, default=200, help='how many scripts are drawn')
    parser.add_argument('--seed', type=int, default=0, help='the first seed; each script has the next one')
    parser.add_argument('--program', default=PROGRAM, help='the program that runs sessions')
    parser.add_argument('--write', help='write the scripts into this folder, and run nothing')
    parser.add_argument('--found', help="take the program's answers from this folder, and run nothing")
    return parser.parse_args()


def skip(why):
    print(f'linux: skipped, since {why}')
    sys.exit(0)


def is_tmpfs(folder):
    mounts = [line.split(' ') for line in Path('/proc/mounts').read_text().splitlines()]
    return any(mount[1] == folder and mount[2] == 'tmpfs' for mount in mounts)


def answers_of(words, seed, lines):
    """What the program prints for the script."""
    script = '\n'.join([*lines, ''])
    if words.write:
        Path(words.write, f'{seed}').write_text(script)
        return None
    if words.found:
        return Path(words.found, f'{seed}').read_text().splitlines()
    ran = subprocess.run([words.program, *WORDS], input=script.encode(), capture_output=True)
    return ran.stdout.decode().splitlines()


def main():
    words = read_words()
    if os.geteuid():
        skip('only root can give a process a root of its own')
    if not is_tmpfs(TMPFS):
        skip(f'no tmpfs is mounted at {TMPFS}')
    if not may_enter():
        skip('this process may not change its root, or owners of files')
    if not (words.write or words.found or os.access(words.program, os.X_OK)):
        sys.exit(f'linux: no program at {words.program}: run ./juicevol build')
    refusals, count, differences = Counter(), 0, 0
    for seed in range(words.seed, words.seed + words.scripts):
        lines, wanted = drawn(seed)
        count += len(lines)
        refusals += Counter((line.split(' ')[1], said) for line, said in zip(lines, wanted) if said.startswith('err'))
        found = answers_of(words, seed, lines)
        shown = found is not None and difference(lines, found, wanted)
        if shown:
            differences += 1
            print(f'seed {seed}:', *lines, f'It differs at: {shown}', sep='\n')
    pairs = f'{len(refusals)} pairs of operation and refusal'
    print(f'linux: {words.scripts} scripts, {count} lines, {pairs}, {differences} differences')
    sys.exit(1 if differences else 0)


if __name__ == '__main__':
    main()
