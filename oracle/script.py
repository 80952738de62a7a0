"""Reads the lines of a script, and prints what answers have: names, paths and bytes."""

import re

CLIENTS = 'ABCDEFGH'
PLAIN = b'ABCDEFGHIJKLMNOPQRSTUVWXYZabcdefghijklmnopqrstuvwxyz0123456789._-~'


def read_line(text):
    """A line's order, its client, and its operation with the arguments. The line has to be well-formed.

    The order is `tick`, which has the seconds as its argument, `crash`, `step`, `run` or `begin`, or `do` where an
    operation runs to its end.
    """
    words = text.split(' ')
    if words[0] == 'tick':
        return 'tick', 0, '', (int(words[1]),)
    client, order = CLIENTS.index(words[0]), words[1]
    if order in ('step', 'run', 'crash'):
        return order, client, '', ()
    name, *arguments = words[2:] if order == 'begin' else words[1:]
    values = tuple(read_argument(name, place, word) for place, word in enumerate(arguments))
    return order if order == 'begin' else 'do', client, name, values


def read_argument(operation, place, word):
    """A path or target, a rename's form, a write's bytes, an octal mode, or a number."""
    if word[0] == '/' or (operation, place) == ('symlink', 0):
        return re.sub(rb'%(..)', lambda match: bytes.fromhex(match[1].decode()), word.encode())
    if operation == 'rename':
        return word
    if (operation, place) == ('write', 2):
        return read_data(word)
    return int(word, 8 if operation in ('mkdir', 'create', 'chmod') else 10)


def read_data(word):
    """The bytes of a write: `-`, or parts that are digits or a byte with a count."""
    data = bytearray()
    for part in word.replace('-', '').split('+'):
        digits, repeated, count = part.partition('x')
        data += bytes.fromhex(digits) * (int(count) if repeated else 1)
    return bytes(data)


def print_text(text, plain=b''):
    """A name as it is printed; a path or target has its slashes plain."""
    return ''.join(chr(byte) if byte in PLAIN + plain else f'%{byte:02X}' for byte in text)


def print_data(data):
    """Bytes as a read prints them: equal ones with a count, from four on."""
    words = []
    for run in re.finditer(rb'(.)\1*', data, re.DOTALL):
        digits, length = run[1].hex(), run.end() - run.start()
        words.append(f'+{digits}x{length}+' if length > 3 else digits * length)
    return ''.join(words).replace('++', '+').strip('+') or '-'
