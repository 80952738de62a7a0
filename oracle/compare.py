#!/usr/bin/env python3
"""Compares the program with the oracle's model, over scripts that are drawn from seeds.

Each script is a scene of its own. Compared are every answer, the status, the number of the journal's entries, and the
objects and rows that are left. The last line that is printed has the sums; the status is 1 where something differs.
"""

import argparse
import os
import subprocess
import sys
from collections import Counter
from itertools import zip_longest
from pathlib import Path

from draw import Drawing
from model import Model

SCENES = Path(__file__).resolve().parent.parent / 'crates/scenes/out/scenes'
BATCH = 20  # how many scripts are in memory at once
# The first words of the lines that are compared of what a scene prints.
COMPARED = 'out', 'status', 'entries', 'object', 'row'


def write_scene(name, settings, lines):
    """A volume's format, and a session with the script."""
    prefix = ' --hash-prefix' if settings.hash_prefix else ''
    limits = f'--trash-days {settings.trash_days} --capacity {settings.capacity} --inodes {settings.inode_limit}'
    sizes = f'--cache-size {settings.cache_size} --buffer-size {settings.buffer_size}'
    return f"""scene {name}
words format sqlite3://v.db test --bucket b --block-size {settings.block_size >> 10}K {limits}{prefix}
clock {settings.clock}
rows none
show blocks
show rows
again session sqlite3://v.db --max-uploads 0 {sizes}
script
""" + '\n'.join([*lines, 'end', ''])  # fmt: skip


def run_program(program, scenes):
    """What the program prints of the session of each scene, by the scene's name."""
    ran = subprocess.run([program], input='\n'.join(scenes).encode(), capture_output=True)
    printed = {}
    for scene in f'\n{ran.stdout.decode()}'.split('\nscene ')[1:]:
        name, _, runs = scene.partition('\n')
        lines = runs.partition('\nagain\n')[2].split('\n')
        printed[name] = [line for word in COMPARED for line in lines if line.partition(' ')[0] == word]
    return printed


def print_model(model, answers):
    """What the program has to print, by a model that gave these answers."""
    sums = ['status 0', f'entries {model.entries}']
    return [f'out {answer}' for answer in answers] + sums + model.volume.print_left()


def difference(lines, found, wanted):
    """The first line of a script whose answer differs, or what differs at its end, with both; or None."""
    for line, theirs, ours in zip_longest(lines, found, wanted):
        if theirs != ours:
            return f"{line or 'the end'}\n  program: {theirs}\n  model:   {ours}"
    return None


def compare_lines(program, settings, lines):
    """The difference that a script shows, with a model of its own."""
    model = Model(settings)
    wanted = print_model(model, [model.answer(line) for line in lines])
    found = run_program(program, [write_scene('alone', settings, lines)])
    return difference(lines, found.get('alone', []), wanted)


def shrink(program, settings, lines):
    """A shorter script of which the same is to be said: the program and the model differ."""
    size = len(lines) // 2
    while size:
        start, before = 0, len(lines)
        while start < len(lines):
            shorter = lines[:start] + lines[start + size :]
            if compare_lines(program, settings, shorter):
                lines = shorter
            else:
                start += size
        if size > 1 or len(lines) == before:
            size //= 2
    return lines


def read_words():
    """The options."""
    parser = argparse.ArgumentParser(description='Compares the program with a model of it, over drawn scripts.')
    parser.add_argument('--scripts', type=int, default=2000, help='how many scripts are drawn')
    parser.add_argument('--seed', type=int, default=0, help='the first seed; each script has the next one')
    parser.add_argument('--shrink', action='store_true', help='make a script that differs shorter')
    parser.add_argument('--program', default=os.environ.get('SCENES', SCENES), help='the program that runs scenes')
    return parser.parse_args()


def compare_batch(words, seeds):
    """Draws a script from each seed, and returns it with the difference that it shows, or None."""
    drawings = [Drawing(seed) for seed in seeds]
    scenes = [write_scene(drawing.seed, drawing.settings, drawing.lines) for drawing in drawings]
    printed = run_program(words.program, scenes)
    for drawing in drawings:
        found, wanted = printed.get(f'{drawing.seed}', []), print_model(drawing.model, drawing.answers)
        yield drawing, difference(drawing.lines, found, wanted)


def report(words, drawing, shown):
    """Prints a script that shows a difference."""
    settings, lines = drawing.settings, drawing.lines
    if words.shrink:
        lines = shrink(words.program, settings, lines)
        shown = compare_lines(words.program, settings, lines)
    print(f'seed {drawing.seed}: {settings}', *lines, f'It differs at: {shown}', sep='\n')


def main():
    words = read_words()
    refusals, lines, differences = Counter(), 0, 0
    last = words.seed + words.scripts
    for first in range(words.seed, last, BATCH):
        for drawing, shown in compare_batch(words, range(first, min(last, first + BATCH))):
            refusals += drawing.model.refusals
            lines += len(drawing.lines)
            if shown:
                differences += 1
                report(words, drawing, shown)
    pairs = f'{len(refusals)} pairs of operation and refusal'
    print(f'oracle: {words.scripts} scripts, {lines} lines, {pairs}, {differences} differences')
    sys.exit(1 if differences else 0)


if __name__ == '__main__':
    main()
