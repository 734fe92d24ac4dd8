"""What compare-recordings and its parts have in common: counts, what is the same, and how input is cut."""
import random
import sys
import threading

# All the lengths around the longest body, with its tag and length and without; small pieces for what is short.
SIZES = [1, 2, 3, 1471, 1472, 1473, 1474, 1475, 1476]
MOST_PIECES = 3000
MIB = 1 << 20
# Over this a program tells how far it has come.
TOLD = 16 * MIB
count = dict.fromkeys(('recordings', 'prefixes', 'pieces', 'lines', 'checked and mended', 'hits', 'bytes copied'), 0)
counting = threading.Lock()


def add(what, number=1):
    with counting:
        count[what] += number


def stop(what, why):
    sys.exit(f'compare-recordings: {what}: {why}')


def same(what, got, wanted):
    """Ends with the first line that differs, and the one before it."""
    add('lines', wanted.count(b'\n'))
    if got == wanted:
        return
    ours, theirs = got.split(b'\n'), wanted.split(b'\n')
    n = next((n for n, (a, b) in enumerate(zip(ours, theirs)) if a != b), min(len(ours), len(theirs)))
    shown = [repr(lines[n][:300])[1:] if n < len(lines) else 'nothing' for lines in (ours, theirs)]
    before = f' behind {repr(theirs[n - 1][:300])[1:]}' if n else ''
    stop(what, f'line {n + 1}{before}\n  is        {shown[0]}\n  should be {shown[1]}')


def same_bytes(what, got, wanted):
    if got != wanted:
        n = next((n for n, (a, b) in enumerate(zip(got, wanted)) if a != b), min(len(got), len(wanted)))
        stop(what, f'byte {n} of {len(got)}, and there should be {len(wanted)}\n  is        {got[n:n + 40].hex(" ")}\n'
             f'  should be {wanted[n:n + 40].hex(" ")}')


def fine(what, run):
    """Ended well; what it told on standard error."""
    if run.returncode:
        stop(what, f'status {run.returncode}, and on standard error {run.stderr[-400:]!r}')
    return run.stderr


def lists(what, run, listing):
    same(what, run.stdout, listing)
    same(f'{what}, standard error', fine(what, run), b'')


def copies(what, run, copy):
    same_bytes(what, run.stdout, copy)
    same(f'{what}, standard error', fine(what, run), b'')
    add('bytes copied', len(copy))


def cut(data, sizes):
    at = 0
    while at < len(data):
        size = next(sizes)
        yield data[at:at + size]
        at += size


def random_sizes(seed):
    chance = random.Random(seed)
    while True:
        yield chance.randint(1, chance.choice((4, 1500, 1500, 65536)))


def ways(recording, seeds):
    """The pieces of chosen and of random sizes, with the words for them."""
    chosen = [(f'pieces of {size}', iter(lambda size=size: size, 0)) for size in SIZES if len(recording) <= size * MOST_PIECES]
    for way, sizes in chosen + [(f'random pieces, {seed}', random_sizes(seed)) for seed in seeds]:
        pieces = list(cut(recording, sizes))
        add('pieces', len(pieces))
        yield way, pieces
