"""The part of compare-recordings for `check` and `mend`.

A run of a program costs much more than a field, so what can stand in one file does: copies of a recording with a byte damaged, where
that is no byte of a length. A rest, and what follows from a damaged length, needs a file of its own.
"""
import os
import re
import subprocess
import tempfile
import threading
from collections import namedtuple
from concurrent.futures import ThreadPoolExecutor

from comparing import MIB, TOLD, add, copies, cut, fine, lists, random_sizes, same, same_bytes, stop, ways
from recordings import complete, in_pieces, made, stored, whole

Programs = namedtuple('Programs', 'list record check mend')
# Of this many bytes at most are the files in which many small things stand together.
FILE = 8 * MIB
# So many KiB a program may have beside what it has for a short recording.
MORE_MEMORY = 2048
# Every length that two bytes can tell.
LENGTHS = range(65536)


def hit(oracle, way, recording):
    """The recordings that the second program makes of this one, each with one byte damaged."""
    return [bytes.fromhex(line) for line in whole([oracle, way], recording).stdout.decode().splitlines()]


def side_by_side(work, cases):
    """As many at a time as there are processors. The first failure ends all."""
    with ThreadPoolExecutor(os.cpu_count()) as pool:
        runs = [pool.submit(work, *case) for case in cases]
        try:
            return [run.result() for run in runs]
        except BaseException:
            pool.shutdown(cancel_futures=True)
            raise


def compare_one(oracle, programs, turn, name, recording):
    """Each program once: one from a file and the other from pieces, by turns. The copy."""
    add('checked and mended')
    pieces = list(cut(recording, random_sizes(turn)))
    add('pieces', len(pieces))
    got = {}
    for n, what in enumerate(('check', 'mend')):
        command = getattr(programs, what)
        from_file = (turn + n) % 2
        got[what] = whole(command, recording) if from_file else in_pieces(command, pieces)[0]
    lists(f'{name}, check', got['check'], whole([oracle, 'check'], recording).stdout)
    copies(f'{name}, mend', got['mend'], whole([oracle, 'mend'], recording).stdout)
    return got['mend'].stdout


def compare_pieces(oracle, programs, name, recording, seeds):
    """Both programs, whole and in all ways of cutting. The copy."""
    add('checked and mended')
    checked, mended = (whole([oracle, what], recording).stdout for what in ('check', 'mend'))
    lists(f'{name}, check', whole(programs.check, recording), checked)
    copies(f'{name}, mend', whole(programs.mend, recording), mended)
    for way, pieces in ways(recording, seeds):
        lists(f'{name}, check, {way}', in_pieces(programs.check, pieces)[0], checked)
        copies(f'{name}, mend, {way}', in_pieces(programs.mend, pieces)[0], mended)
    return mended


def compare_hits(oracle, programs, name, recording):
    """Every byte that is no length's damaged, the damaged recordings one behind the other. The copies."""
    damaged = hit(oracle, 'hits', complete(recording))
    add('hits', len(damaged))
    return compare_one(oracle, programs, len(damaged), f'{name}, its hits', b''.join(damaged))


def together(parts):
    """In files that are not too long."""
    file = b''
    for part in parts:
        if file and len(file) + len(part) > FILE:
            yield file
            file = b''
        file += part
    yield file


def compare_copies(oracle, programs, mended):
    """What `mend` wrote, through the programs again: nothing in it is refused, and nothing more goes from it. Copies have no rest, so
    they can stand one behind the other."""
    for n, file in enumerate(together(mended)):
        what = f'copies, file {n + 1} of them'
        listing = whole(programs.list, file)
        lists(f'{what}, list', listing, whole([oracle, 'list'], file).stdout)
        if re.search(rb'^refused', listing.stdout, re.M) or not re.search(rb'^end 0 \d+\n\Z', listing.stdout, re.M):
            stop(f'{what}, list', f'a line that a copy should not have; its last is {listing.stdout[-40:]!r}')
        checked = whole(programs.check, file)
        lists(f'{what}, check', checked, whole([oracle, 'check'], file).stdout)
        found = re.search(rb'^(bad|rest) .*', checked.stdout, re.M)
        if found:
            stop(f'{what}, check', f'a line that a copy should not have: {found[0]!r}')
        copies(f'{what}, mended again', whole(programs.mend, file), file)


def stored_cases(oracle, recordings, small):
    """What needs a run of its own, and small recordings for hits."""
    alone = recordings + small + list(stored(oracle, 'damaged', 'damaged')) + list(stored(oracle, 'damaged-lengths', 'damaged-lengths'))
    for name, recording in stored(oracle, 'small-recording', 'hits-lengths'):
        damaged = hit(oracle, 'hits-lengths', recording)
        add('hits', len(damaged))
        alone += [(f'{name}, line {n + 1} of its hits-lengths', data) for n, data in enumerate(damaged)]
        add('prefixes', len(recording) + 1)
        alone += [(f'{name}, its first {end} bytes', recording[:end]) for end in range(len(recording) + 1)]
    sound = list(stored(oracle, 'sound-recording', 'hits'))
    return alone + sound, sound


def seed_cases(oracle, seed, recordings):
    words = [('damaged', seed, 200)] + [('damaged-lengths', seed, fields) for fields in (2, 6, 60)]
    alone = recordings + [(' '.join(map(str, made_of)), made(oracle, *made_of)) for made_of in words]
    return alone, [(f'sound-recording {seed} 8', made(oracle, 'sound-recording', seed, 8))]


def compare_mending(oracle, programs, seed, recordings, small):
    alone, sound = stored_cases(oracle, recordings, small) if seed is None else seed_cases(oracle, seed, recordings)
    mended = side_by_side(compare_one, [(oracle, programs, turn, *case) for turn, case in enumerate(alone, seed or 0)])
    mended += [compare_hits(oracle, programs, *case) for case in sound]
    if seed is None:
        # A file for the long pieces, and one for the short ones, of what was compared already.
        named = dict(alone)
        long = b''.join(complete(named[name]) for name in (recordings[0][0], 'damaged 1 1000', 'damaged 2 1000'))
        compare_pieces(oracle, programs, 'three long recordings', long, (1, 2))
        short = b''.join([complete(recording) for _, recording in small[1:]] + [small[0][1]])
        compare_pieces(oracle, programs, 'small recordings', short, ())
    compare_copies(oracle, programs, mended)


def unknown_fields(lengths):
    """A field of each of these lengths, with the unknown tags by turns."""
    body = (bytes(range(251)) * 262)[:LENGTHS[-1]]
    for length in lengths:
        yield bytes([4 + length % 252]) + length.to_bytes(2, 'big') + body[:length]


def try_kept(command, lengths):
    """Unknown fields come back as they are. They are compared as they come, since all of them are more than there is room for."""
    what = f'an unknown tag, {len(lengths)} lengths, mend'
    with tempfile.TemporaryFile() as told:
        process = subprocess.Popen(command, stdin=subprocess.PIPE, stdout=subprocess.PIPE, stderr=told)

        def feed():
            try:
                for field in unknown_fields(lengths):
                    process.stdin.write(field)
                process.stdin.close()
            except BrokenPipeError:
                pass

        threading.Thread(target=feed, daemon=True).start()
        try:
            for field in unknown_fields(lengths):
                same_bytes(f'{what}, the field of {len(field) - 3}', process.stdout.read(len(field)), field)
                add('bytes copied', len(field))
            same_bytes(f'{what}, behind all fields', process.stdout.read(100), b'')
            if process.wait():
                stop(what, f'status {process.returncode}')
        finally:
            process.kill()


def try_told(command, lengths):
    what = f'an unknown tag, {len(lengths)} lengths, check'
    run, _ = in_pieces(command, unknown_fields(lengths))
    fine(what, run)
    wanted = b''.join(b'unknown %d %d\n' % (4 + length % 252, length) for length in lengths)
    same(what, run.stdout, wanted + b'fields 0 0 %d\n' % len(lengths))


def try_long(oracle, word, command, recording):
    """1 and 64 MiB: what is told of the longer one, and the memory of both."""
    memory = []
    for size in (MIB, 64 * MIB):
        data = recording * (size // len(recording) + 1)
        run, most = in_pieces(command, [data[at:at + 65536] for at in range(0, len(data), 65536)])
        what = f'{word}, a recording of {len(data)} bytes'
        wanted = whole([oracle, word], data).stdout
        (same_bytes if word == 'mend' else same)(what, run.stdout, wanted)
        told = fine(what, run)
        if bool(re.search(rb'\d', told)) != (len(data) > TOLD):
            stop(what, f'on standard error {told[-400:]!r}')
        memory.append(most or 0)
    if memory[1] > memory[0] + MORE_MEMORY:
        stop(word, f'{memory[0]} KiB of memory for 1 MiB and {memory[1]} KiB for 64 MiB')
    return f'{word} at most {memory[0]} KiB of memory for 1 MiB and {memory[1]} KiB for 64 MiB'
