"""What the gate's checks have in common: they look at the repository from its top, and say what is wrong with it."""
import os
import re
import sys

os.chdir(os.path.join(os.path.dirname(os.path.abspath(__file__)), '..'))


def files_below(top):
    """The repository's own files, in order: not what is built, nor the unfinished work that is kept as a patch."""
    for folder, folders, names in os.walk(top):
        below = [os.path.normpath(os.path.join(folder, name)) for name in folders]
        folders[:] = sorted(os.path.basename(path) for path in below if not is_passed(path))
        yield from sorted(os.path.normpath(os.path.join(folder, name)) for name in names)


def is_passed(folder):
    return folder in ('.git', 'target', 'docs/wip') or re.fullmatch(r'crates/[^/]+/out', folder)


def text_of(path):
    with open(path, encoding='utf-8', errors='replace') as page:
        return page.read()


def verdict(faults, said):
    """Ends the check where there is a fault; else says what was looked at."""
    tool = os.path.basename(sys.argv[0])
    for fault in faults:
        print(f'{tool}: {fault}', file=sys.stderr)
    if faults:
        sys.exit(1)
    print(f'{tool}: {said}')
