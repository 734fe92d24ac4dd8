"""What the tools that try `list`, `record`, `check` and `mend` have in common: the programs, the stored cases, and inputs that come in pieces."""
import fcntl
import os
import re
import subprocess
import tempfile
import termios

os.chdir(os.path.join(os.path.dirname(os.path.abspath(__file__)), '..'))


def how(name):
    """The command that runs a program. ./run looks each time whether it is out of date, which thousands of small runs need not."""
    return subprocess.run(['./run', '--how', name], stdout=subprocess.PIPE, check=True, text=True).stdout.splitlines()


LIST, RECORD, CHECK, MEND = map(how, ('list', 'record', 'check', 'mend'))


def made(oracle, *words):
    return subprocess.run([oracle, *map(str, words)], stdout=subprocess.PIPE, check=True).stdout


def stored(oracle, word, seeds):
    """What the second program makes of each line of a file of seeds, by the words that make it."""
    with open(f'oracle/{seeds}.seed', encoding='utf-8') as lines:
        for line in lines:
            words = [word, *line.split()]
            yield ' '.join(words), made(oracle, *words)


def complete(recording):
    """Without the field at its end that is cut short, so that it can be put behind itself."""
    end = at = 0
    while at <= len(recording):
        end, at = at, at + 3 + int.from_bytes(recording[at + 1:at + 3], 'big')
    return recording[:end]


def whole(command, data):
    """The command with this as a file for its standard input."""
    with tempfile.TemporaryFile() as file:
        file.write(data)
        file.seek(0)
        return subprocess.run(command, stdin=file, stdout=subprocess.PIPE, stderr=subprocess.PIPE)


def unread(pipe):
    return int.from_bytes(fcntl.ioctl(pipe, termios.FIONREAD, bytes(4)), 'little')


def peak(process):
    """The most memory that it had so far, in KiB; nothing where it has ended."""
    with open(f'/proc/{process.pid}/status', encoding='ascii', errors='replace') as status:
        found = re.search(r'^VmHWM:\s+(\d+) kB$', status.read(), re.M)
    return int(found[1]) if found else None


def in_pieces(command, pieces):
    """The command with these at its standard input. Each is written when the one before was read, so that one reading gives one piece.
    Also its peak of memory before the end of the input."""
    with tempfile.TemporaryFile() as out, tempfile.TemporaryFile() as told:
        process = subprocess.Popen(command, bufsize=0, stdin=subprocess.PIPE, stdout=out, stderr=told)
        try:
            for piece in pieces:
                process.stdin.write(piece)
                while unread(process.stdin) and process.poll() is None:
                    os.sched_yield()
        except BrokenPipeError:
            pass
        memory = peak(process)
        process.stdin.close()
        status = process.wait()
        out.seek(0)
        told.seek(0)
        return subprocess.CompletedProcess(command, status, out.read(), told.read()), memory
