"""Folders of files, and what an opening of the logs makes of them, by docs/FORMATS.md."""
import shutil
import struct


class Wrong(Exception):
    """How the program took it isn't how it has to."""


# ---- files of a folder, by their paths

def lay(folder, files):
    """Makes a folder that holds just these."""
    shutil.rmtree(folder, ignore_errors=True)
    folder.mkdir()
    for path, content in files.items():
        place = folder / path
        place.parent.mkdir(parents=True, exist_ok=True)
        if content is None:
            place.mkdir()
        else:
            place.write_bytes(content)


def files_of(folder):
    """The files that it holds; a folder without any is None."""
    found = {}
    for path in sorted(folder.rglob('*')):
        name = str(path.relative_to(folder))
        if path.is_file():
            found[name] = path.read_bytes()
        elif not any(path.iterdir()):
            found[name] = None
    return found


def below(files, name):
    """Those below a folder."""
    return {path[len(name) + 1:]: content for path, content in files.items() if path.startswith(name + '/') and content is not None}


# ---- what an opening makes of log files, by docs/FORMATS.md

LOGS = {'config': 1, 'offsets': 2, 'status': 3, 'txn': 4, 'batches': 5}
PAIRS = ['config', 'offsets', 'status']
NAMES = {'config': 'config', 'offsets': 'offsets', 'status': 'status', 'txn': 'transactions', 'batches': 'batches'}


def made_log(kind):
    return b'\x01CWL\x01' + bytes([kind, 0, 0]) + struct.pack('>Q', 1) + b'\0'


def is_made(file):
    return len(file) > 1 and file[0] != 0


def has_bad_header(file, kind):
    return len(file) < 17 or file[6:8] != b'\0\0' or file[1:4] != b'CWL' or file[4] != 1 or file[5] != kind


def closed_gate(file):
    """Where the list of a made file ends, and how many frames stand before; None where a length is wrong."""
    at, frames = 16, 0
    while at < len(file):
        if file[at] == 0:
            return at, frames
        length = int.from_bytes(file[at + 1:at + 5], 'big')
        if at + 5 > len(file) or length == 0 or at + 5 + length > len(file):
            return None
        at, frames = at + 5 + length, frames + 1
    return None


class Damaged(Exception):
    """A file has a harm, up to Length."""


def opened_file(files, name, kind):
    """A file that is opened: what it holds then, and its frames."""
    file = files.get(name, b'')
    if not is_made(file):
        return made_log(kind), 0
    if has_bad_header(file, kind):
        raise Damaged(name)
    end = closed_gate(file)
    if end is None:
        raise Damaged(name)
    return file[:end[0] + 1], end[1]


def chosen_side(files, log):
    """The name of the file of a log that counts."""
    if log not in PAIRS:
        return log
    sides = [side for side in (f'{log}_a', f'{log}_b') if is_made(files.get(side, b''))]
    if any(has_bad_header(files[side], LOGS[log]) for side in sides):
        raise Damaged(log)
    numbers = [files[side][8:16] for side in sides]
    if len(sides) == 2 and numbers[0] == numbers[1]:
        raise Damaged(log)
    return max(zip(numbers, sides))[1] if sides else f'{log}_a'


def opened(files):
    """The files of connect-data as an opening leaves them, and the frames and length of each log. A missing one counts as empty."""
    left, sizes = {f'{log}_{side}': files.get(f'{log}_{side}', b'') for log in PAIRS for side in 'ab'}, {}
    for log, kind in LOGS.items():
        name = chosen_side(files, log)
        left[name], frames = opened_file(files, name, kind)
        sizes[log] = frames, len(left[name])
    return left, sizes


def has_harm(files):
    try:
        opened(files)
    except Damaged:
        return True
    return False


def may_be_opened(files):
    """For each file what a run may leave that found another one damaged: as it was, or opened."""
    ways = {}
    for log, kind in LOGS.items():
        for name in [log] if log not in PAIRS else [f'{log}_a', f'{log}_b']:
            ways[name] = [files.get(name, b'')]
            try:
                if chosen_side(files, log) == name:
                    ways[name].append(opened_file(files, name, kind)[0])
            except Damaged:
                pass
    return ways


def same_logs(one, other):
    """Whether these are the same log files, a missing one taken as empty."""
    names = one.keys() | other.keys()
    return next((name for name in sorted(names) if one.get(name, b'') != other.get(name, b'')), None)
