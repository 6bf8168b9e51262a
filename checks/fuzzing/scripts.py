"""How a script is read line by line, what its lines are answered, and how a run has to end, by docs/FORMATS.md."""
import collections
import re

from fuzzing.files import NAMES, Wrong, below, has_harm, may_be_opened, opened, same_logs


# ---- the lines of a script, by docs/FORMATS.md

NUMBER = re.compile(rb'0|[1-9][0-9]*')
NAME = re.compile(rb'[!-~]{1,128}')
ONE_NUMBER = [b'kill', b'deaf', b'hear', b'expire', b'tick', b'held', b'member', b'clock', b'step']
WORKERS = [b'kill', b'deaf', b'hear', b'expire', b'tick', b'held', b'member', b'rest']
MOST_LINES, MOST_LINE = 1000000, 65536


def is_number(word, most=2**64 - 1):
    return NUMBER.fullmatch(word) is not None and int(word) <= most


def fault_of(line):
    """The kind of a line's first fault; None where it has none."""
    word, *words = line.split(b' ')
    if word in ONE_NUMBER:
        fits, good = len(words) == 1, lambda: is_number(words[0])
    elif word == b'init':
        fits, good = len(words) == 1, lambda: is_number(words[0], 2**32 - 1)
    elif word == b'settle':
        fits, good = len(words) == 1, lambda: is_number(words[0], 1000000) and words[0] != b'0'
    elif word == b'spawn':
        fits, good = not words, lambda: True
    elif word == b'rest':
        fits, good = len(words) >= 3, lambda: is_number(words[0])
    elif word == b'commit':
        fits, good = len(words) % 2 == 0 and 4 <= len(words) <= 34, lambda: are_parts(words)
    elif word == b'take':
        fits, good = len(words) == 2, lambda: is_number(words[1])
        if fits and not NAME.fullmatch(words[0]):
            return 'BadName'
    elif word == b'compact':
        if len(words) != 1:
            return 'Count'
        return None if words[0] in (b'config', b'offsets', b'status') else 'BadName'
    else:
        return 'NoWord'
    if not fits:
        return 'Count'
    return None if good() else 'Number'


def are_parts(words):
    if not is_number(words[0], 2**32 - 1) or not is_number(words[1]):
        return False
    parts, ends = words[2::2], words[3::2]
    return all(is_number(part, 2**32 - 1) for part in parts) and all(map(is_number, ends)) and len(set(parts)) == len(parts)


def read_script(script):
    """The numbers and lines of its directives, up to the first fault, and that fault as standard error tells it."""
    lines = script.split(b'\n')
    if lines[-1] == b'':
        lines.pop()
    directives = []
    for number, line in enumerate(lines, 1):
        if number > MOST_LINES or len(line) > MOST_LINE:
            return directives, number, b'status 2 TooLong\n'
        if line == b'' or line.startswith(b'#'):
            continue
        kind = fault_of(line)
        if kind is not None:
            return directives, number, b'status 2 BadScript %d %s\n' % (number, kind.encode())
        directives.append((number, line))
    return directives, len(lines) + 1, b''


N = rb'(?:0|[1-9][0-9]*)'
ITEM = rb'(?:c/[!-~]+|t/[!-~]+/' + N + rb')'
PARTITION = rb'\{[ -~]+\}'
TICKED = (rb'(?:(?:read|join|close|plan|sync|lead) N|stop ITEM|propose [!-~]+ N|commit [!-~]+ N|fence [!-~]+/N N|fenced [!-~]+ N|'
          rb'mark (?:batches|offsets) [!-~]+ N N (?:commit|abort)|start ITEM N|report ITEM [A-Z]+|idle|lostlead N N|dead)')
STEPPED = (rb'(?:init N|verify N|fetch|produce PARTITION N N|offsets|commit PARTITION N N|deliver [!-~]+ N N|atend|paused|'
           rb'stale N N|pending|fenced N N|linetoolong N|gone|failed)')
UUID = rb'[0-9a-f]{8}-[0-9a-f]{4}-5[0-9a-f]{3}-[89ab][0-9a-f]{3}-[0-9a-f]{12}'
FORMS = {
    b'init': rb'epoch N', b'commit': rb'committed(?: N N N)+|fenced N N|badcut N N', b'spawn': rb'worker N|toomany 64',
    b'kill': rb'(?:killed|dead) N', b'deaf': rb'(?:deaf|dead) N', b'hear': rb'(?:hears|dead) N', b'expire': rb'(?:expired|unknown|dead) N',
    b'clock': rb'clock N', b'tick': rb'tick N ' + TICKED, b'step': rb'step N ' + STEPPED, b'settle': rb'(?:quiet|unquiet) N',
    b'rest': rb'(?:20[0-2] .+|20[24]|40[0459] .+|50[07] .+|dead N)', b'held': rb'held N(?: ITEM)*|dead N',
    b'member': rb'member N ' + UUID + rb'|(?:none|dead) N', b'take': rb'record N .*|none', b'compact': rb'compacted (?:config|offsets|status) N N',
}
FORMS = {word: re.compile(form.replace(b'PARTITION', PARTITION).replace(b'ITEM', ITEM).replace(b' N', b' ' + N).replace(b'/N', b'/' + N), re.S)
         for word, form in FORMS.items()}


def judge_answers(directives, answers):
    """Each answer is of the form of its directive, and whoever is named was there. Gives how many workers there are."""
    workers = 0
    for (number, line), answer in zip(directives, answers):
        words = line.split(b' ')
        if not FORMS[words[0]].fullmatch(answer):
            raise Wrong(f'line {number}, {line[:100]!r}, is answered by {answer[:200]!r}')
        if words[0] in WORKERS and int(words[1]) >= workers:
            raise Wrong(f'line {number}, {line[:100]!r}, names a worker that never was, and is answered by {answer[:200]!r}')
        workers += answer.startswith(b'worker ')
    return workers


# ---- how a run of drive or audit has to end

ONE_LINE = {1: b'status 1 Usage\n', 3: b'status 3 ReadFault\n', 4: b'status 4 WriteFault\n', 5: b'status 5 StoreFault\n',
            6: b'status 6 Damaged\n', 7: b'status 7 ShelfFault\n', 8: b'status 8 OutletFault\n', 9: b'status 9 NetFault\n', 0: b''}
BAD_LINE = re.compile(rb'status 2 BadScript ([1-9][0-9]*) (NoWord|Count|Number|BadName|NoWorker|NoInstance)\n|status 2 TooLong\n')
PLAIN_SINK = re.compile(rb'"file" *: *"[A-Za-z0-9_-]+"')


class Run(collections.namedtuple('Run', 'status answers said')):
    """How a run ended: its status, what it wrote, and what it said on standard error."""


def judge_line(done, may):
    """The status is one of those that may come, with its line."""
    if done.status not in may:
        raise Wrong(f'it ends with status {done.status}, and says {done.said[:300]!r}; {sorted(may)} may come')
    if done.status == 2:
        if not BAD_LINE.fullmatch(done.said):
            raise Wrong(f'with status 2 it says {done.said[:300]!r}')
    elif done.said != ONE_LINE[done.status]:
        raise Wrong(f'with status {done.status} it says {done.said[:300]!r}')


def may_fail_to_hand_out(script, logs):
    """Whether a sink may name a file that can't be written, as `a/b` or `..`."""
    texts = [script] + [content for name, content in logs.items() if name.startswith('config')]
    return any(b'Sink' in text and (b'\\u' in text or text.count(b'"file"') > len(PLAIN_SINK.findall(text))) for text in texts)


def judge_script(script, done, is_sound):
    """What was answered is what is due at this status. Over logs that were changed a record may have any bytes."""
    directives, end, fault = read_script(script)
    answers = done.answers.split(b'\n')
    if answers.pop() != b'':
        raise Wrong(f'the last answer isn\'t whole: {done.answers[-100:]!r}')
    if not is_sound and any(line.startswith(b'take') for _, line in directives):
        return
    if done.status == 0 and fault:
        raise Wrong(f'{fault!r} is due, and it ends with status 0')
    if done.status == 8:
        return judge_answers(directives, answers)
    if done.status == 2 and done.said != fault:
        told = BAD_LINE.fullmatch(done.said)
        if told[1] is None or int(told[1]) >= end or told[2] not in (b'NoWorker', b'NoInstance'):
            raise Wrong(f'it says {done.said!r}, and {fault!r} is due')
        end = int(told[1])
    played = [directive for directive in directives if directive[0] < end]
    if len(answers) != len(played):
        raise Wrong(f'{len(played)} directives have {len(answers)} answers')
    workers = judge_answers(played, answers)
    if done.status == 2 and done.said != fault:
        line = dict(directives).get(end, b'').split(b' ')
        is_worker, is_step = line[0] in WORKERS and int(line[1]) >= workers, line[0] == b'step'
        if not (is_worker if told[2] == b'NoWorker' else is_step):
            raise Wrong(f'it says {done.said!r} of {b" ".join(line)[:100]!r}')


def judge_growth(before, after, is_opening):
    """What a run that wasn't refused may have done to the files. An opening alone has exact ones."""
    if below(before, 'feeds') != below(after, 'feeds'):
        raise Wrong('the feeds have changed')
    for name, content in below(before, 'out').items():
        if not below(after, 'out').get(name, b'').startswith(content):
            raise Wrong(f'the file {name} of a sink has changed but at its end')
    logs, left = opened(below(before, 'connect-data'))[0], below(after, 'connect-data')
    if is_opening:
        name = same_logs(logs, left)
        if name is not None:
            raise Wrong(f'the file {name} is not as an opening leaves it')
        if below(before, 'out') != below(after, 'out'):
            raise Wrong('an opening has changed the files of sinks')
        return
    for name in ('txn', 'batches'):
        if not left[name].startswith(logs[name][:-1]):
            raise Wrong(f'the file {name} has changed before its end')
    if has_harm(left):
        raise Wrong('it leaves files that have a harm')


def judge_damaged(before, after):
    """Nothing that counts was changed."""
    if below(before, 'feeds') != below(after, 'feeds') or below(before, 'out') != below(after, 'out'):
        raise Wrong('the feeds or the files of sinks have changed, and the logs are damaged')
    left, ways = below(after, 'connect-data'), may_be_opened(below(before, 'connect-data'))
    for name in left.keys() | ways.keys():
        if left.get(name, b'') not in ways.get(name, [b'']):
            raise Wrong(f'the logs are damaged, and the file {name} has changed otherwise than by opening it')


AUDIT = re.compile(rb'(?:tid [!-~]+ epoch N\n)*(?:part [ -~]+ base N end (?:N|none)\n)*'
                   rb'(?:connector [!-~]+ generation N count N pending (?:yes|no)\n)*feeds (agree|differ)\n'.replace(b'N', N))


def judge_audit(after, done, is_sound):
    """The report has its lines, with the sizes that the files have; over what this program left the feeds agree."""
    sizes = opened(below(after, 'connect-data'))[1]
    head = ''.join(f'log {NAMES[log]} frames {frames} bytes {length}\n' for log, (frames, length) in sizes.items()).encode()
    rest = AUDIT.fullmatch(done.answers[len(head):]) if done.answers.startswith(head) else None
    if rest is None:
        raise Wrong(f'the report is {done.answers[:600]!r}, and its first lines have to be {head!r}')
    if is_sound and rest[1] != b'agree':
        raise Wrong(f'the feeds differ, and nobody has changed them: {done.answers[:600]!r}')
