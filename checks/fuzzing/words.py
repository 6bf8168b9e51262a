"""Whether words are a command, by the definition of the commands."""
from fuzzing.scripts import NAME, is_number


RANGES = {'delay': (0, 2**40), 'workers': (1, 64), 'runners': (1, 64), 'handlers': (1, 64), 'conns': (1, 10000)}
OPTIONS = {'drive': ['group', 'delay'], 'audit': ['group', 'delay'], 'gen': ['group', 'delay'], 'serve': ['group', *RANGES]}


def are_command(words):
    """Whether words are a command; None where this reader doesn't tell."""
    try:
        words = [word.decode() for word in words]
    except UnicodeDecodeError:
        return False
    if not words or words[0] not in OPTIONS:
        return None if words and words[0] == '--' else False
    command, rest, found, values = words[0], words[1:], {}, []
    if '--' in rest or '-' in rest:
        return None
    while rest:
        word = rest.pop(0)
        if not word.startswith('-'):
            values.append(word)
            continue
        name, sign, value = word[2:].partition('=')
        if not word.startswith('--') or name not in OPTIONS[command] or name in found:
            return False
        if not sign:
            if not rest or rest[0].startswith('-'):
                return False
            value = rest.pop(0)
        found[name] = value
    if len(values) != (2 if command == 'gen' else 0):
        return False
    if command == 'gen' and not (in_range(values[0], 0, 2**64 - 1) and in_range(values[1], 1, 1000000)):
        return False
    is_group = NAME.fullmatch(found.get('group', 'g').encode()) is not None
    return is_group and all(name == 'group' or in_range(value, *RANGES[name]) for name, value in found.items())


def in_range(text, least, most):
    return text.isascii() and is_number(text.encode(), most) and int(text) >= least
