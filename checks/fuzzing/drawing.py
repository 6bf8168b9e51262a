"""All that is drawn from a seed: scripts, folders, words, and what clients send."""
import json
import pathlib
import random
import re
import struct

from fuzzing.files import PAIRS
from fuzzing.scripts import MOST_LINE, MOST_LINES

TOP = pathlib.Path(__file__).resolve().parent.parent.parent
MOVES = 400        # of one settle
MOST_MOVES = 3000  # of one script


ODD_NUMBERS = [0, 1, 2, 3, 7, 16, 17, 63, 64, 65, 127, 128, 255, 256, 999, 1000, 1001, 65535, 65536, 99999, 100000, 100001, 2**31 - 1, 2**31,
               2**32 - 1, 2**32, 2**40, 2**40 + 1, 2**48 - 1, 2**48, 2**53, 2**63 - 1, 2**63, 2**64 - 1, 2**64, 10**30]
ODD_TEXTS = [b'', b'-1', b'+1', b'00', b'01', b'1.5', b'1e3', b'0x1', b' ', b'\t', b'\r', b'\0', b'\xff', b'\xc3\xa9', b'null', b'#', b'{', b'%00', b'*']
WORDS = [b'init', b'commit', b'spawn', b'kill', b'deaf', b'hear', b'expire', b'tick', b'held', b'member', b'clock', b'step', b'settle',
         b'rest', b'take', b'compact', b'Spawn', b'jump', b'init0']
CLASSES = ['FileStreamSource', 'FileSetSource', 'SequenceSource', 'FileStreamSink', 'FileStreamSourceConnector', 'JdbcSource',
           'org.apache.kafka.connect.file.FileStreamSinkConnector']
METHODS = ['GET', 'POST', 'PUT', 'DELETE', 'PATCH']


class Drawn:
    """All that is drawn from a seed: scripts, folders, words and what clients send."""

    def __init__(self, seed):
        self.chance = random.Random(seed)
        self.cases = [path for place in ('checks/cases', 'examples') for path in sorted((TOP / place).iterdir()) if (path / 'script').is_file()]
        self.cases += [path / 'again' for path in self.cases if (path / 'again' / 'script').is_file()]
        self.scripts = [(path / 'script').read_bytes() for path in self.cases]
        self.feeds = [self.feeds_of(path) for path in self.cases]
        self.all_feeds = {path: content for feeds in self.feeds for path, content in feeds.items()}
        lines = {line for script in self.scripts for line in script.split(b'\n') if line and not line.startswith(b'#')}
        self.lines = sorted(lines)
        self.calls = sorted({tuple(line.split(b' ', 4)[2:]) for line in lines if line.startswith(b'rest ') and line.count(b' ') >= 3})

    @staticmethod
    def feeds_of(path):
        folder = path.parent / 'feeds' if path.name == 'again' else path / 'feeds'
        return {f'feeds/{file.name}': file.read_bytes() for file in sorted(folder.iterdir())} if folder.is_dir() else {}

    def is_one_in(self, count):
        return self.chance.randrange(count) == 0

    def bytes(self, most):
        return self.chance.randbytes(self.chance.randrange(most))

    # -- bytes, numbers and JSON

    def changed_bytes(self, text):
        """A text with a few bytes changed, put in or cut out."""
        text = bytearray(text)
        for _ in range(self.chance.choice([1, 1, 2, 5])):
            at, way = self.chance.randrange(len(text) + 1), self.chance.randrange(6)
            if way == 0 and at < len(text):
                text[at] ^= 1 << self.chance.randrange(8)
            elif way == 1 and at < len(text):
                text[at] = self.chance.choice(b' \n\r\t\0"{}[],:/0129aZ%?#\x7f\x80\xff')
            elif way == 2:
                text[at:at] = self.bytes(4)
            elif way == 3:
                del text[at:at + self.chance.randrange(1, 10)]
            elif way == 4:
                text[at:at] = text[max(0, at - self.chance.randrange(1, 40)):at]
            else:
                del text[at:]
                text += self.chance.choice([b'', b'\n', b'\0'])
        return bytes(text)

    def changed_number(self, text):
        """A text with one of its numbers another one."""
        found = list(re.finditer(rb'[0-9]+', text))
        if not found:
            return text
        at = self.chance.choice(found)
        near = int(at[0][:30]) + self.chance.choice([-1, 1, 1000])
        other = self.chance.choice([str(self.chance.choice(ODD_NUMBERS)).encode(), self.chance.choice(ODD_TEXTS), str(near).encode()])
        return text[:at.start()] + other + text[at.end():]

    def odd_value(self):
        """A value of JSON that isn't due where it will stand."""
        way = self.chance.randrange(9)
        if way == 0:
            return self.chance.choice([None, True, False, [], {}, '', [None], {'': ''}])
        if way == 1:
            return self.chance.choice(ODD_NUMBERS) * self.chance.choice([1, 1, -1])
        if way == 2:
            return self.chance.choice([0.5, -0.0, 1e300, float('inf'), float('nan')])
        if way == 3:
            deep = self.chance.choice(['x', {}])
            for _ in range(self.chance.choice([3, 100, 126, 127, 128, 300])):
                deep = [deep] if self.is_one_in(2) else {'a': deep}
            return deep
        if way == 4:
            return self.chance.choice('ab "\\\0\n\x7fé漢/%.') * self.chance.choice([1, 2, 127, 128, 129, 1000])
        if way == 5:
            return self.chance.choice(CLASSES + ['..', '.', 'a/b', '../o', 'orders', 'x,y,z', 'x,,y', ',', 't', '\ud800', 'c/a', '-', 'a-0'])
        if way == 6:
            return {'name': 'a', 'config': {'connector.class': self.chance.choice(CLASSES)}}
        if way == 7:
            return [{'partition': {'filename': 'orders'}, 'offset': {'position': self.chance.choice(ODD_NUMBERS)}}] * self.chance.choice([1, 2, 1001])
        return self.chance.choice(['1', '01', '-1', '1.0', 'true', '4294967296'])

    def changed_value(self, value):
        """A value of JSON that is another one at one place."""
        if self.is_one_in(4) or not isinstance(value, (dict, list)) or not value:
            return self.odd_value()
        if isinstance(value, list):
            at = self.chance.randrange(len(value))
            return value[:at] + [self.changed_value(value[at])] + value[at + self.chance.choice([0, 1, 1, 2]):]
        key, way = self.chance.choice(sorted(value)), self.chance.randrange(5)
        other = dict(value)
        if way == 0:
            del other[key]
        elif way == 1:
            other[self.chance.choice(['name', 'config', 'x', '', 'tasks.max', 'batch.size', 'é', '\0', 'a' * 1000])] = self.odd_value()
        elif way == 2:
            other[key + self.chance.choice(['x', ' ', '\0'])] = other.pop(key)
        else:
            other[key] = self.changed_value(other[key])
        return other

    def changed_json(self, text):
        """A body that is another one at one place, spelled in some way."""
        try:
            value = self.changed_value(json.loads(text))
            spelled = json.dumps(value, ensure_ascii=self.is_one_in(2), separators=self.chance.choice([(',', ':'), (', ', ': '), (' , ', ' : ')]))
            spelled = spelled.encode('utf-8', 'surrogatepass').replace(b'\n', b' ')
        except (ValueError, RecursionError):
            return self.changed_bytes(text)
        if self.is_one_in(8) and spelled[-1:] == b'}':
            spelled = spelled[:-1] + b',' + spelled[1:]  # each name twice
        return self.changed_bytes(spelled) if self.is_one_in(8) else spelled

    # -- scripts

    def config(self, kind=None):
        """A config that is mostly sound."""
        size, most = self.chance.choice([1, 3, 7, 50]), self.chance.choice([1, 2, 4, 9])
        kind = self.chance.randrange(4) if kind is None else kind
        if kind == 0:
            config = {'connector.class': 'FileStreamSource', 'file': self.chance.choice(['orders', 'x', 'tail']), 'topic': 't', 'batch.size': size}
        elif kind == 1:
            config = {'connector.class': 'FileSetSource', 'files': self.chance.choice(['x,y,z', 'orders', 'orders,x']), 'topic': 't', 'tasks.max': most,
                      'batch.size': size}
        elif kind == 2:
            config = {'connector.class': 'SequenceSource', 'partitions': self.chance.choice([1, 2, 5, 30]), 'count': self.chance.choice([0, 1, 10, 99]),
                      'topic': self.chance.choice('tu'), 'tasks.max': most, 'batch.size': size}
        else:
            config = {'connector.class': 'FileStreamSink', 'file': self.chance.choice(['o', 'p']), 'topics': self.chance.choice(['t', 't,u']), 'tasks.max': most}
        if self.is_one_in(10):
            config['x'] = 'y' * self.chance.choice([10, 1000, 40000])
        return config

    def body(self):
        """A body of a call: of a connector, a config, an alteration, or nothing."""
        way = self.chance.randrange(4)
        if way == 0:
            return b''
        if way == 1:
            offset = {'partition': {'filename': self.chance.choice(['orders', 'x'])}, 'offset': self.chance.choice([None, {'position': self.chance.choice([0, 8, 64, 96])}])}
            return json.dumps({'offsets': [offset]}).encode()
        config = self.config()
        return json.dumps(config if way == 2 else {'name': self.chance.choice('abs'), 'config': config}).encode()

    def call(self):
        """A method, a target and a body, of a case or of its own."""
        if self.is_one_in(3):
            call = self.chance.choice(self.calls)
            return call[0], call[1], call[2] if len(call) > 2 else b''
        name = self.chance.choice('aabbs')
        way = self.chance.randrange(8)
        if way == 0:
            return b'POST', b'/connectors', json.dumps({'name': name, 'config': self.config()}).encode()
        if way == 1:
            return b'PUT', f'/connectors/{name}/config'.encode(), json.dumps(self.config()).encode()
        tail = self.chance.choice(['', '/config', '/status', '/tasks', '/tasks/0/status', '/pause', '/resume', '/stop', '/restart', '/tasks/0/restart', '/offsets'])
        return self.chance.choice(METHODS).encode(), f'/connectors/{name}{tail}'.encode(), self.body() if self.is_one_in(2) else b''

    def rest_line(self):
        method, target, body = self.call()
        return b'rest %d %s %s' % (self.chance.choice([0, 0, 0, 1]), method, target) + (b' ' + body if body else b'')

    def made_line(self):
        """A line that is mostly sound."""
        way = self.chance.randrange(20)
        if way < 5:
            return b'tick %d' % self.chance.choice([0, 0, 1])
        if way < 8:
            return b'step %d' % self.chance.choice([0, 1, 1, 1, 1, 1, 1, 1, 2, 4])
        if way < 11:
            return b'settle %d' % self.chance.choice([1, 5, 20, 100, 300])
        if way < 15:
            return self.rest_line()
        return self.chance.choice([
            b'spawn', b'kill 0', b'deaf 0', b'hear 0', b'expire 0', b'expire 1', b'clock %d' % self.chance.choice([1, 299999, 300000, 2**63]), b'held 0',
            b'member 0', b'take t %d' % self.chance.choice([0, 5, 11]), b'compact config', b'compact offsets', b'compact status',
            b'init %d' % self.chance.randrange(3), b'commit 0 1 0 %d' % self.chance.randrange(20), self.chance.choice(self.lines)])

    def made_script(self):
        """A cluster with a few connectors, and then whatever comes."""
        lines = [b'spawn'] * self.chance.choice([1, 1, 2, 3]) + [b'settle 100']
        for place, name in enumerate(self.chance.sample('abs', self.chance.choice([1, 2, 3]))):
            config = self.config(2 if place == 0 else None)  # a sequence, of which the instances 0 and 1 are known to come
            lines.append(b'rest 0 POST /connectors ' + json.dumps({'name': name, 'config': config}).encode())
        lines += [b'settle %d' % self.chance.choice([20, 40, 60, 300])]
        lines += [self.made_line() for _ in range(self.chance.choice([5, 20, 60]))]
        return b'\n'.join(lines) + b'\n'

    def changed_line(self, line):
        """A line with a word, a number or a body changed."""
        words, way = line.split(b' '), self.chance.randrange(6)
        at = self.chance.randrange(len(words))
        if way == 0:
            return self.changed_number(line)
        if way == 1:
            words[at] = self.chance.choice(ODD_TEXTS + WORDS)
        elif way == 2:
            words[at:at] = [self.chance.choice(ODD_TEXTS)]
        elif way == 3:
            del words[at]
        elif words[0] == b'rest' and line.count(b' ') > 3:
            *front, body = line.split(b' ', 4)
            return b' '.join(front + [self.changed_json(body)])
        elif words[0] == b'rest':
            return b'rest 0 ' + b' '.join(self.call())
        else:
            return self.changed_bytes(line).replace(b'\n', b' ')
        return b' '.join(words)

    def changed_script(self, script):
        """A script with some lines changed, moved, doubled, dropped or taken from another one; or with bytes changed."""
        lines = script.split(b'\n')
        for _ in range(self.chance.choice([1, 1, 2, 4, 10])):
            at, way = self.chance.randrange(len(lines)), self.chance.randrange(9)
            if way <= 3:
                lines[at] = self.changed_line(lines[at])
            elif way == 4:
                lines[at:at] = [self.chance.choice(self.lines)] * self.chance.choice([1, 1, 1, 70])
            elif way == 5:
                lines[at:at + 1] = []
            elif way == 6:
                lines[at:at] = lines[at:at + self.chance.randrange(1, 20)]
            elif way == 7:
                other = self.chance.randrange(len(lines))
                lines[at], lines[other] = lines[other], lines[at]
            else:
                lines[at:at] = [self.made_line() for _ in range(self.chance.randrange(1, 10))]
            lines = lines or [b'']
        script = b'\n'.join(lines)
        return self.changed_bytes(script) if self.is_one_in(6) else script

    def large_script(self):
        """A script at a limit on lines."""
        way = self.chance.randrange(4)
        if way == 0:
            return b'init 0\n' + b'\n' * (MOST_LINES + self.chance.choice([-2, -1, 0, 1])) + self.chance.choice([b'', b'init 0'])
        if way == 1:
            return b'init 0\n#' + b'x' * (MOST_LINE + self.chance.choice([-2, -1, 0, 1])) + self.chance.choice([b'', b'\n', b'\ninit 0'])
        if way == 2:
            return b'spawn\nsettle 9\nrest 0 POST /connectors ' + b'[' * (MOST_LINE - 30 + self.chance.randrange(10)) + b'\nspawn'
        return b'init 0\ncommit 0 1' + b''.join(b' %d 1' % part for part in range(self.chance.choice([15, 16, 17, 1000]))) + b'\n'

    def script(self):
        """A script and the feeds that it is for."""
        at, way = self.chance.randrange(len(self.cases)), self.chance.randrange(20)
        if way < 2:
            script = self.bytes(self.chance.choice([10, 300, 70000]))
        elif way < 4:
            script = b'\n'.join(self.chance.choice([self.made_line(), self.bytes(20)]) for _ in range(self.chance.randrange(30)))
        elif way < 9:
            script = self.made_script()
        elif way < 12:
            script = self.changed_script(self.made_script())
        elif way < 13:
            script = self.large_script() if self.is_one_in(3) else self.scripts[at]
        else:
            script = self.changed_script(self.scripts[at])
        return tame(script), self.all_feeds if 4 <= way < 12 else self.feeds[at]

    # -- folders

    def changed_logs(self, files, others):
        """Log files with a few harms."""
        files, names = dict(files), [f'connect-data/{name}' for name in ('txn', 'batches', *(f'{log}_{side}' for log in PAIRS for side in 'ab'))]
        for _ in range(self.chance.choice([1, 1, 1, 2, 4])):
            name, way = self.chance.choice(names), self.chance.randrange(12)
            file = bytearray(files.get(name) or b'')
            at = self.chance.randrange(len(file) + 1)
            if way == 0:
                file[at:at + 1] = bytes([self.chance.randrange(256)])
            elif way == 1 and at < len(file):
                file[at] ^= 1 << self.chance.randrange(8)
            elif way == 2 and len(file) > 16:
                place = self.chance.randrange(17)
                file[place] = self.chance.choice([0, 1, 2, 255])
            elif way == 3:
                del file[at:]
            elif way == 4:
                file += self.chance.choice([b'\0', b'\1', self.bytes(40), b'\1\0\0\0\1\0'])
            elif way == 5:
                file[:] = self.bytes(60)
            elif way == 6:
                file[:] = self.chance.choice(others).get(self.chance.choice([name, self.chance.choice(names)])) or b''
            elif way == 7:
                files.pop(name, None)
                continue
            else:
                self.change_frames(file)
            files[name] = bytes(file)
        return files

    def change_frames(self, file):
        """Changes a log at its frames: one is doubled, dropped, moved, or changed at its length or its body."""
        frames, at = [], 16
        while at + 5 <= len(file) and file[at] != 0:
            end = at + 5 + int.from_bytes(file[at + 1:at + 5], 'big')
            frames.append(bytes(file[at:end]))
            at = end
        if not frames:
            return
        place, way = self.chance.randrange(len(frames)), self.chance.randrange(6)
        if way == 0:
            frames[place:place] = [frames[place]]
        elif way == 1:
            del frames[place]
        elif way == 2:
            other = self.chance.randrange(len(frames))
            frames[place], frames[other] = frames[other], frames[place]
        elif way == 3:
            body = self.changed_bytes(frames[place][5:])
            frames[place] = b'\1' + struct.pack('>I', len(body)) + body
        elif way == 4:
            body = bytearray(frames[place])
            spot = self.chance.randrange(1, len(body))
            body[spot] = self.chance.choice([0, 1, 2, 3, 4, 127, 128, 255, body[spot] ^ 1])
            frames[place] = bytes(body)
        else:
            frames[place] = self.chance.choice([b'\0', b'\1', b'\xff']) + frames[place][1:]
        file[16:] = b''.join(frames) + self.chance.choice([b'\0', b'\0', b'\0', b'', b'\1'])

    # -- words

    def words(self):
        """Words of a command line, as bytes."""
        number = lambda: self.chance.choice([str(self.chance.choice(ODD_NUMBERS)), str(self.chance.randrange(20)), '300000', '-1', '01', '+1', ''])
        command = self.chance.choice(['drive', 'drive', 'audit', 'gen', 'serve', '', 'help', 'Drive', 'dri', '--help', '-h', '--version', 'replay'])
        words = [command] if not self.is_one_in(20) else []
        if command == 'gen' and not self.is_one_in(5):
            words += [number(), number()]
        for _ in range(self.chance.choice([0, 0, 1, 1, 2, 4])):
            option = self.chance.choice(['--group', '--group', '--delay', '--workers', '--runners', '--handlers', '--conns', '--help', '-h', '--', '-', '--grou', '-g'])
            value = self.chance.choice(['g', 'a b', '', 'x' * 128, 'x' * 129, 'é', '--group', '-x']) if option == '--group' else number()
            words += [[option, value], [f'{option}={value}'], [option]][self.chance.choice([0, 0, 1, 1, 2])]
        words = [word.encode() for word in words]
        for _ in range(self.chance.choice([0, 0, 0, 1, 2])):
            at, way = self.chance.randrange(len(words) + 1), self.chance.randrange(4)
            if way == 0:
                words[at:at] = [self.chance.choice(ODD_TEXTS + [self.bytes(9), b'x' * 100000])]
            elif way == 1 and at < len(words):
                words[at] = self.changed_bytes(words[at])
            elif way == 2:
                del words[at:at + 1]
            elif at < len(words):
                words[at:at] = [words[at]]
        return [word.replace(b'\0', b'') for word in words]

    # -- connections

    def head_lines(self, body):
        """The fields of a request, each as a line without its end."""
        fields = [b'Host: localhost:8083'] if not self.is_one_in(4) else []
        if body or self.is_one_in(6):
            length = b'%d' % len(body)
            if self.is_one_in(5):
                length = self.chance.choice([b'', b'0', b'00', b'+1', b'-1', b'%d, %d' % (len(body), len(body)), b'1048576', b'1048577', b'9' * 18, b'9' * 19,
                                             b'0x10', b'%d' % (len(body) + 5), b'%d' % max(0, len(body) - 5), b'000000000000000002', b'1.0', b'2\t', b' 2'])
            fields.append(self.chance.choice([b'Content-Length', b'content-length', b'CONTENT-LENGTH', b'Content-length']) + b': ' + length)
            if self.is_one_in(15):
                fields.append(self.chance.choice([fields[-1], b'Content-Length: 3']))
        if self.is_one_in(12):
            fields.append(self.chance.choice([b'Transfer-Encoding: chunked', b'transfer-encoding: identity', b'Transfer-Encoding:', b'Transfer-Encoding : chunked']))
        if self.is_one_in(5):
            fields.append(b'Connection: ' + self.chance.choice([b'close', b'Close', b'CLOSE', b'keep-alive', b'close, x', b'x, close', b'', b'upgrade', b' close ']))
        if self.is_one_in(10):
            fields.append(self.chance.choice([b'Expect: 100-continue', b'Upgrade: h2c', b'Accept: */*', b'User-Agent: ' + b'x' * 300, b'Cookie: \xff\xfe']))
        if self.is_one_in(12):
            fields += [b'X-%d: y' % number for number in range(self.chance.choice([10, 60, 61, 62, 63, 64, 65, 66, 100]))]
        if self.is_one_in(10):
            fields.append(self.chance.choice([b'X y: z', b': x', b'no colon', b' folded', b'X: a\rb', b'X: \0', b'\x01: x', b'X:', b'X:y', b'X: ' + b'z' * 9000, b'(x): y', b'X\xe9: y']))
        self.chance.shuffle(fields)
        return fields

    def request(self):
        """A request, mostly one; without its last line end now and then."""
        method, target, body = self.call()
        if body and self.is_one_in(4):
            body = self.changed_json(body)
        if self.is_one_in(60):
            body = b'{"name":"' + b'x' * self.chance.choice([1000, 2**20 - 20, 2**20, 2**20 + 1]) + b'"}'
        if self.is_one_in(8):
            target = self.chance.choice([target + b'?x=1', target + b'/', b'/' + target, b'*', b'', b'http://localhost:8083' + target, target.replace(b'a', b'%61'),
                                         target.replace(b'a', b'%'), target.replace(b'a', b'%2'), target.replace(b'a', b'%2F'), target.replace(b'a', b'%FF'),
                                         target + b'#x', target + b'?', b'/connectors/' + b'x' * self.chance.choice([128, 129, 7000]), target.replace(b'a', b'..'),
                                         target + b' x', target.replace(b'a', b'\xc3\xa9'), target.replace(b'a', b'"'), b'/connectors/%00'])
        if self.is_one_in(12):
            method = self.chance.choice([b'get', b'HEAD', b'OPTIONS', b'TRACE', b'CONNECT', b'', b'G T', b'G(T', b'X' * 500, b'GET\t', b'\xff'])
        version = b'HTTP/1.1'
        if self.is_one_in(8):
            version = self.chance.choice([b'HTTP/1.0', b'HTTP/1.0', b'HTTP/1.2', b'HTTP/2.0', b'HTTP/0.9', b'HTTP/1.1 ', b'http/1.1', b'HTTP/11', b'', b'HTTP/1.10', b'HTTP/9.9'])
        end = self.chance.choice([b'\r\n'] * 12 + [b'\n', b'\r', b'\r\r\n', b'\n\r'])
        lines = [method + b' ' + target + b' ' + version] + self.head_lines(body)
        if self.is_one_in(15):
            lines[0] = self.chance.choice([b'', b'\r', b' ']) + self.changed_bytes(lines[0])
        head = end.join(lines) + end + end
        if self.is_one_in(15):
            head = head[:-len(end)]
        if self.is_one_in(25):
            head = self.chance.choice([b'\r\n', b'\n', b'\r\n\r\n']) + head
        if self.is_one_in(25):  # at the limit on heads
            room = self.chance.choice([8191, 8192, 8193]) - len(head) - 7
            head = head[:-2] + b'X: ' + b'y' * max(0, room) + b'\r\n\r\n'
        return head + body

    def posts(self):
        """What a client sends that creates connectors."""
        bodies = [json.dumps({'name': name, 'config': self.config(2 if name == 's' else None)}).encode() for name in self.chance.sample('sab', 2)]
        return b''.join(b'POST /connectors HTTP/1.1\r\nContent-Length: %d\r\n\r\n%s' % (len(body), body) for body in bodies)

    def stream(self):
        """What a client sends."""
        way = self.chance.randrange(20)
        if way == 0:
            return self.bytes(self.chance.choice([20, 600, 9000]))
        if way == 1:
            return self.chance.choice([b'a' * 8192, b'a' * 8193, b'\r\n' * 5000, b'\n', b'', b'GET', b'\0' * 9000, b'\x16\x03\x01\x02\x00\x01\x00\x01\xfc\x03\x03' + self.bytes(500),
                                       b'PRI * HTTP/2.0\r\n\r\nSM\r\n\r\n', b'GET / HTTP/1.1\r\n' + b'X: y\r\n' * 5000])
        requests = [self.request() for _ in range(self.chance.choice([1, 1, 1, 1, 2, 3, 12]))]
        if way == 2:
            requests = [b'GET /connectors HTTP/1.1\r\n\r\n'] * self.chance.choice([99, 100, 101, 130])
        if way == 3:
            requests.append(b'4\r\nabcd\r\n0\r\n\r\n')
        text = b''.join(requests)
        if way == 4:
            text = text[:self.chance.randrange(len(text) + 1)]
        return tame(self.changed_bytes(text) if way == 5 else text)

    def pieces(self, text):
        """How what a client sends is cut."""
        way = self.chance.randrange(4)
        if way == 0 and len(text) < 3000:
            return [text[at:at + 1] for at in range(len(text))]
        if way == 1 and text:
            cuts = sorted(self.chance.randrange(len(text)) for _ in range(self.chance.randrange(1, 12)))
            return [text[start:end] for start, end in zip([0] + cuts, cuts + [len(text)]) if start < end]
        return [text] if text else []


def tame(text):
    """A text of the same meaning but for numbers that would make a run long: of records, of their batches and of moves."""
    text = re.sub(rb'((?:count|batch\.size|partitions)[":\\ ]{0,8}[0-9]{1,3})([0-9]+)', lambda found: found[1] + b' ' * len(found[2]), text)
    left = MOST_MOVES

    def settle(found):
        nonlocal left
        if len(found[1]) > 7 or int(found[1]) > 1000000:
            return found[0]
        moves = min(int(found[1]), MOVES, left)
        left -= moves
        return b'settle %d' % moves if int(found[1]) > 0 else found[0]

    return re.sub(rb'settle ([0-9]+)', settle, text)
