"""What a server may write to whoever sends something, by docs/FORMATS.md, and clients that send it."""
import collections
import json
import re
import select
import socket
import struct
import time

from fuzzing.files import Wrong

HOST, PORT = '127.0.0.1', 8083
SECONDS = 300  # for a connection


PHRASES = {200: b'OK', 201: b'Created', 202: b'Accepted', 204: b'No Content', 400: b'Bad Request', 404: b'Not Found', 405: b'Method Not Allowed', 409: b'Conflict',
           413: b'Payload Too Large', 431: b'Request Header Fields Too Large', 500: b'Internal Server Error', 501: b'Not Implemented',
           503: b'Service Unavailable', 505: b'HTTP Version Not Supported', 507: b'Insufficient Storage'}
REPLY = re.compile(rb'HTTP/1\.1 ([0-9]{3}) ([A-Za-z ]+)\r\n(Connection: close\r\n)?(?:Content-Length: ([0-9]+)\r\n)?(Content-Type: application/json\r\n)?\r\n')
SURE_HEAD = re.compile(rb'[A-Z]+ [A-Za-z0-9/._%?=&:-]+ HTTP/1\.[01]\r\n(?:[A-Za-z0-9-]+: ?[!-~](?:[ -~]*[!-~])?\r\n)*\r\n')
HEAD_END = re.compile(rb'\n\r?\n')
REFUSALS = [431, 505, 400, 501, 413]
MOST_HEAD, MOST_BODY, MOST_REPLIES = 8192, 2**20, 100


def reply_at(text, at):
    """The reply at a place: its code, whether it tells that the connection closes, its body and where it ends. None where the text
    ends in its middle."""
    found = REPLY.match(text, at)
    if found is None:
        if text.find(b'\r\n\r\n', at) >= 0 or len(text) - at > 300:
            raise Wrong(f'no reply begins with {text[at:at + 300]!r}')
        return None
    code, length = int(found[1]), int(found[4] or 0)
    if PHRASES.get(code) != found[2]:
        raise Wrong(f'a reply has the code {code} {found[2]!r}')
    if (found[4] is None) != (code == 204) or (found[5] is not None) != (length > 0):
        raise Wrong(f'a reply has the lines {found[0]!r}')
    body = text[found.end():found.end() + length]
    if len(body) < length:
        return None
    if length:
        value = json.loads(body)
        if code >= 400 and (set(value) != {'error_code', 'message'} or value['error_code'] != code):
            raise Wrong(f'a refusal has the body {body[:300]!r}')
    return code, found[3] is not None, body, found.end() + length


def request_at(sent, at):
    """What stands at the front of what is sent: nothing whole (None), a refusal's code, or a request's end and whether it closes;
    and whether this reader is sure that it is a head."""
    front = sent[at:at + MOST_HEAD]
    end = HEAD_END.search(front)
    if end is None:
        return (None if len(sent) - at < MOST_HEAD else 431), True
    head = front[:end.end()]
    lines = head.split(b'\n')
    if len(lines) - 3 > 64:
        return 431, True
    version = re.search(rb' HTTP/([0-9])\.([0-9])$', lines[0].removesuffix(b'\r'))
    if version and (version[1], version[2]) not in ((b'1', b'0'), (b'1', b'1')):
        return 505, True
    sure = SURE_HEAD.fullmatch(head) is not None
    fields = [line.removesuffix(b'\r').partition(b':') for line in lines[1:-2]]
    fields = [(name.lower(), value.strip(b' \t')) for name, _, value in fields]
    if any(name == b'transfer-encoding' for name, _ in fields):
        return 501, sure
    lengths = [value for name, value in fields if name == b'content-length']
    if len(lengths) > 1 or not all(re.fullmatch(rb'[0-9]{1,18}', value) for value in lengths):
        return 400, sure
    length = int(lengths[0]) if lengths else 0
    if length > MOST_BODY:
        return 413, sure
    if at + len(head) + length > len(sent):
        return None, sure
    closes = (version is not None and version[2] == b'0') or any(name == b'connection' and value.lower() == b'close' for name, value in fields)
    return (at + len(head) + length, closes), sure


def judge_talk(sent, got, was_cut):
    """The replies are those of what was sent. Where the connection was reset behind bytes that weren't read, the last may be cut."""
    at, place, replies = 0, 0, 0
    while True:
        found, sure = request_at(sent, at)
        reply = reply_at(got, place) if place < len(got) else None
        if reply is None:
            if place < len(got) and not was_cut:
                raise Wrong(f'the last reply is cut: {got[place:][:300]!r}')
            if found is not None and not was_cut and sure:
                raise Wrong(f'what stands at {at}, {sent[at:at + 200]!r}, is not answered')
            return replies
        code, closes, body, end = reply
        replies += 1
        if code >= 500 and code not in (501, 505):
            raise Wrong(f'what stands at {at}, {sent[at:at + 200]!r}, is answered by {code} {body[:200]!r}')
        refused = closes and code in REFUSALS and json.loads(body)['message'] == f'HTTP {code}'
        if refused:
            if end != len(got):
                raise Wrong(f'behind a refusal comes {got[end:][:200]!r}')
            if code != found and (sure or code != 400):
                raise Wrong(f'what stands at {at}, {sent[at:at + 200]!r}, is refused by {code}, and {found} is due')
            return replies
        if not isinstance(found, tuple):
            raise Wrong(f'what stands at {at}, {sent[at:at + 200]!r}, is answered by {code} {body[:200]!r}, and {found} is due')
        if closes != (found[1] or replies == MOST_REPLIES) and sure:
            raise Wrong(f'reply {replies}, to {sent[at:at + 200]!r}, tells {"" if closes else "not "}that the connection closes')
        if closes:
            if end != len(got):
                raise Wrong(f'behind the last reply comes {got[end:][:200]!r}')
            return replies
        at, place = found[0], end


class Client:
    """A connection that sends pieces and keeps what comes; it is dropped in the middle where so many pieces are to be sent."""

    def __init__(self, pieces, drops_at=None):
        self.sent, self.pieces, self.drops_at = b''.join(pieces), collections.deque(pieces), drops_at
        self.got, self.was_reset, self.ended = bytearray(), False, False
        self.link = socket.create_connection((HOST, PORT), SECONDS)
        self.link.setsockopt(socket.IPPROTO_TCP, socket.TCP_NODELAY, 1)
        self.link.setblocking(False)
        self.finish_sending()

    def finish_sending(self):
        """Tells the end where nothing is left to be sent."""
        if not self.pieces and not self.ended and self.drops_at is None:
            try:
                self.link.shutdown(socket.SHUT_WR)
            except OSError:
                self.was_reset = True

    def send(self):
        if self.drops_at is not None:
            self.drops_at -= 1
            if self.drops_at < 0 or not self.pieces:
                self.link.setsockopt(socket.SOL_SOCKET, socket.SO_LINGER, struct.pack('ii', 1, 0))
                self.end()
                return
        try:
            count = self.link.send(self.pieces[0])
        except BlockingIOError:
            return
        except OSError:
            self.was_reset = True
            self.pieces.clear()
            return
        if count == len(self.pieces[0]):
            self.pieces.popleft()
        else:
            self.pieces[0] = self.pieces[0][count:]
        self.finish_sending()

    def receive(self):
        try:
            piece = self.link.recv(65536)
        except BlockingIOError:
            return
        except OSError:
            self.was_reset = True
            piece = b''
        self.got += piece
        if not piece:
            self.end()

    def end(self):
        self.ended = True
        self.link.close()


def talk(clients):
    """Lets all of them send and hear until each is at its end."""
    until = time.monotonic() + SECONDS
    while left := [client for client in clients if not client.ended]:
        if time.monotonic() > until:
            raise Wrong(f'{len(left)} of {len(clients)} connections have no end')
        sending = [client.link for client in left if client.pieces or client.drops_at is not None]
        readable, writable, _ = select.select([client.link for client in left], sending, [], 1)
        for client in left:
            if client.link in readable:
                client.receive()
            if not client.ended and client.link in writable:
                client.send()
