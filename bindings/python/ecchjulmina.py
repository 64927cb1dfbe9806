"""MQTT 5 packets as dicts, read and written by the proved library (ctypes over libecchjulmina.so, which bindings/shared makes).

    for frame in frames(stream):          # every frame of a stream, refused ones too
        if frame['kind'] == 'publish':
            print(frame['topic'], frame['payload'])

    read(stream)                          # the first frame; Refused is raised if it is refused
    write({'kind': 'publish', 'topic': 'a/b', 'payload': b'hi'})
    for frame in lines(sys.stdin.buffer)  # the same dicts from what ./desk writes

A dict has 'kind', 'offset' and 'taken', and the fields of docs/DESK.md with _ for -: what is absent in the packet is absent in the dict. Texts are
str (bytes that are no UTF-8 are kept as surrogates: 'surrogateescape'), payload and correlation_data are bytes. 'user' is a list of pairs,
'subscription_ids' (publish) a list of numbers, 'filters' a list of dicts (subscribe) or of texts (unsubscribe), 'reasons' (suback, unsuback) a list
of numbers. A refused frame has the kind 'refused' with 'number', 'name' and 'values'. Of a line of ./desk: a frame that was passed over has the kind
'skipped' with 'frame', the word of its kind or its number, and a payload that --payload cut has 'payload_bytes', how many there are."""
import ctypes
import ctypes.util
import operator
import os
import re

__all__ = ['Refused', 'read', 'frames', 'write', 'line', 'lines']

KINDS = {3: 'publish', 4: 'puback', 5: 'pubrec', 6: 'pubrel', 7: 'pubcomp', 8: 'subscribe', 9: 'suback', 10: 'unsubscribe', 11: 'unsuback', 12: 'pingreq', 13: 'pingresp'}
ACKS = ('puback', 'pubrec', 'pubrel', 'pubcomp')
# how many values a refusal has, where it has any
VALUES = {1: 1, 3: 2, 4: 1, 6: 1, 8: 1, 10: 1, 11: 1, 14: 1, 15: 1, 16: 2, 18: 1, 19: 1, 22: 1}
RECORD, ANSWER, TABLE = 44, 3, 2064
# the numbers of a record that was read, as ecch_record_layout has them
(TAKEN, VALUE_1, VALUE_2, KIND, PKID, DUP, QOS, RETAIN, REASON, TOPIC_START, TOPIC_LEN, PAYLOAD_START, PAYLOAD_LEN, FILTERS_START,
 FILTERS_LEN, BLOCK, BLOCK_START, BLOCK_LEN, FORMAT, FORMAT_VALUE, EXPIRY, EXPIRY_VALUE, ALIAS, ALIAS_VALUE, RESPONSE, RESPONSE_START,
 RESPONSE_LEN, CORRELATION, CORRELATION_START, CORRELATION_LEN, CONTENT, CONTENT_START, CONTENT_LEN, REASON_STRING, REASON_STRING_START,
 REASON_STRING_LEN, SUBSCRIPTION, SUBSCRIPTION_VALUE, REASONS_START, REASONS_LEN, TOPICS_START, TOPICS_LEN, PROPERTIES_START, PROPERTIES_END) = range(44)

# What each function is handed: 1, 2, 4, z a number (of that many bytes; z a size); and with a length behind it s the stream's address, B bytes,
# L lengths, I identifiers, W bytes and N numbers that are filled. The test holds them to the header.
PUBLISH = '1112' 'B' '1' '11' '14' '12' '1B' '1B' 'BL' 'I' '1B' 'B'
ACK, SUBSCRIBE, REPLY, UNSUBSCRIBE = '21' '1' '1B' 'BL', '2' '1' '14' 'BL' 'BL' 'B', '2' '1' '1B' 'BL' 'B', '2' '1' 'BL' 'BL'
OUT = '1z' 'W' 'N'
HANDED = {
    'ecch_read': 's' '1z' 'N',
    'ecch_property': 's' '1zz' 'N',
    'ecch_next_filter': 's' 'zz' 'N',
    'ecch_next_topic': 's' 'zz' 'N',
    'ecch_name': '4' 'W',
    'ecch_alias_learn': 's' 'zz' '12' 'W',
    'ecch_topic_in_force': 's' 'zz' '12' 'W' 'N',
    'ecch_publish_write': PUBLISH + OUT,
    'ecch_puback_write': ACK + OUT,
    'ecch_pubrec_write': ACK + OUT,
    'ecch_pubrel_write': ACK + OUT,
    'ecch_pubcomp_write': ACK + OUT,
    'ecch_subscribe_write': SUBSCRIBE + OUT,
    'ecch_suback_write': REPLY + OUT,
    'ecch_unsuback_write': REPLY + OUT,
    'ecch_unsubscribe_write': UNSUBSCRIBE + OUT,
    'ecch_pingreq_write': OUT,
    'ecch_pingresp_write': OUT,
}
NUMBERS = {'1': ctypes.c_uint8, '2': ctypes.c_uint16, '4': ctypes.c_uint32, 'z': ctypes.c_size_t}
LISTS = {'L': ctypes.c_size_t, 'I': ctypes.c_uint32}


class Refused(ValueError):
    """A frame that is refused, by its number and name in 01 and 02, its values, and how many bytes of the stream it takes."""

    def __init__(self, number, name, values, taken=0):
        self.number, self.name, self.values, self.taken = number, name, values, taken
        super().__init__(f'{number} {name}' + (f'({",".join(map(str, values))})' if values else ''))


_loaded = None


def _library():
    """The library, loaded at the first call that needs it: the lines of ./desk need none."""
    global _loaded
    if _loaded:
        return _loaded
    here = os.path.dirname(os.path.abspath(__file__))
    built = os.path.join(here, '..', '..', 'target', 'staticlib', 'libecchjulmina.so')
    path = os.environ.get('ECCHJULMINA_LIBRARY') or (built if os.path.exists(built) else ctypes.util.find_library('ecchjulmina'))
    if not path:
        raise ImportError('libecchjulmina.so is not there: run bindings/shared, or name it in ECCHJULMINA_LIBRARY')
    loaded = ctypes.CDLL(path)
    for name, handed in HANDED.items():
        function = getattr(loaded, name)
        function.argtypes = [t for c in handed for t in ([NUMBERS[c]] if c in NUMBERS else [ctypes.c_void_p, ctypes.c_size_t])]
        function.restype = ctypes.c_size_t if name == 'ecch_name' else ctypes.c_uint32
    _loaded = loaded
    return loaded


def _call(name, *given):
    """Calls a function with a value for each letter of what it is handed: no pointer goes over without its length."""
    handed, words = HANDED[name], []
    assert len(handed) == len(given)
    for code, value in zip(handed, given):
        if code in NUMBERS:
            # ctypes would cut a number that is too large
            if not 0 <= value < 1 << 8 * ctypes.sizeof(NUMBERS[code]):
                raise ValueError(f'{value} does not fit in {ctypes.sizeof(NUMBERS[code])} bytes')
            words.append(operator.index(value))
        elif code == 's':
            words += value
        elif code in LISTS:
            if any(not 0 <= n < 1 << 8 * ctypes.sizeof(LISTS[code]) for n in value):
                raise ValueError(f'{value}: a number does not fit')
            words += [(LISTS[code] * max(1, len(value)))(*value), len(value)]
        else:
            words += [value, len(value)]
    return getattr(_library(), name)(*words)


def _bytes(value):
    """Bytes, or what lends them; of a number bytes() would make so many zeros."""
    try:
        return bytes(memoryview(value))
    except TypeError:
        raise ValueError(f'{value!r} is no bytes') from None


def _numbers(count):
    return (ctypes.c_uint64 * count)()


def _name(number):
    out = (ctypes.c_uint8 * 24)()
    return bytes(out[:_call('ecch_name', number, out)]).decode()


class _Frame:
    """What `ecch_read` says of the bytes from `offset` on. The bytes are kept: their address is handed over."""

    def __init__(self, stream, offset, limit):
        self.stream, self.offset, self.record = stream, offset, _numbers(RECORD)
        start = ctypes.cast(ctypes.c_char_p(stream), ctypes.c_void_p).value
        self.lent = [start + offset, len(stream) - offset]
        self.number = _call('ecch_read', self.lent, limit is not None, limit or 0, self.record)
        self.taken = self.record[TAKEN]
        self.values = tuple(self.record[VALUE_1:VALUE_1 + VALUES.get(self.number, 0)])

    def part(self, start, length):
        return self.stream[self.offset + start:self.offset + start + length]

    def text(self, start, length):
        return self.part(start, length).decode('utf-8', 'surrogateescape')

    def walk(self, name, start, length, *kind):
        """Each item of a block or run, as its numbers; the first is where the next begins."""
        at, end = start, start + length
        while at < end:
            item = _numbers(7)
            if _call(name, self.lent, *kind, at, end, item):
                raise AssertionError('the library refuses an item of a frame that it has read')
            yield item
            at = item[0]

    def properties(self, told):
        """The properties in the order of docs/DESK.md."""
        r, kind = self.record, self.record[KIND]
        if r[REASON_STRING]:
            told['reason_string'] = self.text(r[REASON_STRING_START], r[REASON_STRING_LEN])
        if r[SUBSCRIPTION]:
            told['subscription_id'] = r[SUBSCRIPTION_VALUE]
        for at, name in ((FORMAT, 'payload_format'), (EXPIRY, 'message_expiry'), (ALIAS, 'topic_alias')):
            if r[at]:
                told[name] = r[at + 1]
        if r[RESPONSE]:
            told['response_topic'] = self.text(r[RESPONSE_START], r[RESPONSE_LEN])
        if r[CORRELATION]:
            told['correlation_data'] = self.part(r[CORRELATION_START], r[CORRELATION_LEN])
        items = [list(p) for p in self.walk('ecch_property', r[BLOCK_START], r[BLOCK_LEN], kind)] if r[BLOCK] else []
        users = [(self.text(p[3], p[4]), self.text(p[5], p[6])) for p in items if p[1] == 38]
        if users:
            told['user'] = users
        ids = [p[2] for p in items if p[1] == 11]
        if ids and kind == 3:
            told['subscription_ids'] = ids
        if r[CONTENT]:
            told['content_type'] = self.text(r[CONTENT_START], r[CONTENT_LEN])

    def told(self, table):
        r = self.record
        told = {'offset': self.offset, 'kind': KINDS.get(r[KIND], 'refused'), 'taken': self.taken}
        kind = told['kind']
        if self.number:
            told.update(number=self.number, name=_name(self.number), values=self.values)
        elif kind == 'publish':
            told.update(dup=bool(r[DUP]), qos=r[QOS], retain=bool(r[RETAIN]), topic=self.text(r[TOPIC_START], r[TOPIC_LEN]))
            self.in_force(told, table)
            if r[QOS]:
                told['id'] = r[PKID]
            self.properties(told)
            told['payload'] = self.part(r[PAYLOAD_START], r[PAYLOAD_LEN])
        elif not kind.startswith('ping'):
            told['id'] = r[PKID]
            if kind in ACKS:
                told['reason'] = r[REASON]
            self.properties(told)
            if kind == 'subscribe':
                told['filters'] = [
                    {'filter': self.text(f[1], f[2]), 'qos': f[3], 'no_local': bool(f[4]), 'preserve_retain': bool(f[5]), 'forward': f[6]}
                    for f in self.walk('ecch_next_filter', r[FILTERS_START], r[FILTERS_LEN])]
            elif kind == 'unsubscribe':
                told['filters'] = [self.text(t[1], t[2]) for t in self.walk('ecch_next_topic', r[TOPICS_START], r[TOPICS_LEN])]
            elif kind in ('suback', 'unsuback'):
                told['reasons'] = list(self.part(r[REASONS_START], r[REASONS_LEN]))
        return told

    def in_force(self, told, table):
        """The topic by alias, where the packet leaves its own empty, or why there is none."""
        r, item = self.record, _numbers(3)
        message = (self.lent, r[TOPIC_START], r[TOPIC_LEN], r[ALIAS], r[ALIAS_VALUE], table)
        refused = _call('ecch_topic_in_force', *message, item)
        if refused or _call('ecch_alias_learn', *message):
            told['alias_refused'] = (refused, _name(refused))
        elif item[0] == 2:
            told['topic_in_force'] = bytes(table[item[1]:item[1] + item[2]]).decode('utf-8', 'surrogateescape')


def frames(stream, limit=None):
    """Each frame of the stream, as a dict; after a refusal that takes nothing there is none. `limit`: the most bytes that a frame may have."""
    stream, at = _bytes(stream), 0
    table = (ctypes.c_uint8 * TABLE)()
    while at < len(stream):
        told = _Frame(stream, at, limit).told(table)
        yield told
        if not told['taken']:
            return
        at += told['taken']


def read(stream, limit=None):
    """The frame at the start of the stream, as a dict; Refused is raised if there is none."""
    frame = _Frame(_bytes(stream), 0, limit)
    if frame.number:
        raise Refused(frame.number, _name(frame.number), frame.values, frame.taken)
    return frame.told((ctypes.c_uint8 * TABLE)())


# ---- writing

# what a dict that was read has, and a write does not look at
ASIDE = {'offset', 'taken', 'topic_in_force', 'alias_refused'}


class _Given:
    """The fields of a dict, each asked for once; what is left over at the end was none of the kind's."""

    def __init__(self, packet):
        self.left = {k: v for k, v in packet.items() if k not in ASIDE}
        self.kind = self.left.pop('kind')
        self.any = False

    def take(self, name, default):
        return self.left.pop(name, default)

    def on(self, name, empty):
        """A property: whether it is there, and its value."""
        value = self.left.pop(name, None)
        self.any = self.any or value is not None
        return (False, empty) if value is None else (True, self.bytes(value) if isinstance(empty, bytes) else value)

    @staticmethod
    def bytes(value):
        return value.encode('utf-8', 'surrogateescape') if isinstance(value, str) else _bytes(value)

    def list(self, name):
        """A list of items: a text would be taken letter by letter, a dict by its keys."""
        value = self.left.pop(name, [])
        if isinstance(value, (str, dict)) or not hasattr(value, '__iter__'):
            raise ValueError(f'{name}: {value!r} is no list')
        return list(value)

    def run(self, texts):
        """Texts as one run of bytes, and their lengths."""
        texts = [self.bytes(t) for t in texts]
        return b''.join(texts), [len(t) for t in texts]

    def user(self):
        pairs = self.list('user')
        if any(isinstance(pair, (str, bytes)) for pair in pairs):
            raise ValueError(f'user: {pairs!r} are no pairs')
        self.any = self.any or bool(pairs)
        return self.run([text for key, value in pairs for text in (key, value)])

    def ended(self):
        if self.left:
            raise ValueError(f'{self.kind} has no {", ".join(sorted(self.left))}')


def _publish(g):
    head = [g.take('dup', False), g.take('qos', 0), g.take('retain', False), g.take('id', 0), g.bytes(g.take('topic', ''))]
    properties = [*g.on('payload_format', 0), *g.on('message_expiry', 0), *g.on('topic_alias', 0), *g.on('response_topic', b''), *g.on('correlation_data', b''), *g.user()]
    ids = g.list('subscription_ids')
    properties += [ids, *g.on('content_type', b'')]
    return [*head, g.any or bool(ids), *properties, g.bytes(g.take('payload', b''))]


def _ack(g):
    head = [g.take('id', 0), g.take('reason', 0)]
    properties = [*g.on('reason_string', b''), *g.user()]
    return [*head, g.any, *properties]


def _subscribe(g):
    properties = [*g.on('subscription_id', 0), *g.user()]
    filters = [{'filter': f} if isinstance(f, (str, bytes)) else dict(f) for f in g.list('filters')]
    options = []
    for f in filters:
        parts = f.pop('qos', 0), f.pop('no_local', False), f.pop('preserve_retain', False), f.pop('forward', 0)
        if not (0 <= parts[0] < 4 and parts[1] in (0, 1) and parts[2] in (0, 1) and 0 <= parts[3] < 4) or list(f) != ['filter']:
            raise ValueError(f'no filter: {f}, options {parts}')
        options.append(parts[0] | parts[1] << 2 | parts[2] << 3 | parts[3] << 4)
    return [g.take('id', 0), g.any, *properties, *g.run([f['filter'] for f in filters]), bytes(options)]


def _reply(g):
    properties = [*g.on('reason_string', b''), *g.user()]
    return [g.take('id', 0), g.any, *properties, bytes(g.list('reasons'))]


def _unsubscribe(g):
    user = g.user()
    return [g.take('id', 0), g.any, *user, *g.run(g.list('filters'))]


WRITES = {'publish': _publish, 'subscribe': _subscribe, 'unsubscribe': _unsubscribe, 'suback': _reply, 'unsuback': _reply, 'pingreq': lambda g: [], 'pingresp': lambda g: [], **{a: _ack for a in ACKS}}


def write(packet, limit=None):
    """The frame of a dict. Refused is raised where the library refuses it, ValueError where the dict is no packet."""
    given = _Given(packet)
    if given.kind not in WRITES:
        raise ValueError(f'{given.kind} is no kind that is written')
    fields = WRITES[given.kind](given)
    given.ended()
    room = 64
    while True:
        out, answer = (ctypes.c_uint8 * room)(), _numbers(ANSWER)
        number = _call(f'ecch_{given.kind}_write', *fields, limit is not None, limit or 0, out, answer)
        if number == 0:
            return bytes(out[:answer[0]])
        # 19: the output is too short, and says what is needed
        if number != 19:
            raise Refused(number, _name(number), tuple(answer[1:1 + VALUES.get(number, 0)]))
        room = answer[1]


# ---- the lines of ./desk

_FIELD = re.compile(rb' ([a-z-]+)=("(?:[^"\\]|\\.)*"|[^ "]+)(?:=("(?:[^"\\]|\\.)*"))?', re.S)
_ESCAPE = re.compile(rb'\\(?:x([0-9A-F]{2})|(.))', re.S)
_BYTES = {'payload', 'correlation_data'}
_FLAGS = {'dup', 'retain', 'no_local', 'preserve_retain'}


def _unquoted(value):
    return _ESCAPE.sub(lambda m: bytes([int(m[1], 16)]) if m[1] else m[2], value[1:-1])


def _value(name, value):
    if value.startswith(b'"'):
        plain = _unquoted(value)
        return plain if name in _BYTES else plain.decode('utf-8', 'surrogateescape')
    if name == 'alias_refused':
        number, _, words = value.partition(b':')
        return int(number), words.decode()
    number = int(value, 16) if value.startswith(b'0x') else int(value)
    return bool(number) if name in _FLAGS else number


def line(text):
    """The dict of one line that ./desk writes to standard output."""
    text = text.encode('utf-8', 'surrogateescape') if isinstance(text, str) else text
    text = text.rstrip(b'\n')
    words = re.match(rb'(\d+) ([a-z]+)(?: (\d+) ([A-Z]\w*)(?:\(([\d,]*)\))?)?', text)
    if not words:
        raise ValueError(f'no line of desk: {text!r}')
    told = {'offset': int(words[1]), 'kind': words[2].decode()}
    kind, at = told['kind'], words.end()
    if kind == 'refused':
        told.update(number=int(words[3]), name=words[4].decode(), values=tuple(int(v) for v in (words[5] or b'').split(b',') if v))
    elif kind == 'skipped':
        of = re.compile(rb' (?:([a-z]+)|(\d+))(?= )').match(text, at)
        if not of:
            raise ValueError(f'no line of desk: {text!r}')
        told['frame'], at = of[1].decode() if of[1] else int(of[2]), of.end()
    while at < len(text):
        field = _FIELD.match(text, at)
        if not field:
            raise ValueError(f'no line of desk, from byte {at} on: {text!r}')
        at = field.end()
        name = field[1].decode().replace('-', '_')
        value = _value(name, field[2])
        if name == 'user':
            told.setdefault('user', []).append((value, _value(name, field[3])))
        elif name == 'subscription_id' and kind == 'publish':
            told.setdefault('subscription_ids', []).append(value)
        elif name == 'reason' and kind in ('suback', 'unsuback'):
            told.setdefault('reasons', []).append(value)
        elif name == 'filter':
            told.setdefault('filters', []).append(value if kind == 'unsubscribe' else {'filter': value})
        elif kind == 'subscribe' and 'filters' in told:
            told['filters'][-1][name] = value
        else:
            told[name] = value
    return told


def lines(file):
    """The dict of each line of an open file: for frame in lines(sys.stdin.buffer)"""
    return map(line, file)
