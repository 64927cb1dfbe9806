"""The dicts of ecchjulmina.py against the header, against 01's frames, against random packets written and read back, and against ./desk."""
import contextlib
import io
import os
import pathlib
import random
import re
import subprocess
import sys
import tempfile
import unittest

import ecchjulmina
from ecchjulmina import Refused, frames, line, lines, read, write

TOP = os.path.join(os.path.dirname(os.path.abspath(__file__)), '..', '..')
HEADER = pathlib.Path(TOP, 'bindings/c/ecchjulmina.h').read_text()
AB = bytes.fromhex('30 08 00 03 61 2F 62 00 68 69')
SAMPLES = [f.read_bytes() for f in sorted(pathlib.Path(TOP, 'samples').glob('*.mqtt'))]


def desk(stream, *words):
    with tempfile.NamedTemporaryFile() as f:
        f.write(stream)
        f.flush()
        return subprocess.run([TOP + '/desk', *words, f.name], stdout=subprocess.PIPE, stderr=subprocess.DEVNULL).stdout.splitlines()


class TheHeader(unittest.TestCase):
    def test_what_is_handed_over(self):
        plain = re.sub(r'/\*.*?\*/', '', HEADER, flags=re.S)
        declared = {name: (gives, given) for gives, name, given in re.findall(r'(\w+) (ecch_\w+)\(([^)]*)\)', plain)}
        numbers = {'uint8_t': '1', 'uint16_t': '2', 'uint32_t': '4', 'size_t': 'z'}
        arrays = {'const uint8_t': 'B', 'const size_t': 'L', 'const uint32_t': 'I', 'uint8_t': 'W', 'uint64_t': 'N'}
        for name, handed in ecchjulmina.HANDED.items():
            gives, given = declared[name]
            self.assertEqual(gives, 'size_t' if name == 'ecch_name' else 'uint32_t')
            found, words = '', [w.strip() for w in given.split(',')]
            while words:
                kind, star, called = re.match(r'((?:const )?\w+) (\*?)(\w+)$', words.pop(0)).groups()
                if not star:
                    found += numbers[kind]
                else:
                    self.assertEqual(words.pop(0), f'size_t {called}_len')
                    found += 's' if called == 'stream' else 'W' if called == 'table' else arrays[kind]
            self.assertEqual(handed, found, name)

    def test_layouts(self):
        layout = re.search(r'enum ecch_record_layout \{(.*?)\};', HEADER, re.S)[1]
        for name, number in re.findall(r'ECCH_(\w+) = (\d+)', layout):
            if name != 'RECORD_LEN':
                self.assertEqual(getattr(ecchjulmina, name), int(number))
        for name, number in (('RECORD_LEN', ecchjulmina.RECORD), ('ANSWER_LEN', ecchjulmina.ANSWER), ('ALIAS_TABLE_LEN', ecchjulmina.TABLE)):
            self.assertIn(f'ECCH_{name} = {number}', HEADER)
        kinds = re.search(r'enum ecch_kind \{(.*?)\};', HEADER, re.S)[1]
        self.assertEqual(ecchjulmina.KINDS, {int(n): k.lower() for k, n in re.findall(r'ECCH_(\w+) = (\d+)', kinds)})

    def test_values_of_refusals(self):
        listed = re.search(r'enum ecch_refusal \{(.*?)\};', HEADER, re.S)[1]
        counts = {}
        for number, words in re.findall(r'= (\d+),?(.*)', listed):
            values = len(re.findall(r'value \d', words))
            if values:
                counts[int(number)] = values
        self.assertEqual(ecchjulmina.VALUES, counts)


class Reading(unittest.TestCase):
    def test_publish(self):
        self.assertEqual(read(AB), {'offset': 0, 'kind': 'publish', 'taken': 10, 'dup': False, 'qos': 0, 'retain': False, 'topic': 'a/b', 'payload': b'hi'})

    def test_three_identifiers(self):
        got = read(bytes.fromhex('30 0B 00 01 61 06 0B 01 0B 02 0B 03 07'))
        self.assertEqual((got['topic'], got['subscription_ids'], got['payload']), ('a', [1, 2, 3], b'\x07'))

    def test_refused(self):
        for stream, limit, number, name, values, taken in (
                ('30', None, 1, 'InsufficientBytes', (1,), 0), ('30 80 80 80 80', None, 2, 'MalformedRemainingLength', (), 0),
                ('30 08 00 03 61 2F 62 00 68 69', 9, 3, 'PayloadSizeLimitExceeded', (10, 9), 0), ('F0 00', None, 4, 'InvalidPacketType', (15,), 2),
                ('', None, 1, 'InsufficientBytes', (2,), 0)):
            with self.subTest(stream), self.assertRaises(Refused) as caught:
                read(bytes.fromhex(stream), limit)
            e = caught.exception
            self.assertEqual((e.number, e.name, e.values, e.taken), (number, name, values, taken))

    def test_frames_go_on_behind_a_refusal(self):
        kinds = [f['kind'] for f in frames(bytes.fromhex('F0 00') + AB + bytes.fromhex('C0 00 30 80 80 80 80 C0 00'))]
        self.assertEqual(kinds, ['refused', 'publish', 'pingreq', 'refused'])

    def test_topic_by_alias(self):
        got = list(frames(bytes.fromhex('30 07 00 00 03 23 00 05 32 30 0A 00 03 61 2F 62 03 23 00 05 31 30 07 00 00 03 23 00 05 32')))
        self.assertEqual(got[0]['alias_refused'], (27, 'AliasUnknown'))
        self.assertNotIn('topic_in_force', got[1])
        self.assertEqual(got[2]['topic_in_force'], 'a/b')

    def test_what_is_handed_over_may_be_a_view(self):
        self.assertEqual(read(memoryview(bytearray(AB))), read(AB))


class Writing(unittest.TestCase):
    def test_publish(self):
        self.assertEqual(write({'kind': 'publish', 'topic': 'a/b', 'payload': b'hi'}), AB)
        self.assertEqual(write({'kind': 'publish', 'topic': 'a/b', 'payload': 'hi'}, limit=10), AB)

    def test_refused(self):
        for packet, limit, number, values in (
                ({'kind': 'publish', 'qos': 3}, None, 11, (3,)), ({'kind': 'publish', 'qos': 1, 'topic': 'a'}, None, 12, ()),
                ({'kind': 'publish', 'topic': 'a/b', 'payload': b'hi'}, 9, 16, (10, 9)), ({'kind': 'subscribe', 'id': 1}, None, 13, ()),
                ({'kind': 'publish', 'topic': 'a' * 65536}, None, 18, (65536,)), ({'kind': 'publish', 'topic': 'a', 'subscription_ids': [0]}, None, 23, ())):
            with self.subTest(packet=str(packet)[:60]), self.assertRaises(Refused) as caught:
                write(packet, limit)
            self.assertEqual((caught.exception.number, caught.exception.values), (number, values))

    def test_no_packet(self):
        for packet in ({'kind': 'connect'}, {'kind': 'refused'}, {'kind': 'publish', 'color': 1}, {'kind': 'publish', 'qos': 256}, {'kind': 'puback', 'id': 65536},
                       {'kind': 'puback', 'id': -1}, {'kind': 'publish', 'subscription_ids': [1 << 32]}, {'kind': 'subscribe', 'id': 1, 'filters': [{'filter': 'a', 'qos': 4}]}):
            with self.subTest(packet), self.assertRaises(ValueError) as caught:
                write(packet)
            self.assertNotIsInstance(caught.exception, Refused)

    def test_nothing_is_guessed(self):
        """bytes(1204) is 1,204 zeros, a text is a list of its letters, and a dict one of its keys."""
        for packet in ({'kind': 'publish', 'topic': 'a', 'payload': 1204}, {'kind': 'publish', 'topic': 3}, {'kind': 'publish', 'topic': 'a', 'correlation_data': 4},
                       {'kind': 'suback', 'id': 1, 'reasons': 2}, {'kind': 'subscribe', 'id': 1, 'filters': 'a/b'}, {'kind': 'unsubscribe', 'id': 1, 'filters': 'a/b'},
                       {'kind': 'puback', 'id': 1, 'user': {'ab': 'c'}}, {'kind': 'puback', 'id': 1, 'user': ['ab']}, {'kind': 'puback', 'id': 1, 'user': 'ab'}):
            with self.subTest(packet), self.assertRaises(ValueError) as caught:
                write(packet)
            self.assertNotIsInstance(caught.exception, Refused)
        for stream in (12, 'C0 00', [0xC0, 0]):
            with self.subTest(stream), self.assertRaises(ValueError):
                read(stream)
            with self.subTest(stream), self.assertRaises(ValueError):
                list(frames(stream))

    def test_no_number(self):
        for qos in (1.0, '1', None):
            with self.subTest(qos), self.assertRaises(TypeError):
                write({'kind': 'publish', 'qos': qos})

    def test_large(self):
        packet = {'kind': 'publish', 'topic': 't', 'payload': b'a' * 1000000}
        self.assertEqual(read(write(packet))['payload'], packet['payload'])


def some(draw, kind):
    """A packet made of chance that the library writes."""
    text = lambda: ''.join(draw.choice('ab/"\\ é€\U0001f600') for _ in range(draw.randrange(6)))
    maybe = lambda name, value: {name: value} if draw.random() < .5 else {}
    users = lambda: maybe('user', [(text(), text()) for _ in range(draw.randrange(1, 4))])
    packet = {'kind': kind}
    if kind.startswith('ping'):
        return packet
    if kind == 'publish':
        qos = draw.randrange(3)
        packet.update(dup=draw.random() < .5, qos=qos, retain=draw.random() < .5, topic=text(), payload=draw.randbytes(draw.randrange(40)))
        if qos:
            packet['id'] = draw.randrange(1, 65536)
        packet.update(maybe('payload_format', draw.randrange(2)) | maybe('message_expiry', draw.randrange(1 << 32)) | maybe('topic_alias', draw.randrange(1, 65536)))
        packet.update(maybe('response_topic', text()) | maybe('correlation_data', draw.randbytes(4)) | users() | maybe('content_type', text()))
        packet.update(maybe('subscription_ids', [draw.choice((1, 127, 128, 268435455)) for _ in range(draw.randrange(1, 4))]))
        return packet
    packet['id'] = draw.randrange(1, 65536)
    packet.update(users())
    if kind == 'subscribe':
        packet.update(maybe('subscription_id', draw.randrange(1, 268435456)))
        packet['filters'] = [dict(filter=text(), qos=draw.randrange(3), no_local=draw.random() < .5, preserve_retain=draw.random() < .5, forward=draw.randrange(3)) for _ in range(draw.randrange(1, 4))]
    elif kind == 'unsubscribe':
        packet['filters'] = [text() for _ in range(draw.randrange(1, 4))]
    else:
        packet.update(maybe('reason_string', text()))
        if kind in ('suback', 'unsuback'):
            packet['reasons'] = [draw.choice((0x00, 0x80, 0x87)) for _ in range(draw.randrange(1, 4))]
        else:
            packet['reason'] = 0x92 if kind in ('pubrel', 'pubcomp') else draw.choice((0, 0x10, 0x87))
    return packet


class ThereAndBack(unittest.TestCase):
    def test_written_and_read(self):
        draw = random.Random(30)
        kinds = list(ecchjulmina.KINDS.values())
        for n in range(5500):
            packet = some(draw, kinds[n % len(kinds)])
            frame = write(packet)
            got = read(frame)
            self.assertEqual({k: v for k, v in got.items() if k not in ecchjulmina.ASIDE}, packet)
            self.assertEqual(write(got), frame)

    def test_samples(self):
        written = 0
        for f in (f for stream in SAMPLES for f in frames(stream)):
            if f['kind'] != 'refused':
                # the same packet; its bytes may be others, as of an acknowledgement that leaves its empty block away
                got = read(write(f))
                self.assertEqual({k: v for k, v in got.items() if k not in ecchjulmina.ASIDE}, {k: v for k, v in f.items() if k not in ecchjulmina.ASIDE})
                written += 1
        self.assertGreater(written, 20)


class TheLinesOfDesk(unittest.TestCase):
    def same(self, stream):
        self.assertEqual(list(lines(desk(stream))), list(frames(stream)))

    def test_samples(self):
        for stream in SAMPLES:
            self.same(stream)

    def test_chance(self):
        draw = random.Random(31)
        kinds = list(ecchjulmina.KINDS.values())
        good = [write(some(draw, draw.choice(kinds))) for _ in range(1500)]
        self.same(b''.join(good))
        # a byte of every second frame damaged, but for its first two, so that the stream goes on
        damaged = []
        for n, f in enumerate(good):
            f = bytearray(f)
            if n % 2 and 3 < len(f) < 120:
                f[draw.randrange(2, len(f))] = draw.randrange(256)
            damaged.append(bytes(f))
        stream = b''.join(damaged)
        self.same(stream)
        self.assertGreater(sum(f['kind'] == 'refused' for f in frames(stream)), 50)

    def test_passed_over(self):
        """A frame above 1 MiB, by its kind; one of no kind here, by its number."""
        large = lambda first: bytes([first]) + b'\x81\x80\x40' + bytes(1048577)
        got = list(lines(desk(b'\xC0\x00' + large(0x30) + large(0x10) + b'\xD0\x00')))
        self.assertEqual(got, [
            {'offset': 0, 'kind': 'pingreq', 'taken': 2},
            {'offset': 2, 'kind': 'skipped', 'frame': 'publish', 'taken': 1048581},
            {'offset': 1048583, 'kind': 'skipped', 'frame': 1, 'taken': 1048581},
            {'offset': 2097164, 'kind': 'pingresp', 'taken': 2},
        ])

    def test_text(self):
        """UTF-8 as text, or by its bytes: the same dict."""
        stream = bytes.fromhex('30 10 00 0B 57 65 72 6B 2F 4C C3 A4 6E 67 65 00 C3 A9')
        plain, escaped = desk(stream), desk(stream, '--ascii')
        self.assertIn('topic="Werk/Länge"'.encode(), plain[0])
        self.assertIn(rb'topic="Werk/L\xC3\xA4nge"', escaped[0])
        self.assertEqual(list(lines(plain)), list(lines(escaped)))
        got, = lines(plain)
        self.assertEqual((got['topic'], got['payload']), ('Werk/Länge', b'\xC3\xA9'))

    def test_cut(self):
        got, = lines(desk(AB, '--payload', '1'))
        self.assertEqual((got['payload'], got['payload_bytes']), (b'h', 2))

    def test_no_library(self):
        """The lines need no library; what needs it says what is lacking."""
        program = 'import ecchjulmina\nprint(ecchjulmina.line("2 pingreq taken=2"))\necchjulmina.read(b"")'
        place = pathlib.Path(__file__).with_name('ecchjulmina.py').read_bytes()
        with tempfile.TemporaryDirectory() as room:
            pathlib.Path(room, 'ecchjulmina.py').write_bytes(place)
            alone = {k: v for k, v in os.environ.items() if k != 'ECCHJULMINA_LIBRARY'}
            got = subprocess.run([sys.executable, '-c', program], cwd=room, env=alone, capture_output=True, text=True)
        self.assertEqual(got.stdout, "{'offset': 2, 'kind': 'pingreq', 'taken': 2}\n")
        self.assertIn('ImportError: libecchjulmina.so is not there: run bindings/shared, or name it in ECCHJULMINA_LIBRARY', got.stderr)

    def test_no_line(self):
        for text in ('', 'publish', '0 publish taken', '0 publish taken=1 topic="', '0 publish taken=1  dup=0', '0 skipped taken=2', '0 skipped', 'desk: publish=5'):
            with self.subTest(text), self.assertRaises(ValueError):
                line(text)


class TheLengthDesk(unittest.TestCase):
    def test_lengths(self):
        got = subprocess.run([sys.executable, pathlib.Path(__file__).with_name('lengths.py'), TOP + '/samples/length-desk.mqtt'], capture_output=True, text=True)
        self.assertEqual(got.stdout, pathlib.Path(TOP, 'samples/length-desk.lengths').read_text())


class ThePage(unittest.TestCase):
    def test_programs(self):
        """The programs of README.md, one after the other in one room, print what stands below them."""
        page = pathlib.Path(__file__).with_name('README.md').read_text()
        programs = re.findall(r'```python\n(.*?)```\n\n```text\n(.*?)```', page, re.S)
        self.assertEqual(len(programs), page.count('```python'))
        room = {}
        for program, prints in programs:
            out = io.StringIO()
            with contextlib.redirect_stdout(out):
                exec(program, room)
            self.assertEqual(out.getvalue(), prints)


if __name__ == '__main__':
    unittest.main()
