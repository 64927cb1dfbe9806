"""The length desk: reads the stream in the file named first, and prints each length record's topic and its length in whole metres. A record's
payload is a count of decimetres, big-endian, of one to four bytes. A record that is refused is named, and no length is made up for it."""
import sys

from ecchjulmina import frames


def length(frame):
    """Topic and length of a record, or why there is none; None for what is no record."""
    if frame['kind'] == 'refused':
        return None, f'refused {frame["number"]} {frame["name"]}'
    if frame['kind'] != 'publish':
        return None
    if 'alias_refused' in frame:
        return None, 'refused {} {}'.format(*frame['alias_refused'])
    count = frame['payload']
    if not 1 <= len(count) <= 4:
        return None, f'{len(count)} bytes are no count'
    # rounded half up
    metres = (int.from_bytes(count, 'big') + 5) // 10
    return f'{frame["topic"] or frame["topic_in_force"]} {metres} m', None


def main(path):
    read, without = 0, 0
    with open(path, 'rb') as file:
        stream = file.read()
    for frame in frames(stream):
        answer = length(frame)
        if answer:
            said, why = answer
            print(frame['offset'], said or 'no length: ' + why)
            read, without = read + bool(said), without + bool(why)
    print(f'{read} lengths, {without} records without one')


if __name__ == '__main__':
    main(sys.argv[1])
