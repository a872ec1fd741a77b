#!/usr/bin/env python3
"""Hunts for faults from outside: pseudo-random images through `tfs info`, `ls` and `cat`, beside the reading rule of
docs/RULES.md written once more in Python. Usage: hunt.py PROGRAM [HOW-MANY [SEED]]. Prints what it ran, and ends with
status 1 at the first difference, crash or hang."""
import os, random, struct, subprocess, sys, tempfile

PROGRAM, COUNT, SEED = sys.argv[1], int((sys.argv + ['1000'])[2]), int((sys.argv + ['', '1'])[3] or 1)
BLANK, RECORD, DAMAGED = 0xFF, 1, 0


def kind(tag):
    first = tag[0]
    if 1 <= first <= 1000:
        return 'data'
    return {0x80000001: 'header', 0xC0000001: 'cut', 0xC0000004: 'marker'}.get(first)


def object_of(tag):
    return tag[1] if kind(tag) == 'data' else tag[1] - 0x10000000


def keeps_rules(tag, data):
    k = kind(tag)
    if k is None or not 1 <= tag[3] or not 257 <= object_of(tag) <= 511:
        return False
    if k == 'data':
        return 1 <= tag[2] <= 2048
    if k == 'marker':
        return tag[2] == 0
    return tag[2] <= 1000 and 1 <= data[0] <= 40


def heads(records, o):
    return [r for r in records if object_of(r[0]) == o and kind(r[0]) != 'data']


def hidden(records, d):
    o, j, serial = object_of(d[0]), d[0][0], d[0][3]
    return any(h[0][3] > serial and (kind(h[0]) == 'marker' or kind(h[0]) == 'cut' and h[0][2] < j) for h in heads(records, o))


def file_of(records, o):
    """The name, the length, the chunks by number and the size of a present file, or None."""
    hs = heads(records, o)
    newest = max(hs, key=lambda r: r[0][3], default=None)
    if newest is None or kind(newest[0]) == 'marker':
        return None
    chunks = {}
    for r in sorted((r for r in records if object_of(r[0]) == o and kind(r[0]) == 'data'), key=lambda r: r[0][3]):
        chunks[r[0][0]] = r
    chunks = {j: r for j, r in chunks.items() if not hidden(records, r)}
    length = max([newest[0][2], *chunks])
    size = 0 if length == 0 else (length - 1) * 2048 + (chunks[length][0][2] if length in chunks else 2048)
    return newest[1][1:1 + newest[1][0]], length, chunks, size, newest


def wanted(records, r):
    k, o, serial = kind(r[0]), object_of(r[0]), r[0][3]
    f = file_of(records, o)
    if f and (r == f[4] or r in f[2].values()):
        return True
    if k == 'marker':
        markers = [h[0][3] for h in heads(records, o) if kind(h[0]) == 'marker']
        return serial == max(markers) and any(object_of(x[0]) == o and x[0][3] < serial for x in records)
    if k == 'cut':
        return any(kind(d[0]) == 'data' and object_of(d[0]) == o and d[0][3] < serial and d[0][0] > r[0][2] for d in records)
    return False


def verdict(n, p, rows):
    """The refusal of a mount and its place, or None; and the records that stand."""
    if not (3 <= n <= 64 and 2 <= p <= 64 and n * p <= 2048):
        return (9, None), []
    records, seen, clash = [], {}, None
    for at, row in enumerate(rows):
        if row[0] == 'record' and not keeps_rules(row[1], row[2]):
            return (10, divmod(at, p)), []
    for at, row in enumerate(rows):
        if row[0] != 'record':
            continue
        r = (row[1], row[2])
        old = seen.setdefault(r[0][3], r)
        if old != r:
            clash = clash or divmod(at, p)
        elif r not in records:
            records.append(r)
    if clash:
        return (11, clash), []
    files = {o: f for o in range(257, 512) if (f := file_of(records, o))}
    names = [f[0] for f in files.values()]
    if len(set(names)) < len(names):
        return (12, None), []
    if sum(1 + len(f[2]) for f in files.values()) > (n - 1) * p - 1:
        return (13, None), []
    blocks = [rows[b * p:(b + 1) * p] for b in range(n)]
    if not any(all(x[0] == 'blank' for x in b) for b in blocks):
        def load(b):
            others = {x[1][3] for c in range(n) if c != b for x in blocks[c] if x[0] == 'record'}
            return len({x[1][3] for x in blocks[b] if x[0] == 'record' and x[1][3] not in others and wanted(records, (x[1], x[2]))})
        if all(load(b) for b in range(n)):
            return (14, None), []
    return None, records


def shown(name):
    return ''.join(chr(b) if 0x20 <= b <= 0x7E and b != 0x5C else '\\x%02x' % b for b in name)


def bytes_of(f):
    out = bytearray(f[3])
    for j, r in f[2].items():
        part = r[1][:r[0][2]]
        out[(j - 1) * 2048:(j - 1) * 2048 + len(part)] = part
    return bytes(out)


def some_record(rnd, serials):
    o = rnd.choice([257, 258, 259, 511])
    k = rnd.choice(['data'] * 5 + ['header', 'cut', 'cut', 'marker'])
    serial = rnd.choice(serials) if serials and rnd.random() < 0.03 else rnd.choice([rnd.randrange(1, 60), rnd.randrange(1, 2**32)])
    data = bytearray(rnd.choice([bytes([rnd.randrange(256)]), bytes(rnd.randrange(256) for _ in range(64))]).ljust(2048, b'\0'))
    if k == 'data':
        tag = (rnd.choice([1, 2, 3, 1000]), o, rnd.choice([1, 5, 2048]), serial)
    else:
        name = bytes(rnd.choice(b'abc\\\x07\xff') for _ in range(rnd.choice([1, 1, 2, 40])))
        data[0] = len(name)
        data[1:1 + len(name)] = name
        tag = ({'header': 0x80000001, 'cut': 0xC0000001, 'marker': 0xC0000004}[k], 0x10000000 + o, 0 if k == 'marker' else rnd.choice([0, 1, 2, 3, 1000]), serial)
    if rnd.random() < 0.01:
        tag = list(tag)
        tag[rnd.randrange(4)] = rnd.choice([0, 1, 256, 512, 1001, 2049, 0x10000100, 0xFFFFFFFF])
        tag = tuple(tag)
    if rnd.random() < 0.005:
        data[0] = rnd.choice([0, 41, 255])
    serials.append(serial)
    return tag, bytes(data)


def some_image(rnd):
    n, p = rnd.choice([(3, 2), (3, 4), (4, 3), (5, 4), (3, 8)] * 8 + [(2, 4), (65, 2), (3, 65), (0, 0), (3, 1)])
    serials, rows = [], []
    for _ in range(n * p):
        x = rnd.random()
        if x < 0.45:
            rows.append(('blank', None, None))
        elif x < 0.5:
            rows.append(('damaged', None, None))
        elif x < 0.55 and any(r[0] == 'record' for r in rows):
            rows.append(rnd.choice([r for r in rows if r[0] == 'record']))
        else:
            rows.append(('record', *some_record(rnd, serials)))
    out = bytearray(b'TFS' + struct.pack('<H', 1) + bytes([n, p, rnd.choice([0, 1, 7])]))
    for what, tag, data in rows:
        if what == 'record':
            out += bytes([RECORD]) + struct.pack('<4I', *tag) + data
        else:
            out += bytes([BLANK if what == 'blank' else rnd.choice([0, 2, 254])]) + bytes(2064)
    misfit = 0
    x = rnd.random()
    if x < 0.01:
        del out[rnd.randrange(len(out)):]
        misfit = 1 if len(out) < 8 else 3
    elif x < 0.015:
        out[rnd.randrange(3)] ^= 1
        misfit = 1
    elif x < 0.02:
        out[3 + rnd.randrange(2)] ^= 4
        misfit = 2
    return n, p, rows, bytes(out), misfit


def run(*words):
    done = subprocess.run([PROGRAM, *words], capture_output=True, timeout=20)
    assert done.returncode in (0, 1), (words, done.returncode, done.stderr)
    return done


def check(image, path, tally):
    n, p, rows, raw, misfit = image
    open(path, 'wb').write(raw)
    info, ls = run('info', path), run('ls', path)
    if misfit:
        tally[misfit] = tally.get(misfit, 0) + 1
        assert info.returncode == ls.returncode == 1 and b'refused: %d,' % misfit in ls.stderr, (misfit, ls.stderr)
        return
    refusal, records = verdict(n, p, rows)
    assert info.returncode == 0, info.stderr
    told = info.stdout.decode().split('\n')[1]
    if refusal:
        tally[refusal[0]] = tally.get(refusal[0], 0) + 1
        place = '' if refusal[1] is None else ', at block %d, chunk %d' % refusal[1]
        assert told.startswith('mount: refused: %d,' % refusal[0]) and told.endswith(place), (refusal, told)
        assert ls.returncode == 1 and b'refused: %d,' % refusal[0] in ls.stderr, (refusal, ls.stderr)
        return
    tally[0] = tally.get(0, 0) + 1
    assert told == 'mount: accepted', told
    files = {o: f for o in range(257, 512) if (f := file_of(records, o))}
    want = ''.join('%d %7d %4d %s\n' % (o, f[3], f[1], shown(f[0])) for o, f in files.items())
    assert ls.stdout.decode() == want, (ls.stdout, want)
    for f in files.values():
        name = os.fsdecode(f[0])
        try:
            f[0].decode()
        except UnicodeDecodeError:
            continue
        cat = run('cat', path, name)
        assert cat.returncode == 0 and cat.stdout == bytes_of(f), (name, cat.stderr)
        tally['files read'] = tally.get('files read', 0) + 1


def main():
    rnd, tally = random.Random(SEED), {}
    with tempfile.TemporaryDirectory() as folder:
        path = os.path.join(folder, 'chip.img')
        for i in range(COUNT):
            image = some_image(rnd)
            try:
                check(image, path, tally)
            except Exception:
                print('image', i, 'of seed', SEED, 'stands in hunt.img')
                open('hunt.img', 'wb').write(image[3])
                raise
    print(COUNT, 'images; mount accepted', tally.pop(0, 0), 'of them;', tally.pop('files read', 0), 'files read; refusals', dict(sorted(tally.items())))


main()
