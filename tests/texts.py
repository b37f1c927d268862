"""Random route texts: mostly a good route that one or two changes spoil, and some noise. And a good route with its numbers written one way."""
import itertools
import re

from model import HALF_TURN, QUARTER

MARKS = {b'route\tpoint\n': b'.', b'route\tcomma\n': b','}
# ticks at which something changes: signs, ranges, and where 32 bits end
EDGES = [0, 1, 2, 3, 5_000_000, 899_999_999, 900_000_000, 900_000_001, 1_799_999_999, 1_800_000_000, 1_800_000_001, 2_147_483_648,
         4_294_967_295, 4_294_967_296, 4_294_967_297, 9_999_999_999]
# what is no number under any mark; M stands for the header's mark and O for the other one
BAD_NUMBERS = [b'', b'-', b'+1', b'--1', b'1-', b' 1', b'1 ', b'0\r', b'x', b'1e1', b'0000', b'1000', b'-0180', b'M', b'M5', b'5M', b'-M5',
               b'1M2M3', b'1MM2', b'0M00000000', b'0M12345678', b'1M-5', b'/', b':', b'0M/', b'\xb1', b'1\x00', b'\xd9\xa1']
OTHER_MARKS = [b'O', b'2O500', b'1O234M5', b'1M234O5', b'xO', b'O5', b'5O', b'91O5', b'-O', b'0O00000000', b'1M5O']
LINES = [b'\n', b'\r\n', b'z\n', b'g\n', b'g\n', b't\t1\n', b't\tx\n', b't\t-0\n', b'p\t0\t0\n', b'p\t0\n', b'g\t\n', b'\t\n', b'# z\n',
         b'route\tpoint\n']
HEADERS = [b'', b'\n', b'route\n', b'route\tdot\n', b'route\tpoint\r\n', b'route\tcomma\t\n', b'route point\n', b'Route\tcomma\n',
           b' route\tpoint\n', b'route\tpoints\n', b'route\tpoint', b'\xef\xbb\xbfroute\tpoint\n']
ALPHABET = b'ptg\t\t\n\n.,-0123456789'


def written(random, ticks, mark, decimals=7):
    """A number in one of the ways in which it can be written: with more or fewer zeros, with a minus before zero."""
    whole, rest = divmod(abs(ticks), 10**decimals)
    digits = b'%0*d' % (random.choice([1, 1, 1, 2, 3]), whole)
    fraction = b'%0*d' % (decimals, rest)
    shortest = fraction.rstrip(b'0')
    fraction = fraction[:random.choice([len(shortest), len(shortest), random.randint(len(shortest), decimals)])]
    minus = b'-' if ticks < 0 or (ticks == 0 and decimals == 7 and random.random() < 0.1) else b''
    return minus + digits + (mark + fraction if fraction else b'')


def angle(random, limit):
    """An angle of at most this size: anywhere, near zero, near the limit or at an edge, in whole degrees or in ticks."""
    size = random.choice([random.randint(0, limit), random.randint(0, limit), random.randint(0, 9), limit - random.randint(0, 9),
                          random.choice([edge for edge in EDGES if edge <= limit])])
    if random.random() < 0.3:
        size -= size % 10_000_000
    return random.choice([size, -size])


def good_route(random):
    """The lines of a route that is accepted."""
    header = random.choice(list(MARKS))
    lines = [header]
    if random.random() < 0.5:
        lines.append(b't\t%b\n' % written(random, random.choice([0, 1, 999_999, random.randrange(10**6)]), MARKS[header], decimals=3))
    latitude = longitude = 0
    for k in range(random.choice([0, 1, 2, 3, 5, 8])):
        if k and random.random() < 0.2:
            lines.append(b'g\n')
        if k and random.random() < 0.4:  # a short leg
            reach = 10**random.randrange(9)
            latitude += random.randint(-reach, reach)
            longitude += random.randint(-reach, reach)
        else:
            latitude, longitude = angle(random, QUARTER), angle(random, HALF_TURN)
        latitude = max(-QUARTER, min(latitude, QUARTER))
        longitude = max(-HALF_TURN, min(longitude, HALF_TURN - 1))
        lines.append(b'p\t%b\t%b\n' % (written(random, latitude, MARKS[header]), written(random, longitude, MARKS[header])))
    return lines


def one_way(text):
    """A good route with its numbers written one way, made from its bytes alone."""
    def number(said):
        minus, whole, mark, fraction = said.groups(b'')
        digits = whole + (mark + fraction if fraction else b'')
        return (minus if digits != b'0' else b'') + digits

    return re.sub(rb'(?<=\t)(-?)0*([0-9]+?)(?:([.,])([0-9]*?)0*)?(?=[\t\n])', number, text)


def change_number(random, lines, number):
    """Puts another text in the place of one number."""
    numbered = [k for k, line in enumerate(lines) if line[:2] in (b'p\t', b't\t')]
    if not numbered:
        lines.append(b'p\t0\t0\n')
        numbered = [len(lines) - 1]
    k = random.choice(numbered)
    fields = lines[k].rstrip(b'\n').split(b'\t')
    mark = MARKS.get(lines[0], b'.')
    fields[random.randrange(1, len(fields))] = number.replace(b'M', mark).replace(b'O', b',' if mark == b'.' else b'.')
    lines[k] = b'\t'.join(fields) + b'\n'


# Each change spoils a list of lines in its own way. Some leave it good: then the answer has to stay good as well.

def bad_number(random, lines):
    change_number(random, lines, random.choice(BAD_NUMBERS))


def other_mark(random, lines):
    change_number(random, lines, random.choice(OTHER_MARKS))


def number_at_an_edge(random, lines):
    change_number(random, lines, written(random, random.choice([1, -1]) * random.choice(EDGES), b'M'))


def add_point(random, lines, latitudes, longitudes):
    line = b'p\t%b\t%b\n' % (random.choice(latitudes), random.choice(longitudes))
    lines.append(line.replace(b'M', MARKS.get(lines[0], b'.')))


def latitude_out_of_range(random, lines):
    add_point(random, lines, [b'90M0000001', b'-90M0000001', b'91', b'429M4967297', b'-999M9999999'], [b'0', b'180', b'x'])


def longitude_out_of_range(random, lines):
    add_point(random, lines, [b'0', b'90', b'-90'], [b'180', b'180M0', b'-180M0000001', b'429M4967296', b'999M9999999'])


def bad_header(random, lines):
    lines[0] = random.choice(HEADERS)


def other_header(random, lines):
    lines[0] = random.choice(list(MARKS))


def change_kind(random, lines):
    k = random.randrange(len(lines))
    lines[k] = random.choice([b't', b'p', b'g', b'z', b'P', b'pp', b'', b' p']) + lines[k].lstrip(b'ptg')


def drop_field(random, lines):
    k = random.randrange(len(lines))
    fields = lines[k].split(b'\t')
    del fields[random.randrange(len(fields))]
    lines[k] = b'\t'.join(fields)


def add_field(random, lines):
    k = random.randrange(len(lines))
    fields = lines[k].split(b'\t')
    fields.insert(random.randint(0, len(fields)), random.choice([b'', b'0', b'x', b'1.5', b'\t']))
    lines[k] = b'\t'.join(fields)


def drop_end(random, lines):
    k = random.choice([len(lines) - 1, random.randrange(len(lines))])
    lines[k] = lines[k].rstrip(b'\n')


def add_line(random, lines):
    lines.insert(random.randint(1, len(lines)), random.choice(LINES))


def add_rest(random, lines):
    lines.append(random.choice([b'g', b'p\t0\t0', b'z', b' ', b'\r', b'\0', b'g\n', b'\n']))


def swap_lines(random, lines):
    a, b = random.randrange(len(lines)), random.randrange(len(lines))
    lines[a], lines[b] = lines[b], lines[a]


def double_line(random, lines):
    k = random.randrange(len(lines))
    lines.insert(k, lines[k])


def late_target(random, lines):
    lines.insert(random.randint(min(2, len(lines)), len(lines)), random.choice([b't\t1\n', b't\t\n', b't\t1,5\n', b't\tx\n']))


def add_g(random, lines):
    lines.insert(random.randint(1, len(lines)), b'g\n')


def change_byte(random, lines):
    k = random.randrange(len(lines))
    at = random.randint(0, len(lines[k]))
    byte = random.choice([bytes([random.randrange(256)]), bytes([random.choice(ALPHABET)]), b'\r', b''])
    lines[k] = lines[k][:at] + byte + lines[k][at + random.randint(0, 1):]


def cut(random, lines):
    k = random.randrange(len(lines))
    lines[k:] = [lines[k][:random.randint(0, len(lines[k]))]]


def fill_points(random, lines):
    """As many points as are allowed, and nothing after them or a line that is no point."""
    have = sum(line.startswith(b'p\t') for line in lines)
    lines += [b'p\t%d\t%d\n' % (k % 90, k * 7 % 180) for k in range(1000 - have)]
    lines.append(random.choice([b'', b'', b'g\n', b't\t1\n', b'z\n', b'p\t0\n', b'p\t0\t0']))


def too_many_points(random, lines):
    fill_points(random, lines)
    lines[-1] = random.choice([b'p\t0\t0\n', b'p\tx\t,\n', b'p\t91\t0\n', b'g\np\t0\t0\n', b'p\t0\t0\np\t0\t0\n'])


def fill_bytes(random, lines, length=60_000):
    """As many bytes as are allowed, the last line being a long one."""
    start, end = random.choice([(b'p\t', b'\t0\n'), (b'p\t0\t', b'\n'), (b'p\t0\t', b'.\n'), (b'p\t0\t', b',\n'), (b'z', b'\n'),
                                (b'p\t0\t0', b''), (b't\t', b'\n')])
    lines.append(start + b'0' * (length - len(b''.join(lines)) - len(start + end)) + end)


def too_many_bytes(random, lines):
    fill_bytes(random, lines, random.choice([60_001, 60_001, 60_002, random.randint(60_003, 200_000)]))


CHANGES = [bad_number, other_mark, number_at_an_edge, latitude_out_of_range, longitude_out_of_range, bad_header, other_header, change_kind,
           drop_field, add_field, drop_end, add_line, add_rest, swap_lines, double_line, late_target, add_g, change_byte, cut,
           fill_points, too_many_points, fill_bytes, too_many_bytes]


def noise(random):
    """Bytes without a plan, or such as a route has, under a good header or under none."""
    length = random.choice([0, 1, 5, 30, 200])
    any_byte = bytes(random.randrange(256) for _ in range(length))
    of_a_route = bytes(random.choice(ALPHABET) for _ in range(length))
    return random.choice([b'', *MARKS, *MARKS]) + random.choice([any_byte, of_a_route, of_a_route])


def random_texts(random, count):
    """So many texts. The changes take turns, so that each refusal comes up."""
    turns = itertools.cycle(CHANGES)
    for k in range(count):
        if k % 10 == 0:
            yield b''.join(good_route(random))
        elif k % 10 == 1:
            yield noise(random)
        else:
            lines = good_route(random)
            next(turns)(random, lines)
            if random.random() < 0.3:
                random.choice(CHANGES)(random, lines)
            yield b''.join(lines)
