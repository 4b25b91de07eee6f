"""What lines show, cell by cell: random texts, hostile ones among them, their edits by columns and their lines with indents, and texts
with ranges in another style or link, replaced or removed; and for each result a text without a hostile byte that a terminal has to show
alike. For `terminals`.

A cell is a character, the SGRs since the last reset, and the sequence that opened its link. What is written here follows the pages; of the
library it takes only the results, and where lines end."""
import re
import unicodedata

ITEM = re.compile('(?P<other>\033\\[[0-?]*[ -/]*[@-~]|\033\\][^\a\033]*(?:\a|\033\\\\)|\033[PX^_][^\033]*\033\\\\|\033(?![]PX^_[])[ -/]*[0-~])'
                  '|(?P<lone>\033)|(?P<run>[^\033]+)')
SGR = re.compile('\033\\[(?![<-?])([0-?]*)m')
LINK = re.compile('\033\\]8;[ -:<-~]*;([ -~]*)(?:\a|\033\\\\)')

LETTERS = list('abcdefgh' * 2 + '    ,,,' + 'XYZ09-_=') + ['汉', '字', 'é', 'e\u0301', 'a\u0308', 'ß', '→']
CODES = '1 3 4 5 7 9 22 23 24 25 27 29 39 49 0'.split()
LINKS = ['\033]8;;http://a/\033\\', '\033]8;id=1;http://b/\a', '\033]8;;\033\\', '\033]8;;\a']
OTHER_SEQUENCES = ['\033]0;title\a', '\033[?25l', '\033[?2004h', '\033[2 q', '\033]2;t\033\\', '\033=']
HOSTILE = ['\033[2J', '\033[H', '\033[3;7H', '\033[2K', '\033[5D', '\033[?25l', '\033[?1049h', '\033[?7l', '\033[4h', '\033(0', '\033c', '\033M',
           '\0337', '\033]0;title\a', '\033]52;c;eA==\a', '\033P$q q\033\\', '\033[6n', '\033]8;;h\001\a', '\033[>4;2m', '\033', '\033[',
           '\033[3', '\033]8;;http', '\033]0;t', '\033P', '\033(', '\a', '\b', '\016', '\177', '\x85', '\x9b', '\u202e', '\t', '\n', '\r\n', '\r', '\v', '\u0301']
TAILS = ['', '…', '...', '>', '字', '\033[3m…', '\033[31;4m~', '\033]8;;http://z/\a>', '\033[1m.\033[22m', '\033[2J~', '~\a', '\033[3;7H~',
         '\033]0;x\a~', '\033(0q', '\033[?1049h~', '\u0301', '\u0301.', '\t', '\n', '.\r\n.', '\r~', '\b~', '\033', '\033[', '~\033[',
         '\033]8;;http', '~\033]0;', '\x9b2J', '~\u202e', '\033]8;;é\a~', '\033[7m \033[2K']


def joins(char):
    return unicodedata.category(char) in ('Mn', 'Me')


def columns(text):
    """The columns of a text, and of its clusters where each begins and its columns."""
    found, at = [], 0
    for place, char in enumerate(text):
        if not (joins(char) and found):
            found.append([place, at, 0])
        if not joins(char):
            wide = 2 if unicodedata.east_asian_width(char) in 'WF' else 1
            at += wide
            found[-1][2] = wide
    return at, found


def width(row):
    return columns([cell[0] for cell in row])[0]


def row_of(text, blanks='\t\n', kept=''):
    """The cells of a text: `blanks` are shown as blanks, and no other control is shown but those that are `kept`."""
    row, pen, link = [], (), ''
    for item in ITEM.finditer(text):
        sgr, opened = SGR.fullmatch(item.group()), LINK.fullmatch(item.group())
        if sgr:
            pen = () if not sgr.group(1).strip('0') else pen + (item.group(),)
        elif opened:
            link = item.group() if opened.group(1) else ''
        elif item.group('run'):
            for char in item.group():
                if char in blanks:
                    row.append((' ', pen, link))
                elif char in kept or unicodedata.category(char) != 'Cc' and char not in '\u202a\u202b\u202c\u202d\u202e\u2066\u2067\u2068\u2069':
                    row.append((char, pen, link))
    return row


def blank_row(count):
    return [(' ', (), '')] * count


def fitting(row, most):
    _, clusters = columns([cell[0] for cell in row])
    last = max((place for place, (_, at, wide) in enumerate(clusters) if at + wide <= most), default=-1)
    return row[:clusters[last + 1][0] if last + 1 < len(clusters) else len(row)]


def sliced(row, start, end):
    all_columns, clusters = columns([cell[0] for cell in row])
    made = []
    for (place, at, wide), (until, _, _) in zip(clusters, clusters[1:] + [[len(row), 0, 0]]):
        if start <= min(at, all_columns - 1) and min(at, all_columns - 1) + max(wide, 1) <= end and all_columns:
            made += row[place:until]
        else:
            made += [(' ',) + row[place][1:]] * max(0, min(at + wide, end) - max(at, start))
    return made


def truncated(row, most, tail, side='end'):
    if width(row) <= most:
        return row
    tail = tail if width(tail) <= most else []
    room = most - width(tail)
    if side == 'end':
        return fitting(row, room) + tail
    last = room if side == 'start' else room // 2
    return sliced(row, 0, room - last) + tail + sliced(row, width(row) - last, width(row))


def padded(row, least, alignment):
    missing = max(0, least - width(row))
    before = {'left': 0, 'center': missing // 2, 'right': missing}[alignment]
    return blank_row(before) + row + blank_row(missing - before)


def expanded(text, stop):
    made, line = '', []
    for item in ITEM.finditer(text):
        for char in item.group() if item.group('run') else [item.group()]:
            if char == '\t':
                count = stop - width(line) % stop if stop else 0
                line += blank_row(count)
                made += ' ' * count
                continue
            made += char
            if item.group('run'):
                line = [] if char == '\n' else line + row_of(char)
    return made


def edited(library, text, edits):
    """What edits in turn make of a text's row."""
    edits = list(edits)
    while edits and isinstance(edits[0], library.Expand):
        text = expanded(text, edits.pop(0).stop)
    row = row_of(text)
    for edit in edits:
        if isinstance(edit, library.Slice):
            row = sliced(row, edit.start, width(row) if edit.end is None else edit.end)
        elif isinstance(edit, library.Truncate):
            row = truncated(row, edit.width, row_of(edit.tail), edit.side)
        elif isinstance(edit, library.Pad):
            row = padded(row, edit.width, edit.alignment)
        elif isinstance(edit, library.Fit):
            row = padded(truncated(row, edit.width, row_of(edit.tail)), edit.width, edit.alignment)
    return row


def shown(row):
    """A text that shows a row: before each cell whose pen is another than that of the one before, all of its SGRs and its link."""
    made, before = '', ((), '')
    for char, pen, link in row:
        if (pen, link) != before:
            made += '\033[0m' + ''.join(pen) + ('\033]8;;\033\\' if before[1] else '') + link
            before = pen, link
        made += char
    return made + '\033[0m' + ('\033]8;;\033\\' if before[1] else '')


def random_codes(draw):
    def color():
        base = draw.choice('34')
        return draw.choice([base + str(draw.randrange(8)), f'{base}8;5;{draw.randrange(256)}', f'{base}8;2;{draw.randrange(256)};1;{draw.randrange(256)}'])

    return ';'.join(color() if draw.random() < 0.45 else draw.choice(CODES) for _ in range(draw.choice([1, 1, 2])))


def random_text(draw, hostile=HOSTILE):
    def token():
        kind = draw.random()
        if kind < 0.6:
            return draw.choice(LETTERS)
        if kind < 0.78:
            return '\033[' + random_codes(draw) + 'm'
        return draw.choice(LINKS) if kind < 0.85 else draw.choice(hostile)

    return ''.join(token() for _ in range(draw.randrange(1, 26)))


def random_edit(library, draw):
    alignment, tail = draw.choice(['left', 'center', 'right']), draw.choice(TAILS)
    kind = draw.randrange(5)
    if kind == 0:
        return library.Expand(draw.randrange(9))
    if kind == 1:
        return library.Slice(draw.randrange(8), draw.choice([None, draw.randrange(24)]))
    if kind == 2:
        return library.Truncate(draw.randrange(20), tail, draw.choice(['end', 'start', 'middle']))
    if kind == 3:
        return library.Pad(draw.randrange(30), alignment)
    return library.Fit(draw.randrange(20), alignment, tail)


def column_results(library, draw):
    """What the calls on columns make of a random text: the call with its words, the result, and the row that a terminal has to show."""
    text = random_text(draw)
    edits = [random_edit(library, draw) for _ in range(draw.randrange(1, 5))]
    yield ('edit_columns', text, edits), library.edit_columns(text, edits), edited(library, text, edits)
    wide, side, alignment = draw.randrange(18), draw.choice(['end', 'start', 'middle']), draw.choice(['left', 'center', 'right'])
    tail, first, later = (draw.choice(TAILS) for _ in range(3))
    row = row_of(text)
    yield ('truncate', text, wide, tail, side), library.truncate(text, wide, tail, side), truncated(row, wide, row_of(tail), side)
    yield ('fit', text, wide, alignment, tail), library.fit(text, wide, alignment, tail), padded(truncated(row, wide, row_of(tail)), wide, alignment)
    yield ('pad', text, wide, alignment), library.pad(text, wide, alignment), padded(row, wide, alignment)
    indents = row_of(first), row_of(later)
    for number, (line, own) in enumerate(zip(library.wrap(text, wide, first, later), wrapped(library, text, wide - max(map(width, indents))))):
        yield ('wrap', text, wide, first, later, number), line, indents[number > 0] + own


def wrapped(library, text, wide):
    """The rows of the lines of a text. Where a line begins and ends in what is shown, the library says."""
    row = row_of(text, blanks='\t', kept='\n')
    plain = ''.join(cell[0] for cell in row)
    for start, end in library.lines(plain, max(1, wide)):
        yield row[start:end]


OTHERS = ['', 'x', '字', '\033[1mAB', '\033[31mA\033[mB', '\033[7;32mAB', '\033]8;;http://z/\aAB', 'A\033]8;;\033\\B']
END = '\033[0m\033]8;;\033\\'


def pen_after(text):
    return row_of(text + ' ')[-1][1:]


def put(row, place, with_, last):
    """The cells of another text in the style and the link of the cell before a place, or of the first one."""
    pen, link = (row[max(0, place - 1)] if row else (None,) + last)[1:]
    return row_of(''.join(pen) + link + with_)


def replaced(row, ranges, with_, last):
    made, end = [], 0
    for start, until in ranges:
        made += row[end:start] + put(row, start, with_, last)
        end = until
    return made + row[end:]


def changed(row, ranges, change):
    return [change(cell) if any(start <= place < end for start, end in ranges) else cell for place, cell in enumerate(row)]


def range_results(library, draw):
    """What the calls on ranges, matches and links make of a random text without hostile bytes: as `column_results`. A letter is at the end
    of the result, in what is open there, and then that is closed."""
    text = random_text(draw, OTHER_SEQUENCES)
    row, plain = row_of(text), library.strip(text)
    start, end = sorted(draw.randrange(len(row) + 1) for _ in range(2))
    places = sorted(draw.randrange(len(row) + 1) for _ in range(2 * draw.randrange(1, 4)))
    ranges, last = list(zip(places[::2], places[1::2])), pen_after(text)
    pattern, codes, with_ = draw.choice(['a', 'b', ' ', ',', 'ab', '']), random_codes(draw), draw.choice(OTHERS)
    matches = [found.span() for found in re.finditer(re.escape(pattern), plain)]
    restyled = lambda cell: (cell[0], () if not codes.strip('0') else cell[1] + ('\033[' + codes + 'm',), cell[2])
    linked = lambda cell: cell[:2] + ('\033]8;;http://new/\033\\',)
    for name, answer, cells, open_ in [
            (('restyle', text, ranges, codes), library.restyle(text, ranges, codes), changed(row, ranges, restyled), last),
            (('mark', text, pattern, codes), library.mark(text, pattern, codes), changed(row, matches, restyled), last),
            (('remove', text, start, end), library.remove(text, start, end), row[:start] + row[end:], last),
            (('replace', text, start, end, with_), library.replace(text, start, end, with_), replaced(row, [(start, end)], with_, last), last),
            (('insert', text, start, with_), library.insert(text, start, with_), replaced(row, [(start, start)], with_, last), last),
            (('replace_all', text, pattern, with_), library.replace_all(text, pattern, with_), replaced(row, matches, with_, last), last),
            (('link', text, start, end), library.link(text, start, end, 'http://new/'), changed(row, [(start, end)], linked), last),
            (('unlink', text), library.unlink(text), changed(row, [(0, len(row))], lambda cell: cell[:2] + ('',)), (last[0], ''))]:
        yield name, answer + 'y' + END, cells + [('y',) + open_]
