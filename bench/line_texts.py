#!/usr/bin/env python3
"""line_texts.py FOLDER [KB [NAME...]]: writes texts to measure on, the same at each run: FOLDER/NAME, of about KB (36) times 1024 bytes.

The shapes are those of logs, cells and paragraphs that users have. Each line ends with \\n, and a cell is a line. `plain` is `log` without its sequences, so it
is shorter. `open` is for ansi_view only. With SHAPES=1 it prints what each text is made of."""
import os
import random
import re
import sys
import unicodedata

E = '\x1b'
RESET = E + '[0m'
SEQUENCE = re.compile('\x1b\\[[0-?]*[@-~]|\x1b\\][^\x07\x1b]*(?:\x07|\x1b\\\\)')

# Words of three kinds: any; what a line of a build or a test begins with; and how it ends.
ENGLISH = {
    'words': '''connection accepted from request finished retry worker disk mismatched types expected found argument borrowed value does
        not live long enough unused variable cannot move out of index which is behind a shared reference while loading configuration file the
        cache was invalidated because its version changed and will be rebuilt in the background timeout after waiting for response server
        queue package dependency resolved target function returns'''.split(),
    'states': 'Compiling Checking Finished Running Linking Fetching Building Testing'.split(),
    'levels': 'INFO WARN ERROR DEBUG TRACE'.split(),
    'ends': 'ok passed failed ignored skipped PASS FAIL'.split(),
    'test': 'test', 'note': 'note', 'error': 'error', 'warning': 'warning',
}
FRENCH = {
    'words': '''été naïve façon où garçon élève hôtel déjà connexion acceptée depuis requête terminée réessai après délai dépassé valeur
        empruntée référence partagée le fichier de configuration chargé mémoire insuffisante sur la tâche précédente paramètre attendu trouvé
        à côté dépôt version modifiée sera reconstruit en arrière plan réponse du serveur créée même très bientôt'''.split(),
    'states': 'Compilation Vérification Terminé Exécution Édition Téléchargé Génération'.split(),
    'levels': 'INFO ALERTE ERREUR DÉBOGAGE'.split(),
    'ends': 'réussi échoué ignoré passé'.split(),
    'test': 'essai', 'note': 'remarque', 'error': 'erreur', 'warning': 'avertissement',
}
RUSSIAN = {
    'words': '''ошибка замок поле образец система работа время запрос соединение принято от завершён повтор диск значение не живёт достаточно
        долго тип ожидался найден файл настроек загружен память кончилась на задаче параметр версия изменена и будет собрана в фоне ответ сервера
        очередь пакет зависимость'''.split(),
    'states': 'Сборка Проверка Готово Запуск Компоновка Загружен'.split(),
    'levels': 'ИНФО ВНИМАНИЕ ОШИБКА ОТЛАДКА'.split(),
    'ends': 'пройден провален пропущен успех'.split(),
    'test': 'тест', 'note': 'заметка', 'error': 'ошибка', 'warning': 'предупреждение',
}
JAPANESE = '''所有者 寿命の長さ 移動した値 閉包 特性 参照 ファイル エラー 接続しました データベース 要求を待つ 処理が終わりました さくら テスト
    ひらがな 設定を読み込む メモリ不足 サーバー 応答なし 東京 新しい バージョン です から 変更された 警告 コンパイル'''.split()
THAI = 'ผู้ใช้ ระบบ ทำงาน เวลา คำขอ ข้อผิดพลาด การเชื่อมต่อ แฟ้ม สำเร็จ เริ่มต้น หน่วยความจำ ล้มเหลว รอคอย เซิร์ฟเวอร์ น้ำ ที่'.split()
EMOJI = ['✅', '🚀', '🔥', '❌', '👩‍👩‍👧‍👦', '🇯🇵', '📦', '⚠️']
FILES = 'main lib parser cache server queue worker config index table style scanner'.split()
FOLDERS = 'src tests crates bench docs target build packages'.split()
ENDINGS = 'rs py c h toml ts go log'.split()
FAMILY = 'https://example.org/repository/tree/main/docs/'


def sgr(codes):
    return E + '[' + codes + 'm'


def color(r, base='3'):
    """Mostly one of 16 colors; some of 256, and some true ones."""
    kind = r.random()
    if kind < 0.6:
        return r.choice(['', '1;']) + r.choice([base + str(r.randrange(1, 8)), '9' + str(r.randrange(1, 8)) if base == '3' else base + '1'])
    if kind < 0.81:
        return '%s8;5;%d' % (base, r.randrange(16, 256))
    return '%s8;2;%d;%d;%d' % (base, r.randrange(256), r.randrange(256), r.randrange(256))


def any_sgr(r):
    """A color, or sometimes an attribute."""
    return sgr(r.choice(['1', '2', '4', '1;4', '7']) if r.random() < 0.12 else color(r))


def end_of(r, opened):
    """What closes it: a reset, or its own end."""
    if r.random() < 0.75 or not re.search(r'\[(?:3|9)', opened):
        return RESET
    return sgr('39')


def path(r):
    return '/'.join(r.sample(FOLDERS, r.randrange(1, 3))) + '/' + r.choice(FILES) + '.' + r.choice(ENDINGS)


def some(r, lang, least, most):
    return r.choices(lang['words'], k=r.randrange(least, max(least, most) + 1))


def fields(r, lang, count):
    """The fields of a line of a build, a test run or a server: a list of texts."""
    longer = count + r.choice([0, 1, 2, 3, 16]) if r.random() < 0.16 else count
    kind = r.randrange(7)
    if kind == 0:
        return [r.choice(lang['states']), r.choice(FILES) + '-' + r.choice(FILES), 'v%d.%d.%d' % (r.randrange(9), r.randrange(20), r.randrange(9)),
                '(' + path(r) + ')', *some(r, lang, 0, longer)]
    if kind == 1:
        return [lang['test'], '%s::%s::%s' % tuple(r.sample(FILES, 3)), '...', r.choice(lang['ends']), '%dms' % r.randrange(1, 4000)]
    if kind == 2:
        return ['%02d:%02d:%02d.%03d' % (r.randrange(24), r.randrange(60), r.randrange(60), r.randrange(1000)), r.choice(lang['levels']),
                r.choice(FILES) + ':', *some(r, lang, 1, 1 + longer), '%d' % r.randrange(100000)]
    if kind == 3:
        return [lang[r.choice(['error', 'warning'])] + '[E%04d]:' % r.randrange(1000), *some(r, lang, 2, 2 + longer)]
    if kind == 4:
        return ['  -->', path(r) + ':%d:%d' % (r.randrange(1, 999), r.randrange(1, 99)), *some(r, lang, 0, longer)]
    if kind == 5:
        return ['%4d |' % r.randrange(1, 999), '   let', r.choice(FILES), '=', r.choice(FILES) + '.' + r.choice(FILES) + '(%s);' % r.choice(FILES),
                *(['//', *some(r, lang, 1, longer)] if r.random() < 0.5 else [])]
    return [lang['note'] + ':', *some(r, lang, 2, 2 + longer)]


def log_line(r, lang, is_colored, blank=' '):
    """A line of 20 to 200 bytes: none of its fields is colored, or up to three are, with two SGRs each."""
    while True:
        if not is_colored:
            line = blank.join(fields(r, lang, 1))
        else:
            parts = fields(r, lang, 1)
            for at in r.sample(range(len(parts)), min(len(parts), r.choices([1, 2, 3], [1, 1, 30])[0])):
                opened = any_sgr(r)
                parts[at] = opened + parts[at] + end_of(r, opened)
            line = blank.join(parts)
        if 20 <= len(line.encode()) <= 200:
            return line


def halves(r):
    """Half of them, at random places."""
    while True:
        yield from r.sample([True, False] * 5, 10)


def log(r, lang=ENGLISH):
    for is_colored in halves(r):
        yield log_line(r, lang, is_colored)


def plain(r):
    for line in log(r):
        yield SEQUENCE.sub('', line)


def words_in_color(r, words, share):
    return ' '.join(sgr(color(r)) + w + RESET if r.random() < share else w for w in words)


def japanese(r):
    while True:
        yield words_in_color(r, r.choices(JAPANESE, k=r.randrange(2, 11)), 0.5)


def thai(r):
    while True:
        yield words_in_color(r, r.choices(THAI, k=r.randrange(2, 10)), 0.2)


def truecolors(r):
    while True:
        words = r.choices(ENGLISH['words'], k=r.randrange(2, 9))
        yield ' '.join('%s[38;2;%d;%d;%dm%s%s' % (E, r.randrange(256), r.randrange(256), r.randrange(256), w, RESET) for w in words)


def unfinished(r):
    """Each line ends inside a sequence: inside its last one that isn't at its front, or inside one that is begun at its end."""
    for line in log(r):
        found = [m for m in SEQUENCE.finditer(line) if m.start() >= 18]
        if found:
            last = found[-1]
            yield line[:r.randrange(last.start() + 1, last.end())]
        elif r.random() < 0.2:
            link = E + ']8;;' + FAMILY + path(r)
            yield line + link[:r.randrange(2, len(link))]
        else:
            begun = any_sgr(r)
            yield line + begun[:r.randrange(1, len(begun))]


def prose(r):
    """Paragraphs of 100 to 800 bytes: a word in ten in color, links in some, and in one of four a part in Japanese."""
    while True:
        most, words = r.randrange(100, 800), []
        has_link, has_japanese = r.random() < 0.4, r.random() < 0.25
        place = r.random()
        while True:
            word = r.choice(ENGLISH['words'])
            if r.random() < 0.1:
                opened = any_sgr(r)
                word = opened + word + end_of(r, opened)
            added = [word]
            part = len(' '.join(words).encode()) / most
            if has_link and part > place / 2:
                has_link = False
                added = [E + ']8;;' + FAMILY + path(r) + E + '\\' + word + ' ' + r.choice(ENGLISH['words']) + E + ']8;;' + E + '\\']
            elif has_japanese and part > place:
                has_japanese = False
                added = r.choices(JAPANESE, k=r.randrange(2, 7))
            elif r.random() < 0.1:
                added[-1] += r.choice(',.;')
            if len(' '.join(words + added).encode()) > most:
                break
            words += added
        paragraph = ' '.join(words)
        if 100 <= len(paragraph.encode()) <= 800:
            yield paragraph


def tabs(r):
    """Log lines with TABs between their fields, one of eight after a cleared line."""
    for is_colored in halves(r):
        line = log_line(r, ENGLISH, is_colored, '\t')
        yield (E + '[2K\r' if r.random() < 0.125 else '') + line


def open_styles(r):
    """The log; every third line opens a color before its last word, or one after its last sequence, and doesn't close it."""
    for number, line in enumerate(log(r)):
        if number % 3 == 0:
            last = max((m.end() for m in SEQUENCE.finditer(line)), default=0)
            blanks = [at for at in range(last, len(line)) if line[at] == ' ']
            at = r.choice(blanks) + 1 if blanks else last
            line = line[:at] + sgr(color(r)) + line[at:]
        yield line


def width(text):
    return sum(0 if unicodedata.category(c) in ('Mn', 'Me', 'Cf') else 2 if unicodedata.east_asian_width(c) in 'WF' else 1
               for c in SEQUENCE.sub('', text))


def filled(r, make, least, most):
    """Words, one after the other, of which as many characters are taken as are asked for."""
    text, length = make(r), r.randrange(least, most + 1)
    while len(text) < length:
        text += ' ' + make(r)
    return text[:length].strip(' /')


def word(r):
    return r.choice(ENGLISH['words'])


def number(r):
    return r.choice(['%d' % r.randrange(100, 10000000), '%.2f' % (r.random() * 10000), '%d.%d%%' % (r.randrange(10, 100), r.randrange(10)),
                     '2024-%02d-%02d' % (r.randrange(1, 13), r.randrange(1, 29)), '%d,%03d,%03d' % (r.randrange(1, 99), r.randrange(1000), r.randrange(1000))])


def long_path(r):
    return '/' + '/'.join(r.choices(FOLDERS + FILES, k=8))


def cell(r):
    """A third a word or two in one color, a fifth numbers, a tenth paths, some bold, a twentieth with emoji or Japanese, the rest plain words.
    One of four that isn't a number is wider than 24 columns, so one of five in all."""
    kind, is_wide = r.random(), r.random() < 0.25
    if kind < 0.33:
        opened = sgr(color(r) if not is_wide and r.random() < 0.3 else r.choice(['3%d' % r.randrange(1, 8), '1;3%d' % r.randrange(1, 8)]))
        text = filled(r, word, 25, 30) if is_wide else ' '.join(r.choices(ENGLISH['words'], k=r.choice([1, 1, 1, 2])))
        return opened + text + end_of(r, opened)
    if kind < 0.53:
        return number(r)
    if kind < 0.63:
        return filled(r, long_path, 25, 36) if is_wide else path(r)
    if kind < 0.69:
        return sgr('1') + (filled(r, word, 25, 31) if is_wide else ' '.join(r.choices(ENGLISH['words'], k=r.choice([1, 2])))) + r.choice([RESET, sgr('22')])
    if kind < 0.74:
        if r.random() < 0.5:
            return ''.join(r.choices(JAPANESE, k=9))[:13] if is_wide else r.choice(JAPANESE)
        return r.choice(EMOJI) + ' ' + (filled(r, word, 23, 27) if is_wide else word(r))
    return filled(r, word, 25, 38) if is_wide else ' '.join(r.choices(ENGLISH['words'], k=r.choice([1, 1, 2])))


def cells(r):
    while True:
        made = cell(r)
        if 3 <= len(made.encode()) <= 40:
            yield made


# the same seed for `log` and for `plain`, whose lines are the same
TEXTS = {
    'log': (log, 'log'), 'plain': (plain, 'log'), 'cells': (cells, 'cells'), 'japanese': (japanese, 'japanese'),
    'french': (lambda r: log(r, FRENCH), 'french'), 'russian': (lambda r: log(r, RUSSIAN), 'russian'), 'thai': (thai, 'thai'),
    'truecolors': (truecolors, 'truecolors'), 'unfinished': (unfinished, 'unfinished'), 'prose': (prose, 'prose'), 'tabs': (tabs, 'tabs'),
    'open': (open_styles, 'log'),
}


def lines_of(name, size):
    """Lines up to this many bytes; of `plain`, as many lines as `log` has."""
    make, seed = TEXTS[name]
    lines, length = [], 0
    source, counted = make(random.Random('measure ' + seed)), log(random.Random('measure log'))
    while True:
        line = next(source)
        length += len((next(counted) if name == 'plain' else line).encode()) + 1
        if length > size:
            return lines
        lines.append(line)


def shape(name, lines):
    sizes = [len(line.encode()) for line in lines]
    sequences = [sum(len(m) for m in SEQUENCE.findall(line)) for line in lines]
    counts = [len(SEQUENCE.findall(line)) for line in lines]
    return ('%-11s %6d bytes %5d lines of %3d to %3d, mean %5.1f; %4.1f %% of the bytes in sequences, at most %2d a line; %4.1f %% of the lines '
            'without; %4.1f %% wider than 24' % (
                name, sum(sizes), len(lines), min(sizes), max(sizes), sum(sizes) / len(sizes), 100 * sum(sequences) / sum(sizes), max(counts),
                100 * sum(E not in line for line in lines) / len(lines), 100 * sum(width(line) > 24 for line in lines) / len(lines)))


def write(folder, kb=36, names=()):
    os.makedirs(folder, exist_ok=True)
    for name in names or TEXTS:
        lines = lines_of(name, int(kb) * 1024)
        if os.environ.get('SHAPES'):
            print(shape(name, lines))
        with open(os.path.join(folder, name), 'wb') as file:
            file.write(''.join(line + '\n' for line in lines).encode())


if __name__ == '__main__':
    if len(sys.argv) < 2:
        sys.exit(__doc__)
    write(sys.argv[1], *sys.argv[2:3], names=sys.argv[3:])
