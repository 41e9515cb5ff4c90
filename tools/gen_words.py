#!/usr/bin/env python3
"""gen_words.py [--check]: writes the code's pools of texts and its tables of places, from the tables of words in the specs;
and the law of the Ukrainian texts' spaces.

A pool is one byte string in which every text of a language stands somewhere, texts that overlap sharing their bytes; a text's place is half
of where it starts, times 40, and its length. A table whose words have an apostrophe has one more index, the first: the number of the sign that is
said for it. What is written is committed; --check compares instead, and fails where a file differs."""
import re
import sys
import textwrap

import apostrophes
import arms
import generated

LONGER = 40  # than any text: words/src/lib.rt has the same number
PAD = b'_'  # brings the next text to an even byte; no space, since the bytes before the texts with spaces are to have none


def spec(path):
    return generated.committed('crates/' + path)


def tables(path):
    """Every definition of a file that is a text or a list of texts, as Python has them."""
    found = {}
    for name, body in re.findall(r'^(\w+) =\s*((?:[("\[].*\n?)(?:    .*\n?)*)', spec(path), re.M):
        words = re.findall(r'"[^"]*"|\(|\)|∷|\[\]', body)
        found[name] = listed(words)
    return found


def listed(words):
    item = words.pop(0)
    if item == '[]':
        return []
    if item == '(':
        item = listed(words)
        words.pop(0)
    else:
        item = item[1:-1]
    if words and words[0] == '∷':
        words.pop(0)
        return [item] + listed(words)
    return item


def overlap(a, b):
    """The most bytes at the end of a that b begins with, such that b starts at an even byte of a."""
    for size in range(min(len(a), len(b)) - 1, 0, -1):
        if (len(a) - size) % 2 == 0 and a.endswith(b[:size]):
            return size
    return 0


def start_in(pool, text):
    at = pool.find(text)
    while at > 0 and at % 2 == 1:
        at = pool.find(text, at + 1)
    return at


def pool_of(texts):
    """A short byte string that has every text at an even byte: what is in another is left out, then those that overlap most are joined."""
    left = []
    for text in sorted({t.encode() for t in texts if t}, key=lambda t: (-len(t), t)):
        if all(start_in(other, text) < 0 for other in left):
            left.append(text)
    shared = {(a, b): overlap(a, b) for a in left for b in left if a != b}
    while shared:
        (a, b), size = max(shared.items(), key=lambda item: (item[1], item[0]))
        if size == 0:
            break
        joined = a + b[size:]
        left = [t for t in left if t not in (a, b)]
        shared = {p: n for p, n in shared.items() if a not in p and b not in p}
        for t in left:
            shared[t, joined], shared[joined, t] = overlap(t, joined), overlap(joined, t)
        left.append(joined)
    return b''.join(t if len(t) % 2 == 0 else t + PAD for t in left)


def by_apostrophe(tables):
    """The tables, those whose words have an apostrophe by the sign's number first."""
    return {name: [apostrophes.with_sign(table, sign) for sign in apostrophes.SIGNS] if apostrophes.LETTER in ''.join(flat(table)) else table
            for name, table in tables.items()}


def flat(item):
    return [item] if isinstance(item, str) else [text for part in item for text in flat(part)]


class Pool:
    """A pool of texts, and of plurals: texts of which a plural with `s` is wanted too, at the same place. The common ones start in its first `front`
    bytes and end no more than LONGER behind them. Texts with spaces stand last, behind `unspaced` bytes that have none."""
    def __init__(self, texts, common, plurals=()):
        self.plurals = set(plurals)
        wanted = [text + 's' if text in self.plurals else text for text in texts]
        common = [text + 's' if text in self.plurals else text for text in common]
        self.bytes = pool_of(common)
        self.front = len(self.bytes)
        self.bytes += pool_of([text for text in wanted if ' ' not in text and start_in(self.bytes, text.encode()) < 0])
        self.unspaced = len(self.bytes)
        self.bytes += pool_of([text for text in wanted if ' ' in text])
        assert b' ' not in self.bytes[:self.unspaced]

    def counts(self):
        """How many spaces stand before each byte behind the unspaced ones, and before the end."""
        rest = self.bytes[self.unspaced:]
        return bytes(rest[:i].count(b' ') for i in range(len(rest) + 1))

    def place(self, text):
        if text == '':
            return 0
        if text in self.plurals:
            return self.place(text + 's') - 1
        at, size = start_in(self.bytes, text.encode()), len(text.encode())
        assert at >= 0 and size < LONGER, text
        return at // 2 * LONGER + size

    def places(self, table):
        return self.place(table) if isinstance(table, str) else [self.places(row) for row in table]


def shape(table):
    return 'u16' if isinstance(table, int) else '[%s; %d]' % (shape(table[0]), len(table))


def literal(table, indent=''):
    """A constant's value as the formatter sets it: numbers on one line where they fit, else lines of them; of lists an item a line."""
    if isinstance(table, int):
        return str(table)
    within = indent + '    '
    if isinstance(table[0], list):
        return '[\n' + ''.join('%s%s,\n' % (within, literal(row, within)) for row in table) + indent + ']'
    numbers = ', '.join(map(str, table))
    if len(numbers) <= 60:
        return '[%s]' % numbers
    return '[\n' + textwrap.fill(numbers + ',', 100, initial_indent=within, subsequent_indent=within) + '\n' + indent + ']'


def constants(head, tables):
    out = head
    for name, table in tables:
        out += '\npub const %s: %s = %s;\n' % (name.upper(), shape(table), literal(table))
    return out


def listing(table):
    if isinstance(table, int):
        return str(table)
    return '(' + ' ∷ '.join([listing(row) for row in table] + ['[]']) + ')'


def depth(table):
    return 'ℕ' if isinstance(table, int) else 'List ' + ('ℕ' if isinstance(table[0], int) else '(%s)' % depth(table[0]))


def lists(head, tables):
    out = head + '''-- Assumes nothing.
use Prim.Native.Nat.{ℕ}
use mathlib.Core.List.{List, [], ◌∷◌}
'''
    for name, table in tables:
        out += '\nabbrev pub %s : %s\n%s =\n' % (name, depth(table), name)
        if isinstance(table, int):
            out += '    %d\n' % table
        else:
            rows = [listing(row) for row in table]
            per = 1 if isinstance(table[0], list) else 12
            out += ''.join('    %s ∷\n' % ' ∷ '.join(rows[i:i + per]) for i in range(0, len(rows), per)) + '    []\n'
    return out


def byte_string(data):
    """Bytes as a byte string's text, letters as themselves, in lines of which each goes on behind a backslash."""
    lines = ['']
    for b in data:
        # a space at the front of a line would be passed over
        shown = chr(b) if 32 <= b < 128 and (b != 32 or lines[-1]) else '\\x%02x' % b
        if len(lines[-1] + shown) > 96:
            lines.append('')
            shown = shown if b != 32 else '\\x20'
        lines[-1] += shown
    return '\\\n    '.join(lines)


def byte_constant(name, size, data):
    line = 'pub const %s: [u8; %s] =' % (name, size)
    text = '*b"%s";' % byte_string(data)
    return line + (' ' if len(line + text) < 100 else '\n    ') + text + '\n'


def front_source(pool):
    """The front of a pool as a constant of its own."""
    data = pool.bytes[:pool.front + LONGER]
    return '''
// The front of the pool, with the words of everyday figures, and the first place that is not for it: a text at a place below stands in it whole.
pub const FRONT: usize = %d;

pub const FRONT_PLACES: u32 = %d;

%s''' % (len(data), pool.front // 2 * LONGER, byte_constant('FRONT_POOL', 'FRONT', data))


def pool_source(head, pool, measured, fronted):
    sizes = 'pub const SIZE: usize = %d;\n' % len(pool.bytes)
    if measured:
        unspaced = 'SIZE' if pool.unspaced == len(pool.bytes) else str(pool.unspaced)
        sizes += '\n// How many of its bytes, from the first on, have no space; how many spaces stand before each of the others, and before its end.\n'
        sizes += 'pub const UNSPACED: usize = %s;\n\n' % unspaced
        sizes += byte_constant('COUNTS', str(len(pool.counts())), pool.counts())
    front = front_source(pool) if fronted else ''
    return '%s\n%s\n%s%s' % (head, sizes, byte_constant('POOL', 'SIZE', pool.bytes), front)


def front_spec(pool):
    return '''
-- how many bytes its front has, and the first place that is not for it
abbrev pub front_size : ℕ
front_size = %d

abbrev pub front_places : ℕ
front_places = %d
''' % (pool.front + LONGER, pool.front // 2 * LONGER)


def pool_spec(head, name, pool, fronted):
    text = pool.bytes.decode()
    rows = [text[i:i + 100] for i in range(0, len(text), 100)]
    body = ' ++ ('.join('utf8 "%s"' % row for row in rows) + ')' * (len(rows) - 1)
    body = body.replace(' ++ (', '\n    ++ (')
    return '''%s
-- Assumes nothing.
use Rattle.std.specs.Prelude.{ℕ, List%s}
use Rattle.base.specs.Utf8.{utf8}

-- all of them, one over another
unfoldable pub %s : List ℕ
%s =
    %s
%s''' % (head, ', ◌++◌' if len(rows) > 1 else '', name, name, body, front_spec(pool) if fronted else '')


def counted_law(pool):
    """The law that the code's counts are those of the Ukrainian texts' spaces, by computing. It is made here, since its numbers change with the words."""
    return '''-- The counts are those of the texts' spaces. Made by tools/gen_words.py.
-- Assumes nothing.
use mathlib.Core.Path.{refl}
use mathlib.Core.List.{[], ◌∷◌}
use native.Mathlib.Omega.{arith}
use Rattle.base.specs.Measure.{spaces}
use Rattle.words.specs.Extents.{counts_from, SpacesCounted}
use Rattle.uk.specs.Pool.{uk_pool}

pub counted : SpacesCounted uk_pool %d %s
unfolding spaces counts_from uk_pool
counted = record { within = omega arith; none = refl; others = refl }
''' % (pool.unspaced, listing(list(pool.counts())))


UK = by_apostrophe(tables('uk/specs/UkTables.antt'))
# these are looked up for every group, and would be made on the stack each time
DIGITS = {name: UK[name] for name in ('units', 'tens', 'hundreds')}
ORDINAL = by_apostrophe(tables('uk_ordinal/specs/OrdinalTables.antt'))
SHORT = {name: table for name, table in ORDINAL.items() if name.endswith('_short')}
NOUNS = tables('uk_money/specs/NounTables.antt')
FR = tables('fr/specs/FrTables.antt')
CLASSES = re.findall(r'^endings (\w+) = (\S+)$', spec('uk_money/specs/Nouns.antt'), re.M)
CURRENCIES = re.findall(r'^    currency "\w+" \(([^)]*)\) \(([^)]*)\)', spec('uk_money/specs/Currencies.antt'), re.M)

# texts that stand in no table of the specs
UK_OTHERS = {'minus': 'мінус'}
ORDINAL_OTHERS = {'adjective_n': 'н', 'before_era': 'до', 'our_era': 'н.е.'}
FR_OTHERS = {'zero': 'zéro', 'moins': 'moins', 'une': 'une', 'et': 'et', 'quatre_vingt': 'quatre-vingt',
             'cent': 'cent', 'premier': 'premier', 'ieme': 'ième'}


def fr_tables():
    """The words that the French planner counts on: tens as every region has them; hundreds with their unit, by joiner; scale words. Those with a
    plural stand for both: it is one byte longer."""
    tens = ['', ''] + FR['tens'][1:6] + ['septante', 'huitante', 'nonante']
    hundreds = [['', ''] + [unit + joiner + 'cent' for unit in FR['units'][1:]] for joiner in ' -']
    return {'units': [''] + FR['units'], 'teens': FR['teens'], 'tens': tens, 'hundreds': hundreds, 'megas': [''] + FR['megas']}


def name_row(text):
    """The row of a unit's name: the places of its adjective's and its noun's stems, the noun's class and the gender."""
    gender = int(text.startswith('feminine'))
    words = re.findall(r'"([^"]*)" (\w+)', text)
    adjective = UK_POOL.place(words[0][0]) if len(words) == 2 else 0
    stem, kind = words[-1]
    return [adjective, UK_POOL.place(stem), [name for name, _ in CLASSES].index(kind), gender]


UK_TEXTS = (flat(list(UK.values())) + flat([table for name, table in ORDINAL.items() if name not in SHORT]) + flat(list(NOUNS.values()))
            + list(UK_OTHERS.values()) + list(ORDINAL_OTHERS.values()) + re.findall(r'"([^"]*)"', ' '.join(map(' '.join, CURRENCIES))))
# the words of everyday figures come first, since for them the pool's front alone is made: all but scale nouns above 10 ^ 9, and but the other signs
UK_COMMON = [text for text in UK_TEXTS if text not in UK['mega_bases'][3:] and not any(sign in text for sign in apostrophes.SIGNS[1:])]
UK_POOL = Pool(UK_TEXTS, UK_COMMON)
SHORT_POOL = Pool(flat(list(SHORT.values())), [])
FR_WORDS = fr_tables()
FR_COMMON = flat([FR_WORDS[k] for k in ('units', 'teens', 'tens')]) + ['cent', 'mille', 'quatre-vingt', 'et', 'une', 'ième']
FR_PLURALS = [text for text in flat(FR_WORDS['hundreds']) if text] + FR['megas'][1:] + ['quatre-vingt']
FR_POOL = Pool(flat(list(FR_WORDS.values())) + list(FR_OTHERS.values()), FR_COMMON, FR_PLURALS)


def placed(pool, *words):
    return [(name, pool.places(table)) for group in words for name, table in group.items()]


def money_tables():
    forms = [[UK_POOL.place(NOUNS[table][n][c]) if table in NOUNS else 0 for n in range(2) for c in range(6)] for _, table in CLASSES]
    return [('main', [name_row(a) for a, _ in CURRENCIES]), ('fraction', [name_row(b) for _, b in CURRENCIES]), ('endings', forms)]


def digit_entries(table):
    """A table by apostrophe, digit and case as one row of places."""
    return list(enumerate(UK_POOL.place(text) for text in flat(table)))


def digit_files():
    """The crate of the places of digits' words."""
    yield 'specs/Lib.antt', 'pub mod Places\n'
    lists = '''-- The places of the words of digits, by apostrophe, digit and case, in this order: it ties the code to the tables. Made by tools/gen_words.py.
-- Assumes nothing.
use Rattle.std.specs.Prelude.{[], ◌∷◌}
use Rattle.meanings.specs.Lookup.{Entries}
'''
    modules = ''
    for name, table in DIGITS.items():
        entries, places = digit_entries(table), name[:-1] + '_places'
        what = '%s, %d to 9' % (name, 10 - len(table[0]))
        lists += '\n-- %s\nunfoldable pub %s : Entries\n%s =\n%s\n' % (what, places, places, arms.filled(arms.listing(entries)))
        modules += 'pub mod %s; // %s\n' % (name, what)
        comment = 'The place of a word: %s. Made by tools/gen_words.py.' % what
        source = arms.source('uk_digits', name, 'Places', places, comment, 'place(index: usize) -> u16', ['%d => %d,' % entry for entry in entries])
        rows = '\n// How many digits have a word here.\npub const ROWS: usize = %d;\n' % len(table[0])
        yield 'src/%s.rt' % name, source.replace('\npub fn', rows + '\npub fn')
        yield 'proofs/%s/place/Proof.antt' % name, arms.proof('uk_digits', name + '/place', 'Places', places, [index for index, _ in entries])
    yield 'specs/Places.antt', lists
    yield 'src/lib.rt', '''#![tactic(auto)]
// The places of the words of digits, by apostrophe, digit and case: of each match the compiler makes a load, where a constant table would be built on
// the stack for each word. Made by tools/gen_words.py.
''' + modules
    yield 'proofs/Lib.antt', ''


def outputs():
    long_ordinal = {name: table for name, table in ORDINAL.items() if name not in SHORT}
    kinds = [
        ('uk', 'Ukrainian cardinals', placed(UK_POOL, {name: table for name, table in UK.items() if name not in DIGITS}, UK_OTHERS)),
        ('uk_ordinal', 'Ukrainian ordinals and years', placed(UK_POOL, long_ordinal, ORDINAL_OTHERS) + placed(SHORT_POOL, SHORT)),
        ('uk_money', 'the names of units of money', money_tables()),
        ('fr', 'French', placed(FR_POOL, FR_WORDS, FR_OTHERS)),
    ]
    for crate, what, found in kinds:
        yield '%s/src/places.rt' % crate, constants('// The places of the texts of %s, table by table. Made by tools/gen_words.py.\n' % what, found)
        yield '%s/proofs/Listed.antt' % crate, lists("-- The code's tables of places as lists. Made by tools/gen_words.py.\n", found)
    for path, text in digit_files():
        yield 'uk_digits/' + path, text
    yield 'uk/proofs/Counted.antt', counted_law(UK_POOL)
    for crate, name, what, pool, measured in [('uk', 'uk_pool', 'The Ukrainian texts', UK_POOL, True),
                                              ('uk_ordinal', 'short_pool', 'The endings of digit ordinals', SHORT_POOL, False),
                                              ('fr', 'fr_pool', 'The French texts', FR_POOL, True)]:
        yield '%s/src/pool.rt' % crate, pool_source('// %s, those that overlap sharing their bytes; `_` brings the next to an even byte. Made by tools/gen_words.py.' % what, pool, measured, pool is UK_POOL)
        yield '%s/specs/Pool.antt' % crate, pool_spec('-- %s, those that overlap sharing their bytes: it ties the code to the tables. Made by tools/gen_words.py.' % what, name, pool, pool is UK_POOL)


def main():
    generated.put({'crates/' + path: text for path, text in outputs()}, check='--check' in sys.argv)


if __name__ == '__main__':
    main()
