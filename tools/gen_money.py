#!/usr/bin/env python3
# gen_money.py [--check]: writes what crates/uk_money has of the currencies from the published Rust's lang/uk.rs and currency.rs, in the
# layout of `rt fmt`: the tables of its specs, and the code of the codes. With --check it writes nothing and fails at a difference.
# The Rust is in YOKEPEAR_SOURCES, or in ../shared/docs beside the checkout. Run by hand after a change of these files; what it writes is committed.
import argparse
import os
import re
import sys

import generated

GIVEN = os.environ.get('YOKEPEAR_SOURCES')
FOLDERS = [GIVEN] if GIVEN else [generated.ROOT.parent / 'shared' / 'docs' / below for below in ('.', 'src')]
FOUND = [folder for folder in FOLDERS if os.path.isfile(os.path.join(folder, 'src', 'lang', 'uk.rs'))]
if not FOUND:
    print('gen_money: NOT RUN, set YOKEPEAR_SOURCES to the folder of the published Rust')
    raise SystemExit(0 if '--check' in sys.argv else 1)
SOURCE = os.path.join(FOUND[0], 'src')
UK = open(os.path.join(SOURCE, 'lang', 'uk.rs'), encoding='utf8').read()
CURRENCY = open(os.path.join(SOURCE, 'currency.rs'), encoding='utf8').read()

# a class, its table in uk.rs and in the specs
CLASSES = [
    ('hard2', 'NOUN_2ST_GROUP_HARD_DECLENSIONS', 'noun2st_group_hard_declensions', 'долар'),
    ('soft2', 'NOUN_2ST_GROUP_SOFT_DECLENSIONS', 'noun2st_group_soft_declensions', 'юань'),
    ('vowel1', 'NOUN_1ST_GROUP_SOFT_DECLENSIONS_VOWEL', 'noun1st_group_soft_declensions_vowel', 'рупія'),
    ('hard1', 'NOUN_1ST_GROUP_HARD_DECLENSIONS', 'noun1st_group_hard_declensions', 'єна'),
    ('adj', None, 'adjective_hard_masculine', 'злотий'),
    ('undeclined', None, None, None),
    ('hryvnia', 'HRYVNIAS', 'hryvnias', None),
    ('kopiyka', 'KOPIYKAS', 'kopiykas', None),
]
NUMBER = {c[0]: i for i, c in enumerate(CLASSES)}


def rows(name):
    body = re.search(r'const %s: [^=]*= (\[.*?\]);' % name, UK, re.S).group(1)
    body = re.sub(r'//[^\n]*', '', body)
    found = re.findall(r'\[([^\[\]]*)\]', body)
    return [re.findall(r'"([^"]*)"', r) for r in found]


def table_of(cls):
    name, source = cls[0], cls[1]
    if name == 'adj':
        return [rows('ADJECTIVE_HARD_FLEXIONS_SINGULAR')[0], rows('ADJECTIVE_HARD_FLEXIONS_PLURAL')[0]]
    return rows(source) if source else []


TABLES = [table_of(c) for c in CLASSES]
CODES = re.findall(r'"(\w+)" => Ok\(Currency::(\w+)\)', CURRENCY)
assert len(CODES) == 44 and all(a == b for a, b in CODES)
CODES = [a for a, b in CODES]


def function(name):
    start = UK.index('fn %s(' % name)
    return UK[start:UK.index('\n    fn ', start + 1)]


# code -> its words, a stem and a class each
def nouns(name):
    body = function(name)
    body = body[body.index('match currency {') + 16:]
    heads = list(re.finditer(r'((?:Currency::\w+[\s|]*)+)=>', body))
    ends = [h.start() for h in heads[1:]] + [len(body)]
    out = {}
    for found, end in zip(heads, ends):
        head, tail = found.group(1), body[found.end():end]
        used = [c[0] for c in CLASSES if c[1] and c[1] + '[' in tail]
        adjective = 'ADJECTIVE_HARD_FLEXIONS_PLURAL' in tail and 'Gender::Masculine' in tail
        text = re.search(r'"([^"]*)"', tail)
        if text is None:
            words = [('', used[0])]
        else:
            stems = text.group(1).split(' ')
            kinds = (['adj'] if adjective else []) + used if '{}' in text.group(1) else ['undeclined']
            assert len(stems) == len(kinds), head
            words = [(s.replace('{}', ''), k) for s, k in zip(stems, kinds)]
        for code in re.findall(r'Currency::(\w+)', head):
            assert code not in out
            out[code] = words
    assert sorted(out) == sorted(CODES)
    return out


def feminine(name):
    body = function(name)
    return re.findall(r'Currency::(\w+)', body[:body.index('=> self.feminine()')])


PARTS = [(nouns('currencies'), feminine('currency_properties')), (nouns('currency_fraction'), feminine('currency_fraction_properties'))]
FILES = {}


def write(path, text):
    FILES['crates/uk_money/' + path] = text


def lines(table, indent='    '):
    return '\n'.join('%s(%s) ∷' % (indent, ' ∷ '.join(['"%s"' % w for w in row] + ['[]'])) for row in table) + ' []\n'


def tables_spec():
    out = '''-- The endings of the currency nouns (01, "Ukrainian money"), as uk.rs has them: by grammatical number, then case.
-- Assumes nothing.
use Prim.Native.String.{String}
use Rattle.std.specs.Prelude.{List, [], ◌∷◌}
'''
    for cls, table in zip(CLASSES, TABLES):
        if not cls[2]:
            continue
        if cls[0] == 'adj':
            out += '\n-- the masculine row of `ADJECTIVE_HARD_FLEXIONS_SINGULAR`, and `ADJECTIVE_HARD_FLEXIONS_PLURAL`\n'
        else:
            out += '\n-- `%s`: %s\n' % (cls[1], 'as ' + cls[3] if cls[3] else 'written out whole')
        out += 'unfoldable pub %s : List (List String)\n%s =\n%s' % (cls[2], cls[2], lines(table))
    write('specs/NounTables.antt', out)


def name(words, gender):
    if len(words) == 1:
        return '(%s_name "%s" %s)' % ((gender,) + words[0])
    return '(%s_pair %s)' % (gender, ' '.join('"%s" %s' % w for w in words))


def currencies_spec():
    out = ''
    for code in CODES:
        main, fraction = [name(words[code], 'feminine' if code in feminines else 'masculine') for words, feminines in PARTS]
        out += '    currency "%s" %s %s ∷\n' % (code, main, fraction)
    write('specs/Currencies.antt', '''-- The 44 currencies in from_str's order (01, "Ukrainian money"): their nouns are those of `currencies` and `currency_fraction` in uk.rs, their
-- genders those of `currency_properties` and `currency_fraction_properties`.
-- Assumes nothing.
use Prim.Native.String.{String}
use Rattle.std.specs.Prelude.{List, [], ◌∷◌}
use Rattle.uk_money.specs.Nouns.{hard2, soft2, vowel1, hard1, adj, undeclined, hryvnia, kopiyka, Name, masculine_name, feminine_name, masculine_pair}

-- a currency: its code, and the names of its main unit and of its fraction
pub record Currency : Type 0 where
  pub code : String
  pub main : Name
  pub fraction : Name

-- a currency from its code and the names of its units
abbrev pub currency : String → Name → Name → Currency
currency code main fraction = record { code = code; main = main; fraction = fraction }

-- all 44, in from_str's order
unfoldable pub currencies : List Currency
currencies =
%s''' % (out.rstrip()[:-1].rstrip() + ' ∷ []\n'))


def code_key(code):
    k = 1
    for b in reversed(code.encode()):
        k = k * 256 + b
    return k


def codes_source():
    write('src/codes.rt', '''// The currency whose code has this number: its place in from_str's order, or 44 for none.
ghost use Rattle.std.specs.Prelude.{◌≡◌};
ghost use Rattle.uk_money.specs.Currencies.{currencies};
ghost use Rattle.uk_money.specs.Rows.{place_by_key};

#[tactic(auto, unfolding(crate::specs::Currencies::currencies, crate::specs::Rows::place_by_key))]
pub fn place(key: u64) -> usize
    ensures { result ≡ place_by_key currencies key }
{
    match key {
%s        _ => 44,
    }
}
''' % ''.join('        %d => %d, // %s\n' % (code_key(c), i, c) for i, c in enumerate(CODES)))


def main():
    parser = argparse.ArgumentParser()
    parser.add_argument('--check', action='store_true')
    given = parser.parse_args()
    tables_spec()
    currencies_spec()
    codes_source()
    generated.put(FILES, check=given.check)


main()
