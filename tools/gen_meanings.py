#!/usr/bin/env python3
# gen_meanings.py [--check] [LIST...]: writes the crates fr_meanings, uk_meanings and uk_ordinal_meanings (code, specs and proofs) from the lists
# tools/*_meanings.txt, in the layout of `rt fmt`. With --check it writes nothing and fails at a difference.
# A line of a list is a meaning, a number, and the words that mean it: `4 quatre quatrième`. A word that means 0 has no arm; it is listed so
# that no other word gets its key. A word with an apostrophe stands for itself and for the same word with each other sign. Run by hand after a change
# of a list; what it writes is committed.
import argparse
import os

import apostrophes
import arms
import generated

HERE = os.path.dirname(os.path.abspath(__file__))
# What the words of each list are, and what their meanings are besides numbers.
LISTS = {
    'fr': ('words of the French numbers', '1000 and more a scale word of that order, 2001 minus'),
    'uk': ('words of the Ukrainian numbers', "1000 and more a scale word of that order (zero's word closes a group of order 0), 2001 minus"),
    'uk_ordinal': ('stems of the Ukrainian ordinals', "1001 and more a scale's adjective of that order, 2000 zero"),
}
KEYS, END = 823685, 62  # as in crates/tokens/specs/Tokens.antt
UNIT = 1 << 20  # above every key: crates/meanings/specs/Lookup.antt has the same number
PARTS = 64  # so many parts of the keys are moved apart
# How many places a table has: at least two fifths of them are taken, so that the compiler makes a load of the match and no jump.
SLOTS = {'fr': 256, 'uk': 512, 'uk_ordinal': 120}


def key(word):
    return int.from_bytes(word.encode() + bytes([END]), 'little') % KEYS


# what each key means that means anything, with a word of it
def meanings_of(name):
    meanings = {}
    for line in open(os.path.join(HERE, '%s_meanings.txt' % name), encoding='utf8'):
        meaning, *words = line.split()
        for word in apostrophes.each_sign(words):
            known = meanings.setdefault(key(word), (int(meaning), word))
            assert known[0] == int(meaning), '%s and %s have one key' % (word, known[1])
    return {k: known for k, known in meanings.items() if known[0]}


# how far the keys of each part are moved, so that no two have one place: the largest part first, each as little as it can be
def shifts_of(keys, slots):
    parts = [[k for k in sorted(keys) if k // slots % PARTS == part] for part in range(PARTS)]
    shifts, taken = [0] * PARTS, set()
    for part in sorted(range(PARTS), key=lambda part: (-len(parts[part]), part)):
        places = [{(k + shift) % slots for k in parts[part]} for shift in range(slots)]
        fit = [shift for shift in range(slots) if len(places[shift]) == len(parts[part]) and not places[shift] & taken]
        assert fit, 'the keys of a part have no places of their own: another number of PARTS may do'
        shifts[part] = fit[0]
        taken |= places[fit[0]]
    return shifts


class Crate:
    def __init__(self, name):
        self.said = LISTS[name]
        self.name = name + '_meanings'
        self.files = {}
        self.slots = SLOTS[name]
        meanings = meanings_of(name)
        shifts = shifts_of(meanings, self.slots)
        self.shifts = list(enumerate(shifts))
        place = {k: (k + shifts[k // self.slots % PARTS]) % self.slots for k in meanings}
        self.table = [(place[k], *meanings[k], k) for k in sorted(meanings, key=place.get)]

    def write(self, path, text):
        self.files['crates/%s/%s' % (self.name, path)] = text

    def specs(self):
        lists = ''
        for name, said, entries in (
            ('shifts', 'by how much the keys of each of %d parts are moved, so that no two have one place' % PARTS, self.shifts),
            ('table', 'at each place that is taken, %d times what its key means, and the key' % UNIT, [(p, m * UNIT + k) for p, m, w, k in self.table]),
        ):
            lists += '-- %s\nunfoldable pub %s : Entries\n%s =\n%s\n\n' % (said, name, name, arms.filled(arms.listing(entries)))
        self.write('specs/Lib.antt', 'pub mod Meanings\n')
        self.write('specs/Meanings.antt', '''-- What the %s mean, by their keys: 1 to 999 a number,
-- %s, 0 nothing.
-- What a reader makes of these is held against the grammar's own words afterwards, so nothing here has to be believed.
-- Assumes nothing.
use Rattle.std.specs.Prelude.{ℕ, ◌+◌, ◌/◌, ◌%%◌, [], ◌∷◌}
use Rattle.meanings.specs.Lookup.{Entries, lookup, meaning_at}

%s-- a key's place
abbrev pub place_of : ℕ → ℕ
place_of key = (key %% %d + lookup (key / %d %% %d) shifts) %% %d

-- the meaning of the word with this key
unfoldable pub meaning_of : ℕ → ℕ
meaning_of key = meaning_at key (lookup (place_of key) table)
''' % (*self.said, lists, self.slots, self.slots, PARTS, self.slots))

    # a match with an arm for each entry of a list
    def match(self, name, comment, head, arms_of):
        self.write('src/%s.rt' % name, arms.source(self.name, name, 'Meanings', name, comment, head, arms_of))

    def source(self):
        comment = "By how much the keys of a part are moved. Of each match here the compiler makes a load."
        self.match('shifts', comment, 'shift(part: u32) -> u16', ['%d => %d,' % entry for entry in self.shifts])
        comment = 'What stands at a place: %d times what its key means, and the key; or 0.' % UNIT
        entries = ['%d => 0x%04x_%04x, // %s: %d' % (p, (m * UNIT + k) >> 16, (m * UNIT + k) & 65535, w, m) for p, m, w, k in self.table]
        self.match('table', comment, 'entry_at(place: u32) -> u32', entries)
        self.write('src/lib.rt', '''#![tactic(auto)]
// What the %s mean, by their keys.
mod shifts;
mod table;

ghost use Rattle.std.specs.Prelude.{◌≡◌};
ghost use Rattle.%s.specs.Meanings.{meaning_of};

// How many places the table has, into how many parts the keys fall, and what is above every key.
const SLOTS: u32 = %d;

const PARTS: u32 = %d;

const UNIT: u32 = %d;

// The meaning of the word with this key.
pub fn meaning(key: u32) -> u16
    ensures { result ≡ meaning_of key }
{
    let shift = shifts::shift(key / SLOTS %% PARTS) as u32;
    let entry = table::entry_at((key %% SLOTS + shift) %% SLOTS);
    if entry %% UNIT == key {
        return (entry / UNIT) as u16;
    }
    0
}
''' % (self.said[0], self.name, self.slots, PARTS, UNIT))

    # a table's
    def table_proof(self, path, name, entries):
        self.write('proofs/%s/Proof.antt' % path, arms.proof(self.name, path, 'Meanings', name, [entry[0] for entry in entries]))

    def proofs(self):
        self.write('proofs/Lib.antt', '')
        self.table_proof('shifts/shift', 'shifts', self.shifts)
        self.table_proof('table/entry_at', 'table', self.table)
        uses = '''use borrow.Author.Rules.{rules}
use Prim.Native.Nat.{ℕ, ◌+◌, ◌%%◌}
use mathlib.Core.Path.{◌≡◌, ap, ◌∙◌}
use Rattle.meanings.specs.Lookup.{lookup}
use Rattle.meanings.proofs.Places.{here, elsewhere}
use Rattle.%s.specs.Meanings.{table, place_of, meaning_of}
''' % self.name
        laws = '''-- what stands at the key's place
at : (c : tie.After-entry_at-entry) → c.entry_at-entry.result ≡ lookup (place_of c.before.before.args.key) table
at c = let k = c.before.before.args.key in c.entry_at-entry.ensures ∙ ap (λ (n : ℕ). lookup ((k %% %d + n) %% %d) table) c.before.shift-shift.ensures

''' % (self.slots, self.slots)
        body = '''unfolding meaning_of
meaning_spec =
    tie.close
    (tie.spec
    (λ c κs. search rules)
    (λ c. search rules)
    (λ c. search rules)
    (λ c κs. search rules)
    (λ c. search rules)
    (λ c. here (at c.before) c.if-entry-key.true)
    (λ c. elsewhere (at c.before) c.if-entry-key.false))
'''
        self.write('proofs/meaning/Proof.antt', arms.headed(self.name, 'meaning', 'a key is found at its place, or has no meaning', uses, laws, body))

    def generate(self):
        self.specs()
        self.source()
        self.proofs()
        return self


def main():
    parser = argparse.ArgumentParser()
    parser.add_argument('--check', action='store_true')
    parser.add_argument('lists', nargs='*', metavar='LIST')
    given = parser.parse_args()
    crates = [Crate(name).generate() for name in given.lists or LISTS]
    files = {path: text for crate in crates for path, text in crate.files.items()}
    folders = ['crates/%s/%s' % (crate.name, folder) for crate in crates for folder in ('specs', 'src', 'proofs')]
    generated.put(files, folders, given.check)


main()
