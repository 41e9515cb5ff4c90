#!/usr/bin/env python3
# gen_counts.py [--check]: writes the crate uk_counts (code, specs and proofs) from the list tools/uk_counts.txt, in the layout of `rt fmt`. With --check it
# writes nothing and fails at a difference. A line of the list is a number and the words that count so many in a compound; 0 are those that follow a
# count, so that none of them is taken for one. A word with an apostrophe stands for itself and for the same word with each other sign. Run by hand after
# a change of the list; what it writes is committed.
import argparse
import os

import apostrophes
import arms
import generated

HERE = os.path.dirname(os.path.abspath(__file__))
NAME = 'uk_counts'
LEAD = 7  # so many bytes lead to the byte that tells
PLACES = 16  # the byte that tells stands before this
SIZES = 64  # no word has so many bytes
LEADS, COUNTS = 100, 64  # how many places the tables have: at least two fifths of them are taken, so that the compiler makes a load of a match and no jump
LETTERS = (b'\xd0', b'\xd1')  # what follows a word of six bytes begins with one of these


# each word's bytes, with those that follow it where it has fewer than the lead; what it counts and its length
def words_of():
    words = {}
    for line in open(os.path.join(HERE, 'uk_counts.txt'), encoding='utf8'):
        counts, *texts = line.split()
        for text in (word.encode() for word in apostrophes.each_sign(texts)):
            for whole in [text] if LEAD <= len(text) else [text + letter for letter in LETTERS]:
                words[whole] = (int(counts), len(text))
    return words


def lead_of(word):
    return int.from_bytes(word[:LEAD], 'little')


# by a lead, the first byte that tells the words apart that have it
def tellers_of(words):
    alike = {}
    for word in words:
        alike.setdefault(lead_of(word), []).append(word)
    tellers = {}
    for lead, some in alike.items():
        end = min(PLACES, min(map(len, some)))
        counting = [word for word in some if words[word][0]]
        tells = [p for p in range(LEAD - 1, end) if len({w[p] for w in counting} | {None}) == len(counting) + 1 and not {w[p] for w in counting} & {w[p] for w in some if not words[w][0]}]
        tellers[lead] = (tells[0], some)
    return tellers


# how far the bytes of each lead are moved, so that no two count words have one place and no other word has one of theirs: the most words first
def moves_of(words, tellers):
    taken, empty, moves = {}, set(), {}
    for lead, (place, some) in sorted(tellers.items(), key=lambda item: (-len(item[1][1]), item[0])):
        for move in range(COUNTS):
            at = {(move + word[place]) % COUNTS: words[word] for word in some}
            full = {slot for slot, (counts, size) in at.items() if counts}
            if not full & (set(taken) | empty) and not (set(at) - full) & set(taken):
                break
        else:
            raise SystemExit('the words of a lead have no places of their own: more COUNTS may do')
        taken |= {slot: at[slot] for slot in full}
        empty |= set(at) - full
        moves[lead] = move
    return moves, taken


# what the leads are divided by, so that no two have one place
def divisor_of(leads):
    return next(d for d in range(LEADS, 1 << 20) if len({lead % d % LEADS for lead in leads}) == len(leads))


def tables():
    words = words_of()
    tellers = tellers_of(words)
    moves, taken = moves_of(words, tellers)
    divisor = divisor_of(tellers)
    leads = sorted((lead % divisor % LEADS, PLACES * moves[lead] + place, some[0].decode('utf8', 'ignore')) for lead, (place, some) in tellers.items())
    counts = sorted((slot, SIZES * counts + size, counts) for slot, (counts, size) in taken.items())
    return divisor, leads, counts


SPEC = '''-- The words that count a scale in a compound, as the reader knows them: their first bytes lead to a byte that tells words apart which begin alike.
-- What it makes of these is held against the ordinal's own words afterwards, so nothing here has to be believed. Made by tools/gen_counts.py.
-- Assumes nothing.
use Rattle.std.specs.Prelude.{ℕ, ◌+◌, ◌/◌, ◌%%◌, cond, ◌||◌, List, [], ◌∷◌, ltb, length, take, get_or}
use Rattle.base.specs.Bytes.{num}
use Rattle.meanings.specs.Lookup.{Entries, lookup}

-- by the first bytes of a word, %(places)d times by how much the byte that tells is moved, and where it stands
unfoldable pub leads : Entries
leads =
%(leads)s

-- by that byte, moved, %(sizes)d times how many the word counts, and its length; сот counts 1000, since it makes hundreds of what stands before it
unfoldable pub counts : Entries
counts =
%(counts)s

-- what the first bytes of s lead to
unfoldable pub lead_of : List ℕ → ℕ
lead_of s = lookup (num (take %(lead)d s) %% %(divisor)d %% %(nleads)d) leads

-- the entry of the count word at the front of s
unfoldable pub entry_of : List ℕ → ℕ
entry_of s = lookup ((lead_of s / %(places)d + get_or s (lead_of s %% %(places)d) 0) %% %(ncounts)d) counts

-- the same, or 0 where s is too short for one: behind a count stand at least six letters
unfoldable pub count_of : List ℕ → ℕ
count_of s = cond (ltb (length s) %(places)d || ltb (length s) (entry_of s %% %(sizes)d)) 0 (entry_of s)
'''

SOURCE = '''#![tactic(auto)]
// The words that count a scale in a compound: which of them stands at the front of some bytes. Made by tools/gen_counts.py.
mod counts;
mod leads;

ghost use Rattle.std.specs.Prelude.{◌≡◌, ◌/◌, ◌%%◌, ◌≤◌, ◌<◌, MatchOption, length, take};
ghost use Rattle.base.specs.Bytes.{num};
ghost use Rattle.uk_counts.specs.Counts.{count_of};

use base::loads::get8;

// The byte that tells stands before this.
const PLACES: usize = %(places)d;

// What the leads are divided by, and how many places they have; how many a byte that tells has.
const DIVISOR: u64 = %(divisor)d;

const LEADS: u64 = %(nleads)d;

const COUNTS: u32 = %(ncounts)d;

// An entry is so many times how many a word counts, and the word's length.
pub const SIZES: u32 = %(sizes)d;

// How many a word counts, and its length.
#[derive(Clone, Copy)]
pub struct Counted {
    pub value: u16,
    pub length: usize,
}

// The first seven bytes as one number.
fn seven(s: &[u8]) -> u64
    requires { 8 ≤ length s.now }
    ensures { result ≡ num (take 7 s.now) }
{
    get8(s, 0) %% (1 << 56)
}

// The count word at the front of s.
pub fn count(s: &[u8]) -> Option<Counted>
    ensures { MatchOption result (count_of s.now ≡ 0) (λ c. (0 < count_of s.now) × (c.value ≡ count_of s.now / 64) × (c.length ≡ count_of s.now %% 64) × (c.length ≤ length s.now) × (c.value < 1024)) }
{
    if s.len() < PLACES {
        return None;
    }
    let lead = leads::lead_at((seven(s) %% DIVISOR %% LEADS) as u32);
    let told = u32::from(s[lead as usize %% PLACES]);
    let entry = counts::count_at((lead / (PLACES as u32) + told) %% COUNTS);
    let length = (entry %% SIZES) as usize;
    if entry == 0 || s.len() < length {
        return None;
    }
    Some(Counted {
        value: (entry / SIZES) as u16,
        length,
    })
}
'''


def files():
    divisor, leads, counts = tables()
    said = {
        'places': PLACES, 'sizes': SIZES, 'lead': LEAD, 'divisor': divisor, 'nleads': LEADS, 'ncounts': COUNTS,
        'leads': arms.filled(arms.listing([(slot, entry) for slot, entry, word in leads])),
        'counts': arms.filled(arms.listing([(slot, entry) for slot, entry, many in counts])),
    }
    made = {
        'specs/Lib.antt': 'pub mod Counts\n',
        'specs/Counts.antt': SPEC % said,
        'src/lib.rt': SOURCE % said,
    }
    for module, head, comment, table, entries in (
        ('leads', 'lead_at(place: u32) -> u32', 'What the first bytes of a word lead to. Of each match here the compiler makes a load.', leads, ['%d => %d, // %s' % entry for entry in leads]),
        ('counts', 'count_at(place: u32) -> u32', 'How many a word counts, and its length.', counts, ['%d => %d, // %d' % entry for entry in counts]),
    ):
        made['src/%s.rt' % module] = arms.source(NAME, module, 'Counts', module, comment, head, entries)
        path = '%s/%s' % (module, head.split('(')[0])
        made['proofs/%s/Proof.antt' % path] = arms.proof(NAME, path, 'Counts', module, [entry[0] for entry in table])
    return {'crates/%s/%s' % (NAME, path): text for path, text in made.items()}


def main():
    parser = argparse.ArgumentParser()
    parser.add_argument('--check', action='store_true')
    given = parser.parse_args()
    generated.put(files(), ['crates/%s/%s' % (NAME, folder) for folder in ('specs', 'src')], given.check)


main()
