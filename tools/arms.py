"""A table of numbers as a match, of which the compiler makes a load: its function, and the proof that an arm has its entry."""
import textwrap


def source(crate, module, spec, entries, comment, head, arms):
    """A module with a function whose match has these arms; its contract cites `entries` of the crate's `spec`, under another name where the module has
    that. `head` is the function's name, its one parameter and its type."""
    by = head[head.index('(') + 1:head.index(':')]
    cited = entries + '_of' if entries == module else entries
    use = '%s as %s' % (entries, cited) if entries == module else entries
    return '''// %s
ghost use Rattle.std.specs.Prelude.{◌≡◌};
ghost use Rattle.meanings.specs.Lookup.{lookup};
ghost use Rattle.%s.specs.%s.{%s};

pub fn %s
    ensures { result ≡ lookup %s %s }
{
    match %s {
%s        _ => 0,
    }
}
''' % (comment, crate, spec, use, head, by, cited, by, ''.join('        %s\n' % arm for arm in arms))


def headed(crate, path, comment, uses, laws, body):
    """A function's proof file; `path` is its module and its name."""
    dotted = path.replace('/', '.')
    return '''-- `%s::%s` meets its contract: %s.
-- Assumes nothing.
%suse Rattle.%s.proofs.%s.Statement.{statement}
use Rattle.%s.proofs.%s.Tie as tie

%spub %s_spec : {M : Type 1} → statement M
%s''' % (crate, path.replace('/', '::'), comment, uses, crate, dotted, crate, dotted, laws, path.split('/')[-1], body)


def arm(key):
    """The fact that the arm of a key was taken."""
    return 'c.in-%d.is' % key


# The fact that no arm was.
DEFAULT = 'c.in_default.in_default-own.rest'


def proof(crate, path, spec, entries, keys):
    """The proof of such a function: one answer for each arm, in the arms' order, the law of an arm at the arm's key."""
    answers = ['(λ c. found %s %s refl)' % (entries, arm(key)) for key in keys]
    answers.append('(λ c. missed _ %s %s)' % (entries, DEFAULT))
    uses = '''use mathlib.Core.Path.{refl}
use Rattle.meanings.specs.Lookup.{lookup}
use Rattle.meanings.proofs.Arms.{found, missed}
use Rattle.%s.specs.%s.{%s}
''' % (crate, spec, entries)
    body = 'unfolding lookup %s\n%s_spec =\n    tie.close\n    (tie.spec\n    %s)\n' % (entries, path.split('/')[-1], '\n    '.join(answers))
    return headed(crate, path, 'in the arm of a number stands its entry', uses, '', body)


def listing(entries):
    """The entries as a list of pairs, the last arm's first."""
    return ' ∷ '.join(['(%d, %d)' % entry for entry in reversed(entries)] + ['[]'])


def filled(text):
    """Lines of one list, with no break inside a pair."""
    return textwrap.fill(text.replace(', ', ',_'), 118, initial_indent='    ', subsequent_indent='    ').replace('_', ' ')
