"""Three small crates in which a definition stands behind each thing that a clause reaches by: what .ci/reach.py must find, and what it must not."""
import documents
import reach
from pages import Row

# The files of the crates, by their paths.
FILES = {
    'low/src/lib.rt': 'mod kinds;\n\npub use kinds::Kinds;\n',
    'low/src/kinds.rt': '''ghost use Rattle.low.specs.Deep.{BehindAnotherCrate};

pub struct Kind {
    pub held: u32,
    ghost kept: { BehindAnotherCrate held },
}

pub type Kinds = Sequence<Kind>;
''',
    'low/specs/Deep.antt': '''abbrev pub BehindAnotherCrate : ℕ → Type 0
BehindAnotherCrate n = n ≡ 0
''',
    'middle/src/lib.rt': 'pub use low::Kinds;\n',
    'high/src/lib.rt': 'mod calls;\n\npub use calls::{Own, Ruler};\n',
    'high/src/calls.rt': '''ghost use Rattle.std.specs.Prelude.{◌≡◌, length};
ghost use Rattle.high.specs.Hidden.{Chained, Sorted, ◌<+>◌, BehindAPartner, BehindAName as Other, beside};
ghost use Rattle.high.specs.Hidden as hidden;
ghost use Rattle.high.specs.declared.calls.TheConstants.{MOST};

use middle::Kinds;
use std::marker::Model;

const MOST: u32 = 5;

pub struct Unseen {
    ghost kept: { Beside held },
}

pub struct Own {
    held: Unseen,
}

impl Model for Own {
    ghost use Rattle.high.specs.Hidden.{BehindAValue, BehindAView, Beside};

    ghost Value = { BehindAValue };

    ghost view = { λ o. BehindAView o };

    ghost invariant = { λ o. Beside o };
}

struct Rule;

impl Protocol<u16> for Rule {
    ghost use Rattle.high.specs.Hidden.{BehindARule};

    ghost holds = { BehindARule };
}

type Queue = RuledQueue<u16, Rule>;

pub struct Ruler {
    queue: Queue,
}

impl Model for Ruler {
    ghost Value = { hidden.Name };
}

pub trait Asking {
    ghost use Rattle.high.specs.Hidden.{BehindATrait};

    fn ask(&self) -> u32
        ensures told { BehindATrait result };
}

impl Own {
    pub fn by_self(&self) -> bool
        ensures told { result ≡ 0 }
    {
        true
    }
}

pub fn by_clause(n: u32) -> u32
    ensures told { Chained n }
    ensures other { Other n }
    ensures alias { hidden.BehindAnAlias n }
    ensures sign { n <+> 0 }
    ensures partner { BehindAPartner n }
    ensures sort { Sorted n }
    ensures most { MOST ≡ length beside.now }
{
    n
}

pub fn by_parameter(beside: u32) -> u32
    ensures told { result ≡ beside.now }
{
    beside
}

pub fn by_kinds(kinds: &Kinds) -> u32 {
    0
}

pub fn by_rule(ruler: &Ruler) -> u32 {
    0
}

pub fn by_trait<T: Asking>(asking: &T) -> u32 {
    0
}
''',
    'high/specs/Hidden.antt': '''use Rattle.std.specs.Prelude.{◌≡◌, ℕ}

abbrev pub Chained : ℕ → Type 0
Chained n = BehindADefinition n

pub record BehindADefinition (n : ℕ) : Type 0 where
  pub zero : n ≡ 0

''' + ''.join(f'abbrev pub {name} : ℕ → Type 0\n{name} n = n ≡ 0\n\n' for name in (
        'BehindAName', 'BehindAnAlias', 'BehindAValue', 'BehindAView', 'BehindARule', 'BehindATrait', 'Name', 'Beside', 'beside')) + '''infixl 10 ◌<+>◌
abbrev pub ◌<+>◌ : ℕ → ℕ → Type 0
m <+> n = m ≡ n

abbrev mutual
  pub Partner : ℕ → Type 0
  Partner n = BehindAPartner n

  pub BehindAPartner : ℕ → Type 0
  BehindAPartner n = n ≡ 0

pub data Sort : Type 0 where
  BehindAConstructor : Sort

abbrev pub Sorted : ℕ → Type 0
Sorted n = BehindAConstructor ≡ n
''',
}


def definition(name, crate='high', place='Hidden'):
    """A definition, as what is reached."""
    return 'definition', crate, place, name


# Of each call: what it reaches, and what it doesn't.
WANTED = {
    'by_clause': ([definition(name) for name in ('Chained', 'BehindADefinition', 'BehindAName', 'BehindAnAlias', '<+>', 'Partner', 'Sort', 'beside')]
                  + [('type', 'high', 'MOST'), ('word', 'std.specs.Prelude', 'length'), ('word', 'std.specs.Prelude', '◌≡◌')], [definition('Beside')]),
    'Own::by_self': ([definition('BehindAValue'), definition('BehindAView'), ('type', 'high', 'Own')], [definition('Beside'), ('type', 'high', 'Unseen')]),
    'by_parameter': ([('word', 'std.specs.Prelude', '◌≡◌')], [definition('beside')]),
    'by_kinds': ([('type', 'low', 'Kinds'), ('type', 'low', 'Kind'), definition('BehindAnotherCrate', 'low', 'Deep')], [definition('Beside')]),
    'by_rule': ([definition('BehindARule'), definition('Name')], [definition('Beside')]),
    'by_trait': ([('type', 'high', 'Asking'), definition('BehindATrait')], [definition('Beside')]),
}


def read(folder):
    """Each thing that is wanted or unwanted, with whether it was reached; and what a file imports that isn't there, with whether that was lost."""
    for path, text in FILES.items():
        (folder / path).parent.mkdir(parents=True, exist_ok=True)
        (folder / path).write_text(text)
    repository = {name: documents.read_crate(folder / name) for name in ('low', 'middle', 'high')}
    sources = reach.read_sources(repository)
    for call, (wanted, unwanted) in WANTED.items():
        reached = reach.reach_of(sources, repository['high'], Row(0, ['', f'`{call}`', '']))
        yield from ((call, item, True, item in reached) for item in wanted)
        yield from ((call, item, False, item in reached) for item in unwanted)
    yield 'imports', 'nothing', False, any(True for _ in reach.lost_imports(sources))
    sources.specs['high', 'Hidden'].definitions.pop('BehindAName')
    yield 'imports', 'BehindAName', True, 'BehindAName' in {name for _, _, name in reach.lost_imports(sources)}


def is_found(told):
    """Whether what was read is as it is wanted. Says where it isn't."""
    call, item, wanted, is_reached = told
    if wanted != is_reached:
        print(f"hidden: {call} {'reaches' if is_reached else 'does not reach'} {' '.join(item[-3:]) if isinstance(item, tuple) else item}")
    return wanted == is_reached
