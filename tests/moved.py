#!/usr/bin/env python3
"""Tests tools/moved on a small repository that it makes, with a stand-in for rt. Fails at the first difference."""

import difflib
import os
import pathlib
import subprocess
import sys
import tempfile

TOOL = pathlib.Path(__file__).resolve().parent.parent / "tools" / "moved"

# The files of the old commit, the same in the new one unless CHANGES says otherwise.
FILES = {
    "crates.txt": "# A line for each crate: its name\ngone: base\nbase:\nforms staticlib: base\nsame: base\n",
    "times": "base 0\ngone 2\nsame 0\n",
    "crates/base/specs/Lib.antt": "pub mod Words\npub mod Still\npub mod Odd\n",
    "crates/base/specs/Words.antt": """-- Words.
use Prim.Native.Nat.{ℕ, zero, suc}

-- the first
abbrev pub relaid·one : ℕ → ℕ → ℕ
relaid·one zero y = y
relaid·one (suc x) y = record { a = x; b = y } .a

pub record Pair (n : ℕ) : Type 0 where
  pub left' : ℕ
  -- the right one
  pub «right_one» : ℕ

pub record Triple : Type 0 where
  pub first : ℕ
  pub second : ℕ

unfoldable pub equation : ℕ → ℕ
equation zero = 1
equation (suc x) = x

pub signature {ℓ κ} : ℕ → ℕ
unfolding equation
signature x = x

pub widened : ℕ
widened = 1

pub dropped : ℕ
dropped = 1

pub wanders : ℕ
wanders = 2

pub rewritten : ℕ
rewritten = 2

infixl 60 _++_
pub _++_ : ℕ → ℕ → ℕ
x ++ y = x

a--b : ℕ
a--b = 1

pub tight : Pair 1 → ℕ
tight r = suc r.left'

module _ (n : ℕ) where
  pub inside : ℕ
  inside = n

  module _ (m : ℕ) where
    pub deep : ℕ
    deep = go m
      where
        go : ℕ → ℕ
        go x = x + n

pub after : ℕ
after = elim 1 [
  | zero ↦ 1
  | suc x ↦ x
]
""",
    "crates/base/specs/Still.antt": "-- Still.\npub data Kind : Type 0 where\n  one two : Kind\n",
    "crates/base/specs/Odd.antt": "pub odd : (ℕ\nodd = 1\n",
    "crates/base/specs/Broken.antt": "pub broken : ℕ\nbroken = 1\n",
    "crates/base/src/lib.rt": """// Words.
ghost use mathlib.Core.Path.{_≡_};
use super::other::Thing;

pub const SIZE: [u32; 2] = [1, 2];

pub struct Members {
    pub bits: u32,
}

// Relaid alone, with a brace } in its comment.
pub fn relaid(a: u32, b: u32) -> u32
    requires { ⌜ a + b < 10 ⌝ }
    ensures { λ r. ⌜ r ≡ a + b ⌝ }
{
    let brace = b'{';
    a + b
}

pub fn promise(a: u32) -> u32
    requires small { ⌜ a < 10 ⌝ }
    ensures { λ r. ⌜ r ≡ a ⌝ }
{
    a
}

pub fn code() -> u32
    ensures { λ r. ⌜ r ≡ 1 ⌝ }
{
    1
}

pub fn ends() {
    code();
}

#[no_mangle]
pub extern "C" fn dropped_fn() {}

impl Members {
    pub fn has(self, p: u32) -> bool
        requires { ⌜ p < 32 ⌝ }
    {
        self.bits >> p == 1
    }

    pub fn none(self) -> bool {
        self.bits == 0
    }
}
""",
    "crates/base/proofs/Lib.antt": "pub mod Laws\n",
    "crates/base/proofs/Laws.antt": """use A.{x}

law : 1 ≡ 1
law = refl

mutual
  unfolding x
  even : ℕ → Bool
  even zero = true
  even (suc n) = odd n

  odd : ℕ → Bool
  odd zero = false
  odd (suc n) = even n

stays : ℕ
stays = "-- no comment"
""",
    "crates/base/proofs/promise/Proof.antt": "use A.{x}\n\nreturns : x\nreturns = x\n",
    "crates/base/proofs/code/Proof.antt": "use A.{x}\n\nreturns : x\nreturns = x\n",
    "crates/base/proofs/members/Members/has/Proof.antt": "returns : y\nreturns = y\n",
    "crates/base/must-fail/edited.edit": "# an edit\nfile: src/lib.rt\nold: a + b\nnew: a\n",
    "crates/base/must-fail/reworded.edit": "# an edit\nfile: src/lib.rt\nold: a + b\nnew: b\n",
    "crates/base/must-fail/dropped.edit": "file: src/lib.rt\nold: a + b\nnew: 1\n",
    "crates/gone/src/lib.rt": "",
    "crates/gone/specs/Lib.antt": "pub carried : ℕ\ncarried = 1\n\npub lost : ℕ\nlost = 1\n",
    "crates/gone/proofs/calls/carry/Proof.antt": "use Gone.{x}\n\nreturns : x\nreturns = x\n",
    "crates/forms/src/lib.rt": """#![tactic(auto)]
// Forms of clauses, ghost members and blocks.
ghost use Rattle.std.specs.Prelude.{◌≡◌, ◌+◌};
ghost use Rattle.forms.specs.Lib.{sum_of};

pub trait Shape<T> {
    ghost use Rattle.forms.specs.Lib.{area_of};

    ghost area: { Self → ℕ };
    ghost laws: { AreaLaws area };

    fn area(&self) -> u32
        ensures { result ≡ area self.now };
}

impl<T: Copy> Shape<Vec<T>> for Square<T> {
    ghost area = { λ s. s.side + s.side };
    ghost laws = { area_laws };

    fn area(&self) -> u32
        ensures { result ≡ area self.now }
    {
        self.side + self.side
    }
}

#[derive(Drop)]
pub struct Stack<T> {
    items: Vec<T>,
    pub ghost small: { length items < 9 },
}

#[tactic(auto, using(sum_laws))]
pub fn sum_two(a: u32, b: u32) -> u32
    requires low { a < 10 }
    requires high { b < 10 }
    ensures* { λ r. ⌜ r ≡ sum_of a b ⌝ }
{
    a + b
}

impl<T> Stack<T> {
    pub fn first_mut(&mut self) -> &mut T
        ensures* lent { sem 𝓛 (Lends self.entry result) }
    {
        &mut self.items[0]
    }
}
""",
    "crates/forms/src/quiet.rt": "#[tactic(auto, using(one_law))]\npub fn quiet() {}\n",
    "crates/forms/src/only.rt": "#![tactic(auto)]\n",
    "crates/forms/specs/Lib.antt": "pub sum_of : ℕ → ℕ → ℕ\nsum_of x y = x + y\n",
    "crates/forms/proofs/sum_two/Invariants.antt": "use forms.sum_two.Given as goal\n\n"
        "abbrev pub invariant-loop-i : goal.invariant-loop-i\ninvariant-loop-i l = l.i ≤ 3\n",
    "crates/forms/proofs/sum_two/Answers.antt": "use forms.sum_two.Goals as goal\n\n"
        "pub returns : goal.returns\nunfolding sum_of\nreturns c = search rules\n",
    "crates/forms/proofs/Stack/first_mut/Answers.antt": "pub returns : goal.returns\nreturns c = refl\n",
    "crates/forms/proofs/quiet/Proof.antt": "pub returns : goal.returns\nreturns c = refl\n",
    "crates/forms/proofs/+ring/Answers.antt": "pub returns : goal.returns\nreturns c = refl\n",
    "crates/same/src/lib.rt": "pub fn same() {}\n",
    "crates/same/specs/Lib.antt": "pub same : ℕ\nsame = 1\n",
}

# For each file of the new commit that is not as it was: a new text, None, or pairs of a text and what takes its place.
CHANGES = {
    "crates.txt": [("gone: base\nbase:", "base:\nfresh: base")],
    "crates/forms/src/lib.rt": [
        ("◌≡◌, ◌+◌", "◌≡◌"),
        ("λ s. s.side + s.side", "λ s. 2 * s.side"),
        ("{ area_laws }", "{\n        -- all of them }\n        area_laws\n    }"),
        ("length items < 9", "length items < 8"),
        ("using(sum_laws)", "using(sum_laws, more_laws)"),
        ("λ r. ⌜ r ≡ sum_of a b ⌝", "λ r. ⌜ r ≡ sum_of b a ⌝"),
        ("ensures* lent", "ensures* is_lent"),
        ("{\n        self.side + self.side", "{\n        2 * self.side"),
    ],
    "crates/forms/src/quiet.rt": [("one_law", "two_laws")],
    "crates/forms/proofs/sum_two/Invariants.antt": [("l.i ≤ 3", "l.i ≤ 4")],
    "crates/forms/proofs/sum_two/Answers.antt": [("pub returns", "-- the sum\npub returns")],
    "crates/forms/proofs/Stack/first_mut/Answers.antt": [("returns c = refl", "returns c =\n    refl -- at once")],
    "crates/forms/proofs/quiet/Proof.antt": None,
    "crates/forms/proofs/quiet/Answers.antt": "pub returns : goal.returns\nreturns c = refl\n",
    "crates/forms/proofs/+ring/Invariants.antt": "abbrev pub decreases : goal.decreases\ndecreases a = a.n\n",
    "times": "base 2\nfresh 0\nsame 0\n",
    "crates/base/specs/Lib.antt": "pub mod Words\npub mod Still\npub mod Odd\npub mod Moved\n",
    "crates/base/specs/Words.antt": [
        ("-- the first", "{- the {- very -} first -}"),
        ("y = record { a = x; b = y } .a", "y =\n    record {\n      a = x; -- the left\n      b = y;\n} .a"),
        ("  -- the right one\n", ""),
        ("  pub second : ℕ\n", "  pub second : ℕ\n  pub third : ℕ\n"),
        ("equation (suc x) = x", "equation (suc x) = suc x"),
        ("unfolding equation\n", ""),
        ("pub widened", "abbrev pub widened"),
        ("pub dropped : ℕ\ndropped = 1\n\n", ""),
        ("pub wanders : ℕ\nwanders = 2\n\n", ""),
        ("pub rewritten : ℕ\nrewritten = 2\n\n", ""),
        ("infixl 60", "infixl 70"),
        ("x ++ y = x", "x ++ y = y"),
        ("a--b = 1", "a--b = 2"),
        ("suc r.left'", "suc r .left'"),
        ("module _ (m : ℕ) where", "module _ (m k : ℕ) where"),
        ("| suc x ↦ x\n", "| suc x ↦ suc x\n"),
        ("pub after", "pub added-one : ℕ\nadded-one = 1\n\npub after"),
    ],
    "crates/base/specs/Moved.antt": "-- here now\npub wanders : ℕ\nwanders =\n  2\n\npub rewritten : ℕ\nrewritten = 3\n",
    "crates/base/specs/Still.antt": [("-- Still.", "-- Still, as it was.")],
    "crates/base/specs/Odd.antt": "pub odd : (ℕ\nodd = 2\n",
    "crates/base/specs/Broken.antt": "pub broken : ℕ\nbroken = \"1\n",
    "crates/base/src/lib.rt": [
        ("[1, 2]", "[1, 3]"),
        ("// Relaid alone", "/* Relaid */ // alone"),
        ("relaid(a: u32, b: u32) -> u32\n", "relaid(\n    a: u32,\n    b: u32,\n) -> u32\n"),
        ("λ r. ⌜ r ≡ a + b ⌝", "-- the sum }\n      λ r. ⌜ r ≡ a + b ⌝"),
        ("a < 10", "a < 20"),
        ("{\n    1\n}", "{\n    2 - 1\n}"),
        ("code();", "code()"),
        ("#[no_mangle]\npub extern \"C\" fn dropped_fn() {}\n", "fn added_fn() {}\n"),
        ("p < 32", "p < 16"),
    ],
    "crates/base/proofs/Laws.antt": [
        ("law = refl", "law = sym refl"),
        ("\n  odd zero = false", "\n  odd zero = true"),
        ("-- no comment", "-- no  comment"),
        ("stays : ℕ", "law-two : 2 ≡ 2\nlaw-two = refl\n\nstays : ℕ"),
    ],
    "crates/base/proofs/promise/Proof.antt": [("returns = x", "returns = sym x")],
    "crates/base/proofs/code/Proof.antt": [("use A.{x}", "use A.{x, y}")],
    "crates/base/proofs/members/Members/has/Proof.antt": "-- the mask\nreturns : y\nreturns =\n    y\n",
    "crates/base/proofs/fn/added_fn/Proof.antt": "returns : z\nreturns = z\n",
    "crates/base/must-fail/edited.edit": [("new: a", "new: b")],
    "crates/base/must-fail/reworded.edit": [("# an edit", "# another word")],
    "crates/base/must-fail/dropped.edit": None,
    "crates/base/must-fail/added.edit": "file: src/lib.rt\nold: a + b\nnew: 2\n",
    "crates/base/stdout": "1\n",
    "crates/gone/src/lib.rt": None,
    "crates/gone/specs/Lib.antt": None,
    "crates/gone/proofs/calls/carry/Proof.antt": None,
    "crates/fresh/src/lib.rt": "",
    "crates/fresh/specs/Lib.antt": "pub begun : ℕ\nbegun = 1\n\npub carried : ℕ\ncarried = 1\n",
    "crates/fresh/proofs/calls/carry/Proof.antt": "use Fresh.{x}\n\nreturns : x\nreturns = x\n",
}

LISTS = """
base
  definitions: 2 new, 12 changed, 2 removed, 1 moved, 4 unchanged
    specs/Broken.antt
      changed: the whole file, which could not be taken apart
    specs/Moved.antt (new file)
      new: rewritten
      moved from specs/Words.antt: wanders
    specs/Odd.antt
      changed: the whole file, which could not be taken apart
    specs/Words.antt
      new: added-one
      changed: Triple, equation, signature, widened, fixity of _++_, _++_, a--b, tight, deep, after
      removed: dropped, rewritten
  contracts: 1 new, 2 changed, 1 removed, 4 unchanged
    src/lib.rt
      new: added_fn
      changed: promise, Members::has
      removed: dropped_fn
  code changed, contract as it was: 2
    src/lib.rt: code, ends
  types and constants: 1 changed, 1 unchanged
    src/lib.rt
      changed: SIZE
  function proofs: 1 new, 1 changed, 2 unchanged
    new: fn/added_fn
    changed: promise
  lemmas: 1 new, 3 changed, 1 unchanged
    proofs/Laws.antt
      new: law-two
      changed: law, odd, stays
  must-fail edits: 1 new, 1 changed, 1 removed, 1 unchanged
    new: added
    changed: edited
    removed: dropped
  other files: 1 new, 0 unchanged
    new: stdout
  only use lines, mod lines, tactics or the order of items changed: proofs/code, specs/Lib.antt
  specs and lemma files wholly unchanged: proofs/Lib.antt, specs/Still.antt

fresh (new crate)
  definitions: 1 new, 1 moved, 0 unchanged
    specs/Lib.antt (new file)
      new: begun
      moved from gone/specs/Lib.antt: carried
  function proofs: 1 moved, 0 unchanged
    moved from gone: calls/carry

forms
  definitions: 1 unchanged
  contracts: 3 changed, 6 unchanged
    src/lib.rt
      changed: Square as Shape::ghost area, sum_two, Stack::first_mut
  code changed, contract as it was: 1
    src/lib.rt: Square as Shape::area
  types and constants: 1 changed, 0 unchanged
    src/lib.rt
      changed: Stack
  function proofs: 3 changed, 1 unchanged
    changed: +ring, quiet, sum_two
  only use lines, mod lines, tactics or the order of items changed: src/quiet.rt
  specs and lemma files wholly unchanged: specs/Lib.antt

same: nothing moved; definitions 1, contracts 1

gone (crate removed)
  definitions: 1 removed, 1 moved away, 0 unchanged
    specs/Lib.antt (file removed)
      removed: lost
      moved away to fresh/specs/Lib.antt: 1
  function proofs: 1 moved away, 0 unchanged
    moved away to fresh: 1

all crates
  definitions: 3 new, 12 changed, 3 removed, 2 moved, 6 unchanged
  contracts: 1 new, 5 changed, 1 removed, 11 unchanged
  types and constants: 2 changed, 1 unchanged
  function proofs: 1 new, 4 changed, 1 moved, 3 unchanged
  lemmas: 1 new, 3 changed, 1 unchanged
  must-fail edits: 1 new, 1 changed, 1 removed, 1 unchanged
  other files: 1 new, 0 unchanged
  code changed, contract as it was: 3
"""

NOTHING = """
base: nothing moved; definitions 19, contracts 7, types and constants 2, function proofs 4, lemmas 5, must-fail edits 3, other files 1

fresh: nothing moved; definitions 2, function proofs 1

forms: nothing moved; definitions 1, contracts 9, types and constants 1, function proofs 4

same: nothing moved; definitions 1, contracts 1

all crates
  definitions: 23 unchanged
  contracts: 17 unchanged
  types and constants: 3 unchanged
  function proofs: 9 unchanged
  lemmas: 5 unchanged
  must-fail edits: 3 unchanged
  other files: 1 unchanged
  code changed, contract as it was: 0
"""

# The stand-in takes a commit's times from its file `times`, and refuses one with a file `unproved`. It notes where it runs.
STAND_IN = """#!/bin/sh
echo "begin $PWD" >>"$NOTES"
[ "$*" = "all verdict --jobs 1" ] && [ ! -e target ] && [ -z "$(git status --porcelain)" ] || exit 2
mkdir target
sleep 0.2
while read -r crate seconds; do sleep "$seconds"; echo "== $crate"; echo "fn $crate::main: proved"; done <times
echo "== summary"
[ ! -e unproved ] || echo "base: failed (1)"
echo end >>"$NOTES"
[ ! -e unproved ]
"""


def new_text(text, change):
    if not isinstance(change, list):
        return change
    for old, new in change:
        assert text.count(old) == 1, old
        text = text.replace(old, new)
    return text


class Repository:
    def __init__(self, room):
        self.root, self.temporary, self.notes = room / "repository", room / "temporary", room / "notes"
        self.stand_in = room / "stand_in"
        self.stand_in.write_text(STAND_IN)
        self.stand_in.chmod(0o755)
        for folder in (self.root, self.temporary):
            folder.mkdir()
        kept = {key: value for key, value in os.environ.items() if not key.startswith("GIT_")}
        self.environment = {**kept, "GIT_CONFIG_NOSYSTEM": "1", "GIT_CONFIG_GLOBAL": os.devnull, "GIT_ATTR_NOSYSTEM": "1",
                            "XDG_CONFIG_HOME": str(room), "GIT_CEILING_DIRECTORIES": str(room),
                            "TMPDIR": str(self.temporary), "NOTES": str(self.notes), "RT": str(self.stand_in)}
        self.git("init", "--quiet")
        self.git("config", "user.name", "A")
        self.git("config", "user.email", "a@example.org")

    def git(self, *words):
        return self.run("git", *words, check=True).stdout.strip()

    def run(self, *words, folder=".", check=False):
        return subprocess.run(words, cwd=self.root / folder, env=self.environment, capture_output=True, encoding="utf-8",
                              check=check)

    def commit(self, subject, files):
        for path, text in files.items():
            place = self.root / path
            place.parent.mkdir(parents=True, exist_ok=True)
            place.unlink() if text is None else place.write_text(text, encoding="utf-8")
        self.git("add", "--all")
        self.git("commit", "--quiet", "--message", subject)
        self.git("tag", subject)

    def moved(self, *words, folder="."):
        return self.run(TOOL, *words, folder=folder)

    def head(self, old, new):
        """The lines above the lists."""
        names = (("old", old), ("new", new))
        return "".join(f"{title}: {self.git('rev-parse', '--short', name)} {name}\n" for title, name in names)


def same(what, got, want):
    if got != want:
        texts = (str(want).splitlines(), str(got).splitlines())
        sys.exit("\n".join([f"moved: {what}:", *difflib.unified_diff(*texts, "wanted", "printed", lineterm="")]))


def ends(what, run, status, *parts):
    same(f"{what}: status", run.returncode, status)
    for part in parts:
        if part not in run.stderr:
            sys.exit(f"moved: {what}: {part!r} is not in {run.stderr!r}")


def test_lists(repository):
    run = repository.moved("first", "second")
    same("lists", run.stdout, repository.head("first", "second") + LISTS)
    ends("lists", run, 0)
    same("a folder below", repository.moved("first", "second", folder="crates/base/src").stdout, run.stdout)
    back = repository.moved("second", "first").stdout
    for line in ("      new: dropped, rewritten", "      removed: added-one", "      moved from specs/Moved.antt: wanders",
                 "fresh (crate removed)", "      moved from fresh/specs/Lib.antt: carried"):
        same(f"the other way round: {line.strip()}", line in back.splitlines(), True)
    same("nothing", repository.moved("second", "second").stdout, repository.head("second", "second") + NOTHING)


def test_commits_alone(repository):
    """What is read is the commit HEAD, and neither the index nor the working tree."""
    before = repository.moved("first", "third").stdout
    words = repository.root / "crates/base/specs/Words.antt"
    committed = words.read_text(encoding="utf-8")
    words.write_text("pub staged : ℕ\nstaged = 1\n", encoding="utf-8")
    repository.git("add", "--all")
    words.write_text("pub written : ℕ\nwritten = 1\n", encoding="utf-8")
    same("HEAD", repository.moved("first").stdout, before)
    words.write_text(committed, encoding="utf-8")
    repository.git("add", "--all")


def test_refusals(repository):
    ends("a bad name", repository.moved("first", "fourth"), 2, "no commit is named fourth")
    ends("a file's name", repository.moved("first:crates.txt"), 2, "no commit is named first:crates.txt")
    ends("no repository", repository.moved("first", folder=".."), 2, "no git repository")
    ends("no commit", repository.moved(), 2, "usage: moved")
    ends("a bad option", repository.moved("--tim", "first", "--also"), 2, "usage: moved")
    run = repository.moved("--help")
    ends("help", run, 0)
    same("help names its option", "--time" in run.stdout, True)


def test_time(repository):
    run = repository.moved("--time", "first", "second")
    ends("time", run, 0)
    lists, table = run.stdout.split("\nseconds of rt all verdict --jobs 1 from nothing, old and new\n")
    same("lists with time", lists, repository.head("first", "second") + LISTS)
    rows = [line.split() for line in table.splitlines()]
    near = {"1": "0", "3": "2"}  # on a busy machine a run may take a second more than the stand-in sleeps
    wanted = [["base", "0", "2"], ["fresh", "-", "0"], ["same", "0", "0"], ["gone", "2", "-"], ["all", "2", "2"]]
    same("times", [[near.get(field, field) for field in row] for row in rows], wanted)
    notes = repository.notes.read_text().split()
    same("one run after the other", notes[0::3] + notes[2::3], ["begin", "begin", "end", "end"])
    same("a clone for each", len({*notes[1::3], str(repository.root)}), 3)
    same("clones that are left", list(repository.temporary.iterdir()), [])
    for words in (("third", "first"), ("first", "third")):
        run = repository.moved("--time", *words)
        ends("a commit that does not prove", run, 1, "third does not prove: rt all verdict --jobs 1 ended with status 1", "base: failed (1)")
        same("no times", "seconds" in run.stdout, False)
        same("clones that are left", list(repository.temporary.iterdir()), [])
    repository.environment["RT"] = str(repository.root / "missing")
    ends("no rt", repository.moved("--time", "first"), 2, "there is no command")


def main():
    with tempfile.TemporaryDirectory(prefix="moved-test-") as room:
        repository = Repository(pathlib.Path(room).resolve())
        repository.commit("first", FILES)
        repository.commit("second", {path: new_text(FILES.get(path), change) for path, change in CHANGES.items()})
        repository.commit("third", {"unproved": "\n"})
        test_lists(repository)
        test_commits_alone(repository)
        test_refusals(repository)
        test_time(repository)
    print("moved: the lists and times of a small repository are as they must be")


main()
