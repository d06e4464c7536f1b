"""Whether checks/mutants.py can fail: it is run on a repository of one small crate, with a mutant that is refused, one
that means the same as before, and one that doesn't compile; and its record is changed by hand."""
import os
import shutil
import subprocess
import sys
import tomllib

import pytest

TOP = os.path.dirname(os.path.dirname(os.path.abspath(__file__)))
CRATE = "token_bucket"
MUTANTS = {
    "credit_told_by_the_token": ("let units = self.credit;", "let units = self.credit / TOKEN;", "values"),
    "the_same_in_other_words": ("self.rate = rate;", "self.rate = { rate };", "not refused"),
    "a_word_that_is_none": ("let units = self.rate;", "let units = self.rates;", "doesn't compile"),
}
# Changes of the source: what stands there, what comes in its place, and which mutants weren't tried on that.
CHANGES = [
    ("self.tick = to;", "self.tick = { to };", []),
    ("        let units = self.credit;\n        units", "        let units = self.credit;\n        { units }",
     ["credit_told_by_the_token"]),
    ("    /// The credit in units.", "    // The credit.\n    // In units.", []),
    ("ensures { result ≡ self.now.rate }", "ensures { self.now.rate ≡ result }", ["a_word_that_is_none"]),
]
# Two crates, of which `high` stands on `low`.
FILES = {
    "crates.txt": "low:\nhigh: low\n",
    "crates/low/specs/Lib.antt": "pub mod Sizes\n",
    "crates/low/specs/Sizes.antt": "pub IsSmall : ℕ → Type 0\nIsSmall n = n < 8\n",
    "crates/low/proofs/Lemmas.antt": "pub small : 0 < 8\nsmall = tt\n",
    "crates/low/proofs/Rules.antt": "pub rule : 0 < 8\nrule = tt\n",
    "crates/low/src/lib.rt": """#![tactic(auto)]

ghost use Rattle.low.specs.Sizes.{IsSmall};

/// A pile.
pub struct Pile {
    count: u64,
}

impl Model for Pile {
    ghost invariant = { λ p. IsSmall p.count };
}

impl Drop for Pile {
    fn drop(&mut self)
        ensures { true }
    {
        self.count = 0;
    }
}

impl Pile {
    pub fn new() -> Pile
        ensures { result.count ≡ 0 }
    {
        Pile { count: 0 }
    }

    pub fn add(&mut self, more: u64)
        requires { IsSmall more }
    {
        self.count += more;
    }
}

pub fn limit(n: u64) -> u64
    ensures { result ≡ n }
{
    n
}

pub trait Sized {
    fn size(&self) -> u64
        ensures { 0 < result };

    fn is_large(&self) -> bool {
        false
    }
}

pub struct Heap;

impl Heap {
    pub fn new() -> Heap
        ensures { result ≡ result }
    {
        Heap
    }
}

pub fn unused() {}

pub use self::limit as bound;
""",
    "crates/high/src/lib.rt": """#![tactic(auto)]

use low::{Pile, Sized, bound};

fn pile(n: u64) -> Pile
    ensures { result.count ≡ n }
{
    let mut pile = Pile::new();
    pile.add(n);
    pile
}

fn limited(n: u64) -> u64 {
    bound(n)
}

#[tactic(
    auto,
    using(low::proofs::Rules::rule)
)]
fn sized<S: Sized>(s: &S) -> u64 {
    s.size()
}

fn called(n: u64) -> bool {
    pile(n);
    n == 8
}

const MOST: u64 = 8;

struct Nothing;

impl Sized for Nothing {
    fn size(&self) -> u64 {
        1
    }
}
""",
    "crates/high/proofs/limited/Answers.antt":
        "use Rattle.low.proofs.Lemmas.{small}\nuse Rattle.high.proofs.limited.Goals as goal\n",
}
TRIED = {"pile": "pile.add(n);", "limited": "bound(n)", "sized": "s.size()", "called": "n == 8", "size": "1",
         "MOST": "u64 = 8"}
# A change of a file (a new one where nothing stands there), and what it is that wasn't tried so.
STALE = {
    "a new file of definitions": ("crates/low/specs/More.antt", "", "pub more : ℕ\nmore = 1\n", ""),
    "a list of files": ("crates/low/specs/Lib.antt", "Sizes", "Sizes\npub mod More", ""),
    "a definition": ("crates/low/specs/Sizes.antt", "8", "9", "pile called MOST"),
    "a lemma": ("crates/low/proofs/Lemmas.antt", "tt", "cc", "limited MOST"),
    "a lemma of a tactic": ("crates/low/proofs/Rules.antt", "tt", "cc", "sized MOST"),
    "a contract": ("crates/low/src/lib.rt", "result ≡ n", "n ≡ result", "limited MOST"),
    "a method's contract": ("crates/low/src/lib.rt", "requires { IsSmall", "requires small { IsSmall", "pile MOST"),
    "a method's contract of another type": ("crates/low/src/lib.rt", "result ≡ result", "true", ""),
    "a contract of a trait": ("crates/low/src/lib.rt", "0 < result", "1 < result", "sized size MOST"),
    "a contract of nobody's": ("crates/low/src/lib.rt", "fn unused() {}", "fn unused(n: u8) {}", ""),
    "a contract in the crate": ("crates/high/src/lib.rt", "result.count ≡ n", "n ≡ result.count", "pile called MOST"),
    "a body": ("crates/low/src/lib.rt", "+= more", "+= { more }", ""),
    "a body in the crate": ("crates/high/src/lib.rt", "    pile\n", "    { pile }\n", "pile MOST"),
    "a field": ("crates/low/src/lib.rt", "    count: u64", "    count: u32", "pile called MOST"),
    "an invariant": ("crates/low/src/lib.rt", "λ p. IsSmall", "λ q. IsSmall", "pile called MOST"),
    "a contract that no word names": ("crates/low/src/lib.rt", "{ true }", "{ false }", "pile called MOST"),
    "a proof": ("crates/high/proofs/limited/Answers.antt", "as goal", "as goals", "limited MOST"),
    "a comment": ("crates/low/src/lib.rt", "/// A pile", "// Some", ""),
    "an import": ("crates/low/src/lib.rt", "{IsSmall}", "{IsSmall, IsLarge}", ""),
    "the crate's row": ("crates.txt", "high: low", "high: low itoa", "pile limited sized called size MOST"),
    "the crate's tactic": ("crates/high/src/lib.rt", "(auto)", "(none)", "pile limited sized called size MOST"),
}


def table_of(mutants):
    form = "[[mutant]]\nname = '%s'\npromise = 'p'\nfile = 'src/bucket.rt'\nold = '%s'\nnew = '%s'\n"
    return "".join(form % (name, old, new) for name, (old, new, _) in mutants.items())


@pytest.fixture(scope="module")
def copy(tmp_path_factory):
    top = tmp_path_factory.mktemp("copy")
    for name in ("build", "HANDLES"):
        shutil.copy(os.path.join(TOP, name), top)
    shutil.copytree(os.path.join(TOP, "crates", CRATE), top / "crates" / CRATE,
                    ignore=shutil.ignore_patterns("out", "must-fail"))
    with open(os.path.join(TOP, "crates.txt"), encoding="utf-8") as file:
        (top / "crates.txt").write_text("".join(row for row in file if row.startswith(CRATE + ":")))
    (top / "checks" / "mutants").mkdir(parents=True)
    shutil.copy(os.path.join(TOP, "checks", "mutants.py"), top / "checks")
    shutil.copytree(os.path.join(TOP, "checks", "lib"), top / "checks" / "lib")
    (top / "checks" / "mutants" / (CRATE + ".toml")).write_text(table_of(MUTANTS))
    return top


def run(copy, *words):
    ran = subprocess.run([sys.executable, copy / "checks" / "mutants.py", *words], capture_output=True, text=True,
                         check=False)
    return ran.returncode, ran.stdout + ran.stderr


def test_the_type_of_a_function(monkeypatch):
    monkeypatch.syspath_prepend(os.path.join(TOP, "checks"))
    from lib import cited
    text = "impl<\n    A,\n    B: Copy,\n> Read for Pair<A, B>\nwhere\n    A: Copy,\n{\n" \
           "    fn one(&self) -> u8 {\n        1\n    }\n}\n\nfn two<\n    A,\n>(\n    a: A,\n) {\n}\n"
    assert [it[:2] for it in cited.functions(text)] == [("one", "Read for Pair<A, B>"), ("two", "")]


def sums(mutants, top):
    """The checksum of the mutant of each name in TRIED."""
    mutants.code_of.cache_clear()
    sites = mutants.Sites("high", mutants.files_of(top / "crates" / "high"), [])
    return {name: mutants.own_sum({"file": "src/lib.rt", "old": old, "new": "n"}, sites) for name, old in TRIED.items()}


@pytest.fixture
def two_crates(monkeypatch, tmp_path):
    monkeypatch.syspath_prepend(os.path.join(TOP, "checks"))
    import mutants
    from lib import cited
    monkeypatch.setattr(cited, "TOP", str(tmp_path))
    for path, text in FILES.items():
        (tmp_path / path).parent.mkdir(parents=True, exist_ok=True)
        (tmp_path / path).write_text(text)
    yield mutants
    mutants.code_of.cache_clear()


@pytest.mark.parametrize("path, old, new, stale", STALE.values(), ids=STALE)
def test_what_is_stale(two_crates, tmp_path, path, old, new, stale):
    before, text = sums(two_crates, tmp_path), FILES.get(path, "")
    assert not old or text.count(old) == 1
    (tmp_path / path).write_text(text.replace(old, new) if old else new)
    after = sums(two_crates, tmp_path)
    assert " ".join(name for name in TRIED if before[name] != after[name]) == stale


@pytest.mark.parametrize("path, text, said", [
    ("proofs/Lemmas.antt", "use Rattle.low.specs.Nowhere.{it}\n", "`low.specs.Nowhere` names nothing that is known"),
    ("src/inner.rt", "mod inner {\n    struct One;\n}\n", "an item that isn't understood"),
    ("proofs/nobody/Answers.antt", "use Rattle.std.proofs.Common.{arith}\n", "nobody has the proofs of no function")])
def test_what_is_not_understood(two_crates, tmp_path, path, text, said):
    (tmp_path / "crates/low" / path).parent.mkdir(exist_ok=True)
    (tmp_path / "crates/low" / path).write_text(text)
    with pytest.raises(SystemExit, match=said):
        sums(two_crates, tmp_path)


def test_a_crate_that_is_not_there(copy):
    status, said = run(copy, "buckets")
    assert status == 2 and "no table of mutants for a crate buckets" in said


def test_not_tried_yet(copy):
    status, said = run(copy, "--check")
    assert status == 1 and "%s/the_same_in_other_words: not tried as it stands" % CRATE in said


def test_verdicts_and_record(copy):
    table = copy / "checks" / "mutants" / (CRATE + ".toml")
    status, said = run(copy, "--jobs", "2", CRATE)
    assert status == 1, said
    verdicts = {it["name"]: it["verdict"] for it in tomllib.loads(table.read_text())["mutant"]}
    assert verdicts == {name: verdict for name, (_, _, verdict) in MUTANTS.items()}
    status, said = run(copy, "--check")
    assert status == 1
    assert "%s/the_same_in_other_words: not refused" % CRATE in said
    assert "%s/a_word_that_is_none: doesn't compile" % CRATE in said
    assert "%s/credit_told_by_the_token" % CRATE not in said

    source = copy / "crates" / CRATE / "src" / "bucket.rt"
    text = source.read_text()
    for old, new, untried in CHANGES:
        assert text.count(old) == 1
        source.write_text(text.replace(old, new))
        said = run(copy, "--check")[1]
        assert [name for name in MUTANTS if name + ": not tried as it stands" in said] == untried, (new, said)
    source.write_text(text + "// self.credit = credit;\n// let units = self.credit;\n")
    assert "%s/credit_told_by_the_token: an old text doesn't stand once" % CRATE in run(copy, "--check")[1]
    source.write_text(text)

    by_hand = table.read_text().replace("new = 'self.rate = { rate };'", "new = 'self.rate = 2;'")
    table.write_text(by_hand.replace("verdict = 'not refused'", "verdict = 'goal'"))
    assert "%s/the_same_in_other_words: not tried as it stands" % CRATE in run(copy, "--check")[1]
