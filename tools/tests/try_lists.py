"""Assertions of what the lists read of the sources."""
import os
import tempfile
import unittest

import code
import kept
import kinds
import routes
from sources import Sources

LIB = "pub mod Rules\npub use Rattle.low.specs.Words\n"
WORDS = """-- Words.
use Rattle.std.specs.Prelude.{ℕ, List}

-- a word
abbrev pub Word : Type 0
Word = List ℕ

unfoldable pub is_short : Word → Bool
is_short word = true

pub record Pair : Type 0 where
  pub first : Word

pub lonely : Word → Bool
lonely word = lonely word
"""
RULES = """use Rattle.low.specs.Words.{Word, is_short}

module _ (word : Word) where
  pub holds : Bool
  holds = is_short word

pub kept_short : Word → Bool
kept_short other = true
"""
LAWS = """use Rattle.mid.specs.Rules.{holds}
use Rattle.mid.specs.Words as low

pub first_law
    : holds ≡ low.first
first_law = second_law
  where
    unlisted : ℕ
    unlisted = 0

second_law : holds ≡ holds
second_law = refl

-- third_law isn't cited by this line
pub third_law : ℕ
third_law = first_law

pub searched : ℕ
searched = 0
"""
CODE = """//! What the crate is.
use crate::words::{Word, short as brief};
use low::texts::{self, Text};
ghost use Rattle.mid.specs.Rules.{holds};

pub use low::Word;

/// Called by nothing but a comment: lonely().
#[tactic(auto, using(crate::proofs::Laws::searched))]
pub fn lonely(x: u8) -> bool
    requires { holds }
    ensures named { called { result } }
{
    let brace = b'{';
    called("}") && x == brace
}

fn called(text: &str) -> bool {
    text.is_empty()
}

pub fn only_tested() {
    let number = 1;
}

/// A law.
pub fn law()
    ensures { holds }
{}

struct Marked {
    pub ghost fitted: { called },
}

impl Named for Word {
    ghost state = { λ p. tt };

    fn name(&self) -> u8 {
        0
    }
}

#[test]
fn tests_it() {
    only_tested();
}
"""


class Tree(unittest.TestCase):
    """Two crates, of which the upper one passes on a module of the lower one."""

    def setUp(self):
        self.room = tempfile.TemporaryDirectory()
        self.addCleanup(self.room.cleanup)
        for path, text in (("crates.txt", "# crates\nlow:\nmid: low\n"),
                           ("crates/low/specs/Lib.antt", "pub mod Words\n"),
                           ("crates/low/specs/Words.antt", WORDS),
                           ("crates/mid/specs/Lib.antt", LIB),
                           ("crates/mid/specs/Rules.antt", RULES),
                           ("crates/mid/proofs/Laws.antt", LAWS),
                           ("crates/mid/src/lib.rt", CODE)):
            path = os.path.join(self.room.name, path)
            os.makedirs(os.path.dirname(path), exist_ok=True)
            with open(path, "w", encoding="utf-8") as file:
                file.write(text)
        self.sources = Sources(self.room.name)

    def entries(self, kind, names=()):
        """The entries of a list, one after another."""
        return [entry for _, entries in kind(self.sources, kept.Kept(names)) for entry in entries]

    def test_definitions_with_their_blocks(self):
        file = self.sources.modules["Rattle.low.specs.Words"]
        self.assertEqual([(one.name, one.line, one.length) for one in file.definitions],
                         [("Word", 5, 2), ("is_short", 8, 2), ("Pair", 11, 2), ("lonely", 14, 2)])
        file = self.sources.modules["Rattle.mid.proofs.Laws"]
        self.assertEqual([one.name for one in file.definitions],
                         ["first_law", "second_law", "third_law", "searched"])
        file = self.sources.modules["Rattle.mid.specs.Rules"]
        self.assertEqual([one.name for one in file.definitions], ["holds", "kept_short"])

    def test_a_name_is_of_its_own_crate(self):
        self.assertEqual(self.sources.origin("Rattle.mid.specs.Words", "Word"),
                         ("Rattle.low.specs.Words", "Word"))

    def test_what_nothing_cites(self):
        self.assertEqual(self.entries(kinds.uncited), [
            "low/specs/Words.antt:11 Pair, 2 lines", "low/specs/Words.antt:14 lonely, 2 lines",
            "mid/proofs/Laws.antt:15 third_law, 2 lines",
            "mid/specs/Rules.antt:7 kept_short, 2 lines",
            "mid/proofs/Laws.antt:4 first_law, 6 lines",
            "mid/proofs/Laws.antt:11 second_law, 2 lines"])
        self.assertEqual(self.entries(kinds.uncited, ["low: Words", "mid: Laws.third_*"]),
                         ["mid/specs/Rules.antt:7 kept_short, 2 lines"])

    def test_what_only_proofs_cite(self):
        path = os.path.join(self.room.name, "crates/mid/src/lib.rt")
        with open(path, "w", encoding="utf-8") as file:
            file.write("")
        self.sources = Sources(self.room.name)
        self.assertEqual(self.entries(kinds.proofs, ["low: *"]), [])
        with open(path.replace("src/lib.rt", "proofs/Laws.antt"), "a", encoding="utf-8") as file:
            file.write("fourth : third_law\nfourth = fourth\n")
        os.makedirs(path.replace("src/lib.rt", "proofs/lib/go"))
        with open(path.replace("src/lib.rt", "proofs/lib/go/Answers.antt"), "w",
                  encoding="utf-8") as file:
            file.write("use Rattle.mid.proofs.Laws.{third_law}\n\npub goal : x\ngoal = third_law\n")
        self.sources = Sources(self.room.name)
        self.assertEqual(self.entries(kinds.proofs, ["low: *"]),
                         ["mid/specs/Rules.antt:4 holds, 2 lines"])

    def test_functions(self):
        file = next(one for one in self.sources.files() if one.is_code)
        found = {one.name: one for one in code.functions(file)}
        self.assertEqual(list(found),
                         ["lonely", "called", "only_tested", "law", "name", "tests_it"])
        self.assertEqual(found["lonely"].line, 10)
        self.assertEqual(found["lonely"].words, {"let", "brace", "called", "x"})
        self.assertEqual([name for name in found if found[name].is_law], ["law"])
        self.assertEqual([name for name in found if found[name].is_test], ["tests_it"])
        self.assertEqual([name for name in found if found[name].is_of_trait], ["name"])

    def test_what_nothing_calls(self):
        self.assertEqual(self.entries(kinds.uncalled), [
            "mid/src/lib.rt:10 lonely", "mid/src/lib.rt:22 only_tested",
            "mid/src/lib.rt:18 called"])
        self.assertEqual(self.entries(kinds.uncalled, ["mid::lonely", "mid::called"]),
                         ["mid/src/lib.rt:22 only_tested"])

    def test_detours(self):
        self.assertEqual(self.entries(kinds.imports), [
            "mid/proofs/Laws.antt:2 Rattle.mid.specs.Words is Rattle.low.specs.Words"])

    def test_crates_that_are_named_nowhere(self):
        self.assertEqual(self.entries(kinds.crates), [])
        with open(os.path.join(self.room.name, "crates.txt"), "a", encoding="utf-8") as file:
            file.write("top: mid\n")
        self.sources = Sources(self.room.name)
        self.assertEqual(self.entries(kinds.crates), ["crates.txt:4 top lists mid"])

    def test_definitions_that_are_the_same(self):
        with open(os.path.join(self.room.name, "crates/mid/specs/Rules.antt"), "a",
                  encoding="utf-8") as file:
            for name, local, text in ("one", "x", "a"), ("other", "word", "a"), ("third", "y", "b"):
                file.write("\npub %s : Word → Bool\n%s %s = is_short (%s ++ %s ++ (%s ++ \"%s\"))\n"
                           % (name, name, *[local] * 4, text))
        self.sources = Sources(self.room.name)
        self.assertEqual(self.entries(kinds.same), [
            "mid/specs/Rules.antt:10 one = mid/specs/Rules.antt:13 other"])


class Texts(unittest.TestCase):
    """What is read of single texts."""

    def test_a_use_of_code(self):
        self.assertEqual(routes.split("a::{b, c::{self, d as e}, f}"), [
            (["a", "b"], "b"), (["a", "c", "self"], "c"), (["a", "c", "d"], "e"),
            (["a", "f"], "f")])

    def test_names_that_a_page_keeps(self):
        page = "`no::name`\n\n%s\n\n- `a::b` of `C`, `a: M.*`\n\n## Next\n\n`c::d`\n" % kept.HEADING
        self.assertEqual(kept.named_in(page), ["a::b", "a: M.*"])
        names = kept.Kept(["a: M.*", "b::c"])
        self.assertTrue(names.has("a: M", "a: M.law"))
        self.assertEqual(names.strangers(), ["b::c"])
