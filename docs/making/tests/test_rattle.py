"""What is read of files of Rattle."""

import tempfile
import unittest
from pathlib import Path

from making.rattle import Crate, clauses_in, owner_of, read_file, sentence

FILE = '''//! Slots: what they are for.
//! More of it.
#![tactic(auto)]

ghost use Rattle.std.specs.Prelude.{◌≡◌};
ghost use Rattle.low.specs.Slots.{AreSlots, view as slots_view};

/// Slots. They are few.
pub struct Slots {
    taken: u64,
    /// There are some.
    pub ghost few: { taken ≤ 8 } by { props },
}

impl Model for Slots {
    ghost invariant = { λ s. s.taken ≤ 8 };
}

impl<'a, T: Into<u64>> Slots {
    /// Takes a slot where one is free, 1 to 8 of them; false
    /// where there is none. It takes no memory.
    pub fn take(&mut self, from: Option<&'a T>) -> bool
        requires { 0 < self.old.max }
        // Why this is said.
        ensures free { IsTrue result ↔ (self.old.taken < 8) }
        ensures taken { self.new ≡ (if result then
            record self.old { taken = self.old.taken + 1 } else self.old) }
    {
        self.taken += { 1 };
        true
    }

    fn own(&self) -> u64 {
        self.taken
    }
}

impl Display for Slots {
    fn fmt(&self, out: &mut Formatter) -> Result
        ensures output { out.new ≡ lines }
    {
        Ok(())
    }
}

/// What counts.
pub trait Counts {
    /// How many there are.
    fn count(&self) -> u64
        ensures { result ≡ 1 };
}

mod inner;
pub use inner::{shown};
'''


class ReadingTests(unittest.TestCase):
    def setUp(self) -> None:
        room = tempfile.TemporaryDirectory()
        self.addCleanup(room.cleanup)
        self.folder = Path(room.name, "slots")
        (self.folder / "src").mkdir(parents=True)
        (self.folder / "src/lib.rt").write_text(FILE)
        (self.folder / "src/inner.rt").write_text("/// Shown.\npub fn shown() {}\n\n/// Hidden.\npub fn hidden() {}\n")

    def test_clauses_stand_as_they_are(self) -> None:
        take = next(each for each in read_file(self.folder / "src/lib.rt").functions if each.name == "take")
        self.assertEqual(take.full_name, "Slots::take")
        told = [(each.kind, each.name) for each in take.clauses]
        self.assertEqual(told, [("requires", ""), ("ensures", "free"), ("ensures", "taken")])
        self.assertIn("record self.old { taken = self.old.taken + 1 } else self.old", take.clauses[2].text)
        self.assertEqual(take.clauses[1].shown(), "ensures free { IsTrue result ↔ (self.old.taken < 8) }")

    def test_public_functions_are_those_that_callers_see(self) -> None:
        names = {each.full_name for each in Crate(self.folder).public_functions()}
        self.assertEqual(names, {"Slots::take", "Slots::fmt", "Counts::count", "shown"})

    def test_facts_of_a_type_are_its_ghost_fields_and_its_invariant(self) -> None:
        slots = next(each for each in Crate(self.folder).public_types() if each.name == "Slots")
        facts = [each.shown() for each in slots.facts]
        self.assertEqual(facts, ["always few { taken ≤ 8 }", "always { λ s. s.taken ≤ 8 }"])

    def test_words_are_known_by_the_names_that_the_file_gives_them(self) -> None:
        words = read_file(self.folder / "src/lib.rt").words
        self.assertEqual(words["slots_view"], "low.specs.Slots")
        self.assertNotIn("view", words)

    def test_a_crate_is_for_what_its_head_says(self) -> None:
        self.assertEqual(Crate(self.folder).is_for, "Slots: what they are for.")


class WordsTests(unittest.TestCase):
    def test_a_sentence_ends_at_its_full_stop(self) -> None:
        self.assertEqual(sentence("Takes it (see\n`a.b`). Then more."), "Takes it (see `a.b`).")
        self.assertEqual(sentence("1.5 of it\n\nMore."), "1.5 of it.")
        self.assertEqual(sentence(""), "")

    def test_the_owner_of_an_impl(self) -> None:
        self.assertEqual(owner_of("<'e, R: Fn(u8) -> u8> Held<'e, Vec<R>> {"), ("Held", ""))
        self.assertEqual(owner_of(" From<A> for b::Mine<A> where A: Copy {"), ("Mine", "From"))

    def test_a_function_without_clauses_has_none(self) -> None:
        text = "fn plain(a: [u8; 2]) -> u8 {\n    requires { no }\n}"
        self.assertEqual(clauses_in(text, 8), [])


if __name__ == "__main__":
    unittest.main()
