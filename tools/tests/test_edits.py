"""Which function an edit changes, which edits go together, and how the prover's lines are read."""
import os
import tempfile
import unittest

from detio_tools import edits
from detio_tools.edits import Edit, Function

SOURCE = """//! A lock.
pub struct Lock<T> {
    held: Option<T>,
}

impl<T: Copy> Shown<T> for Lock<T>
where
    T: Eq,
{
    pub fn take(
        &mut self,
        by: T,
    ) -> bool
    ensures
        it_is_held,
    {
        self.held = Some(by);
        self.count += 1;
        true
    }

    fn one(&self) -> u8 { 1 }
}

pub(crate) const fn two() -> u8 {
    2
}

fn left(lock: &Lock<u8>) -> u8
    ensures rest { *lock ≡ record *lock {
        held = None;
    } }
{
    lock.left()
}
"""
# The file, the old text and the new text of each pair.
ONE = [("src/lock.rt", "self.held = Some(by);", "self.held = None;")]
AGAIN = [("src/lock.rt", "self.count += 1;", "self.count += 2;")]
TWO = [("src/lock.rt", "    2", "    3")]
BOTH = [*ONE, *TWO]
LEFT = [("src/lock.rt", "lock.left()", "0")]
DEFINITION = [("specs/Held.antt", "it-is-held = true", "it-is-held = false")]


class Edits(unittest.TestCase):
    def setUp(self) -> None:
        room = tempfile.TemporaryDirectory()
        self.addCleanup(room.cleanup)
        self.folder = room.name
        for part in "src", "specs", "must-fail":
            os.mkdir(f"{self.folder}/{part}")
        edits.write(self.folder, {"src/lock.rt": SOURCE, "specs/Held.antt": "it-is-held = true\n"})

    def edit(self, name: str, pairs: list[tuple[str, str, str]]) -> Edit:
        text = "".join(f"file: {path}\nold: {old}\nnew: {new}\n" for path, old, new in pairs)
        edits.write(self.folder, {f"must-fail/{name}.edit": text})
        return Edit(name, self.folder)

    def test_where(self) -> None:
        self.assertEqual(self.edit("one", ONE).where(), "lock::Lock::take")
        self.assertEqual(self.edit("two", TWO).where(), "lock::two")
        self.assertEqual(self.edit("both", BOTH).where(), "lock::Lock::take and lock::two")
        self.assertEqual(self.edit("definition", DEFINITION).where(), "what is no function")
        self.assertEqual(self.edit("left", LEFT).where(), "lock::left")

    def test_which_goes_alone(self) -> None:
        both = self.edit("both", BOTH).functions()
        self.assertEqual(both, [Function("lock", "take", ("Shown", "Lock")), Function("lock", "two", ())])
        self.assertEqual(self.edit("definition", [*ONE, *DEFINITION]).functions(), [])

    def test_refused_by(self) -> None:
        edits.write(self.folder, {"must-fail/law.edit": "refused by: laws::held\nfile: specs/Held.antt\n"})
        self.assertEqual(Edit("law", self.folder).refused_by, ["laws::held"])
        self.assertEqual(self.edit("one", ONE).refused_by, [])

    def test_owner(self) -> None:
        self.assertEqual(edits.owner_of("impl From<LogFault> for ReplayFault "), ("FromLogFault", "ReplayFault"))
        head = "impl<R: Net<Listener = L> + Clock> Outside for HostDoors<R> "
        self.assertEqual(edits.owner_of(head), ("Outside", "HostDoors"))
        self.assertEqual(edits.owner_of("impl<T> Pages<T> "), ("Pages",))
        self.assertEqual(edits.owner_of("pub trait Outside "), ("Outside",))
        (one,) = edits.functions("impl<R: Net> Outside\n    for HostDoors<R> {\n    fn one() -> u8 { 1 }\n}\n")
        self.assertEqual(one.owner.split("{")[0], "impl<R: Net> Outside for HostDoors<R> ")

    def test_path(self) -> None:
        paths = [edits.path_of(self.edit(name, pairs).functions()[0]) for name, pairs in (("one", ONE), ("two", TWO))]
        self.assertEqual(paths, ["LockShown::take", "lock::two"])

    def test_batches(self) -> None:
        named = (("one", ONE), ("again", AGAIN), ("two", TWO), ("both", BOTH))
        given = [self.edit(name, pairs) for name, pairs in named]
        found = [[it.name for it in taken] for taken, _ in edits.batches(given, self.folder)]
        self.assertEqual(found, [["one", "two"], ["again"], ["both"]])

    def test_texts_of_a_batch(self) -> None:
        given = [self.edit("one", ONE), self.edit("two", TWO)]
        ((_, texts),) = edits.batches(given, self.folder)
        changed = SOURCE.replace("Some(by)", "None").replace("    2\n", "    3\n")
        self.assertEqual(texts, {"src/lock.rt": changed})

    def test_a_second_edit_goes_into_a_copy(self) -> None:
        given = [self.edit("two", TWO), self.edit("four", [("src/lock.rt", "    2", "    4")])]
        ((taken, texts),) = edits.batches(given, self.folder)
        changed = "    3\n}\n\npub(crate) const fn two_twin0() -> u8 {\n    4\n}\n"
        self.assertEqual(texts, {"src/lock.rt": SOURCE.replace("    2\n}\n", changed)})
        self.assertEqual([edits.path_of(it.functions()[0]) for it in taken], ["lock::two", "lock::two_twin0"])
        self.assertEqual([it.alone() for it in taken], given)

    def test_a_copy_has_its_attributes(self) -> None:
        marked = "/// Two.\n#[tactic(\n    auto\n)]\n"
        edits.write(self.folder, {"src/lock.rt": SOURCE.replace("pub(crate) const", f"{marked}pub(crate) const")})
        given = [self.edit("two", TWO), self.edit("four", [("src/lock.rt", "    2", "    4")])]
        ((_, texts),) = edits.batches(given, self.folder)
        self.assertIn(f"}}\n\n{marked}pub(crate) const fn two_twin0()", texts["src/lock.rt"])

    def test_a_copy_has_a_proof_too(self) -> None:
        goal = "use Rattle.low.proofs.lock.two.Goals as goal\n\npub two : goal.two\n"
        edits.write(self.folder, {"proofs/lock/two/Answers.antt": goal})
        given = [self.edit("two", TWO), self.edit("four", [("src/lock.rt", "    2", "    4")])]
        ((_, texts),) = edits.batches(given, self.folder)
        self.assertEqual(texts["proofs/lock/two_twin0/Answers.antt"], goal.replace("lock.two.", "lock.two_twin0."))

    def names_in_batches(self, given: list[Edit]) -> list[list[str]]:
        return [[it.name for it in taken] for taken, _ in edits.batches(given, self.folder)]

    def test_what_has_no_copy(self) -> None:
        given = [self.edit("two", TWO), self.edit("four", [("src/lock.rt", "    2", "    4")])]
        edits.write(self.folder, {"proofs/lock/two/Proof.antt": ""})
        self.assertEqual(self.names_in_batches(given), [["two"], ["four"]])
        os.remove(f"{self.folder}/proofs/lock/two/Proof.antt")
        edits.write(self.folder, {"src/lock.rt": SOURCE.replace("pub(crate) const", "#[cycle(two)]\npub(crate) const")})
        self.assertEqual(self.names_in_batches(given), [["two"], ["four"]])
        trait = "pub trait Two {\n    fn two() -> u8 {\n        2\n    }\n}\n"
        edits.write(self.folder, {"src/lock.rt": trait})
        given = [self.edit("two", TWO), self.edit("four", [("src/lock.rt", "    2", "    4")])]
        self.assertEqual(self.names_in_batches(given), [["two"], ["four"]])

    def test_an_old_text_that_stands_twice_has_no_copy(self) -> None:
        edits.write(self.folder, {"src/lock.rt": SOURCE + "// again: lock.left()\n"})
        self.assertEqual(self.names_in_batches([self.edit("left", LEFT), self.edit("two", TWO)]), [["two"]])

    def test_what_cannot_be_applied(self) -> None:
        given = [self.edit("lacking", [("src/lock.rt", "not there", "")]), self.edit("two", TWO)]
        found = [[it.name for it in taken] for taken, _ in edits.batches(given, self.folder)]
        self.assertEqual(found, [["two"]])


class Lines(unittest.TestCase):
    TAKE = Function("lock", "take", ("Shown", "Lock"))

    def test_own_line(self) -> None:
        said = (
            "fn low::lock::Lock::take: no proof: expected answers; `search` did not prove `returns`; it calls `two`\n"
            "fn low::lock::two: no proof: it calls low::lock::Lock::take\n"
            "fn low::lock::three: no proof: it passes the block `Lock`, which is not proved\n"
            "fn low::lock::Other::take: not proved\n"
        )
        self.assertEqual(edits.goal_of(edits.own_line("low", self.TAKE, said) or ""), "`returns`")
        self.assertIsNone(edits.own_line("low", Function("lock", "two", ()), said))
        self.assertIsNone(edits.own_line("low", Function("lock", "three", ()), said))
        self.assertIsNone(edits.own_line("high", self.TAKE, said))

    def test_not_proved(self) -> None:
        said = "fn low::lock::Lock::take: not proved\n"
        self.assertEqual(edits.own_line("low", self.TAKE, said), edits.NO_FIT)

    def test_its_own(self) -> None:
        self.assertTrue(edits.is_its_own(self.TAKE, "expected answers; `search` did not prove `returns`", ""))
        self.assertFalse(edits.is_its_own(self.TAKE, "expected answers in `a file`", ""))
        self.assertFalse(edits.is_its_own(self.TAKE, edits.NO_FIT, ""))
        at = "./proofs/lock/Lock/take/Answers.antt:1:2: error: `returns`: "
        self.assertTrue(edits.is_its_own(self.TAKE, edits.NO_FIT, f"{at}`search`: no proof of `x`\n"))
        self.assertFalse(edits.is_its_own(self.TAKE, edits.NO_FIT, f"{at}`met` was not admitted\n"))
        self.assertFalse(edits.is_its_own(Function("lock", "two", ()), edits.NO_FIT, f"{at}no proof\n"))

    def test_line_by(self) -> None:
        said = "fn low::laws::held: not proved\n"
        self.assertEqual(edits.line_by("low", "laws::held", said), edits.NO_FIT)
        self.assertIsNone(edits.line_by("low", "held", said))

    def test_unread(self) -> None:
        changed = {"src/lock.rt": ""}
        self.assertIsNone(edits.unread("./proofs/lock/two/Answers.antt:1:2: error: `x` is not in scope\n", changed))
        self.assertIsNone(edits.unread("./specs/Held.antt:1:2: error: `held`: the types differ\n", changed))
        scope = "specs/Held.antt:1:2: error: `held`: `x` is not in scope"
        for said in scope, "src/lock.rt:3:4: error: expected the end":
            self.assertEqual(edits.unread(f"fn low::two: proved\n{said}\n", changed), said)


if __name__ == "__main__":
    unittest.main()
