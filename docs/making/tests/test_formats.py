"""The tables of FORMATS, over small files of the same layout as the crates have."""

import tempfile
import unittest
from pathlib import Path

from making import settings
from making.items import bodies, docs_of_variants
from making.lines import Lines, members
from making.replies import Replies

STEP = """/// What a step does.
pub enum Op {
    /// Asks for a run, and gets a ticket.
    Submit(Request),
    /// The fallback ended.
    FallbackDone { serial: Serial, end: FallbackEnd },
    /// Asks for metrics.
    Read { command: u8 },
}
"""
STEP_LINE = """pub(crate) fn op_word(word: &str) -> Option<OpWord>
    ensures { result ≡ op_word word.now }
{
    match word {
        "submit" => Some(OpWord::Submit),
        "fallback" => Some(OpWord::FallbackDone),
        _ => None,
    }
}

pub fn op_at(word: OpWord, members: Members<'_>) -> Result<OpLine<'_>, Fault>
{
    Ok(match word {
        OpWord::Submit => OpLine::Submit {
            command: command_of(members)?,
            arg: members.text("arg").ok_or(Fault::Field)?,
        },
        OpWord::FallbackDone => OpLine::FallbackDone {
            ticket: members.number("ticket").ok_or(Fault::Field)?,
            end: fallback_end_of(members.text("end").ok_or(Fault::Field)?, members)?,
        },
    })
}
"""
CONTROL_LINE = """pub enum ControlLine {
    /// The names of all groups.
    Groups,
}

fn control_line_at<C: Control>(control: &C, members: Members<'_>) -> Asked
{
    match control_word(word).ok_or(Fault::Op)? {
        ControlWord::Groups => Ok(ControlLine::Groups),
        ControlWord::Metrics => metrics_at(control, members),
    }
}

fn control_word(word: &str) -> Option<ControlWord>
{
    match word {
        "groups" => Some(ControlWord::Groups),
        "metrics" => Some(ControlWord::Metrics),
        _ => None,
    }
}

fn metrics_at<C: Control>(control: &C, members: Members<'_>) -> Asked
{
    let name = members.text("group").ok_or(Fault::Field)?;
    let said = command_of(members)?;
}
"""
REPLY = """pub enum Answer {
    /// The body that the run gave.
    Value(Text<256>),
}

pub enum Reply {
    /// The ticket waits.
    Queued(Serial),
    /// The answer.
    Answered(Answer),
    /// No more steps.
    Worn,
}
"""
REPLY_LINE = """abbrev pub cause_word : Cause → List ℕ
cause_word cause.Failure = codes "failure"
cause_word cause.Timeout = codes "timeout"

fallback_word fault.Failed = codes "failed"

circuit_word (circuit.Open since) = codes "open"

kind_names =
    codes "FAILURE" ∷ codes "SUCCESS" ∷ []

value_data body = object (text_member (codes "body") body (text_member (codes "reply") (codes "value") no_members))

answer_data (answer.Value body) = value_data body

reply_data command (reply.Queued serial) = numbered (codes "queued") serial
reply_data command (reply.Answered answer) = answer_data answer
reply_data command reply.Worn = named (codes "worn")
"""
REPLIES = "answers_submit (reply.Queued serial) = true\nanswers_fallback_done (reply.Answered answer) = true\n"
FAULT = "pub enum Fault {\n    /// The line is no JSON.\n    Syntax,\n}\n"
FAULT_LINE = r"""fn fault_text(fault: Fault) -> &'static str
{
    match fault {
        Fault::Syntax => "{\"error\":\"syntax\"}\n",
    }
}
"""
PROPERTY = """const MOST_SLOTS: u64 = 4096;
impl Property {
    pub fn name(self) -> DottedName {
        match self {
            Property::Slots => dotted!(service.slots),
            Property::CircuitOn => dotted!(
                circuitBreaker.enabled
            ),
        }
    }

    pub fn row(self) -> Row {
        match self {
            Property::Slots => number(1, MOST_SLOTS, 64).at(Place::ServiceGroup),
            Property::CircuitOn => truth(true),
        }
    }
}
"""
PROPS = "pub struct CommandProps {\n    /// `circuitBreaker.enabled`.\n    pub circuit_on: bool,\n}\n"
NAMED = """pub fn name_of(tuning: &Tuning) -> &'static str
{
    match tuning {
        Tuning::CircuitOn(_) => "circuitBreaker.enabled",
    }
}
"""
FILES = {
    "bh_base/src/step.rt": STEP,
    "bh_base/src/reply.rt": REPLY,
    "bh_base/src/props.rt": PROPS,
    "bh_base/specs/Replies.antt": REPLIES,
    "bh_lines/src/step_line.rt": STEP_LINE,
    "bh_control/src/control_line.rt": CONTROL_LINE,
    "bh_replies/specs/ReplyLine.antt": REPLY_LINE,
    "bh_replies/src/fault.rt": FAULT_LINE,
    "bh_faults/src/fault.rt": FAULT,
    "bh_props/src/property.rt": PROPERTY,
    "bh_tuning/src/named.rt": NAMED,
}


class FormatTests(unittest.TestCase):
    def setUp(self) -> None:
        room = tempfile.TemporaryDirectory()
        self.addCleanup(room.cleanup)
        self.top = Path(room.name)
        for name, text in FILES.items():
            path = self.top / "crates" / name
            path.parent.mkdir(parents=True, exist_ok=True)
            path.write_text(text)

    def test_steps_have_their_members_and_docstrings(self) -> None:
        rows = Lines(self.top).steps_table().split("\n")[2:]
        self.assertEqual(
            rows,
            [
                "| `submit` | perhaps `command`, a text; `arg`, a text | Asks for a run, and gets a ticket |",
                "| `fallback` | `ticket`, a number; `end`, which is `success`, `failure` or `missing`; with `success` also "
                "`body`, a text | The fallback ended |",
            ],
        )

    def test_a_control_line_is_read_in_a_function_of_its_own(self) -> None:
        rows = Lines(self.top).control_table().split("\n")[2:]
        self.assertEqual(
            rows,
            [
                "| `groups` |  | The names of all groups |",
                "| `metrics` | `group`, a text; perhaps `command`, a text | Asks for metrics |",
            ],
        )

    def test_replies_have_lines_and_the_operations_that_they_answer(self) -> None:
        rows = Replies(self.top).table().split("\n")[2:]
        self.assertEqual(
            rows,
            [
                '| Queued | `{"reply":"queued","ticket":T}` | `submit` | The ticket waits |',
                '| Answered(Value) | `{"body":"TEXT","reply":"value"}` | `fallback` | The body that the run gave |',
                '| Worn | `{"reply":"worn"}` | any step | No more steps |',
            ],
        )

    def test_words_stand_for_causes_states_and_kinds(self) -> None:
        table = Replies(self.top).words_list()
        self.assertIn("| CAUSE | `failure`, `timeout` |", table)
        self.assertIn("| `events` | FAILURE, SUCCESS |", table)

    def test_faults_have_their_words(self) -> None:
        self.assertIn('| `{"error":"syntax"}` | The line is no JSON |', Replies(self.top).faults_table())

    def test_properties_have_their_rows(self) -> None:
        self.assertEqual(
            settings.table(self.top).split("\n")[2:],
            [
                "| 1 | `service.slots.KEY` | `slots` | 64 | 1 to 4,096 |  |",
                "| | under `hystrix.command.KEY.` | | | | |",
                "| 2 | `circuitBreaker.enabled` | `circuit_on` | true |  | yes |",
            ],
        )

    def test_members_are_told_in_the_order_of_the_code(self) -> None:
        self.assertEqual(members('members.truth("bad") members.text("a")'), "`bad`, a boolean; `a`, a text")

    def test_an_enum_that_is_not_there_has_no_docstrings(self) -> None:
        self.assertEqual(docs_of_variants(self.top / "crates/bh_base/src/step.rt", "None"), {})
        self.assertEqual(list(bodies(self.top / "crates/bh_lines/src/step_line.rt")), ["op_word", "op_at"])


if __name__ == "__main__":
    unittest.main()
