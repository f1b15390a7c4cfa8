"""The words of a program, from builders of the same form as those of the program."""

import tempfile
import unittest
from pathlib import Path

from making import man
from making.arguments import program, table, usage

SOURCE = '''const VERSION: &str = "1.2.0\\nproved by";

/// What stands beneath.
const BENEATH: &str =
    "A text - of two
lines.";

pub fn command<'a>(alloc: Global) -> Result<Command<'a>, AllocError>
    ensures { IfOk result (λ command. IsCommand command program) }
{
    Command::new(alloc, "ring")
        .about("Rings")
        .version(VERSION)
        .subcommand(file_command(
            alloc,
            "listen",
            "Listens",
        )?)
}

fn file_command<'a>(alloc: Global, name: &'a str, about: &'a str) -> Result<Command<'a>, AllocError>
{
    Command::new(alloc, name)
        .about(about)
        .after_help(BENEATH)
        .arg(Arg::new(alloc, "FILE").required(true))?
        .arg(port(alloc)?)?
        .arg(socket(alloc))?
        .arg(number(alloc, "The most, 2 to 200", "80"))
}

fn port<'a>(alloc: Global) -> Result<Arg<'a>, AllocError>
{
    Arg::new(alloc, "port")
        .long("port")
        .value_name("P")
        .help("The port")
        .value_parser(clap::value_parser!(u16).range(1..))
        .required_unless_present("socket")
}

fn socket<'a>(alloc: Global) -> Arg<'a>
{
    Arg::new(alloc, "socket").long("socket").value_name("PATH").help("The socket").conflicts_with("port")
}

fn number<'a>(alloc: Global, help: &'a str, usual: &'a str) -> Arg<'a>
{
    Arg::new(alloc, "most")
        .long("most")
        .value_name("N")
        .help(help)
        .default_value(usual)
        .value_parser(clap::value_parser!(u64).range(2..=200))
}
'''
PAGE = "".join(f'.\\" made by docs/make: {name}\n.\\" made: end\n' for name in ("title", "synopsis", "commands", "options"))


class ArgumentTests(unittest.TestCase):
    def setUp(self) -> None:
        room = tempfile.TemporaryDirectory()
        self.addCleanup(room.cleanup)
        self.top = Path(room.name)
        source = self.top / "crates/bh_arguments/src/commands.rt"
        source.parent.mkdir(parents=True)
        source.write_text(SOURCE)

    def test_builders_are_evaluated(self) -> None:
        told = program(self.top)
        self.assertEqual((told.name, told.version), ("ring", "1.2.0\nproved by"))
        (listen,) = told.commands
        self.assertEqual((listen.name, listen.about), ("listen", "Listens"))
        self.assertEqual([each.name for each in listen.arguments], ["FILE", "port", "socket", "most"])
        self.assertEqual(listen.arguments[3].usual, "80")

    def test_arguments_that_exclude_one_another_stand_together(self) -> None:
        (listen,) = program(self.top).commands
        self.assertEqual(usage(listen), "listen --port <P> | --socket <PATH> [--most <N>] FILE")

    def test_the_table_has_each_option_with_its_commands(self) -> None:
        self.assertIn("| `--most <N>` | `listen`: The most, 2 to 200; 80 where it is not given |", table(self.top))
        self.assertIn("`ring listen --port <P> \\| --socket <PATH>", table(self.top))

    def test_the_man_page_has_the_same_texts(self) -> None:
        page = man.filled(PAGE, self.top)
        self.assertIn('.TH RING 1 "" "ring 1.2.0" "User Commands"', page)
        self.assertIn(".B listen\nListens.\n.IP\nA text \\- of two\nlines.\n", page)
        self.assertIn('.BI \\-\\-port " P"\nWith \\fBlisten\\fP: The port.\n', page)
        place = "\\fB\\-\\-port\\fP \\fIP\\fP | \\fB\\-\\-socket\\fP \\fIPATH\\fP"
        self.assertIn(f"{place} [\\fB\\-\\-most\\fP \\fIN\\fP] \\fIFILE\\fP", page)
        self.assertEqual(man.filled(page, self.top), page)

    def test_what_is_by_hand_stays(self) -> None:
        self.assertTrue(man.filled(f"before\n{PAGE}after\n", self.top).startswith("before\n"))


if __name__ == "__main__":
    unittest.main()
