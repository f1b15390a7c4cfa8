"""What is amiss in a settings file, as the program tells it."""

from __future__ import annotations

import json
import os
import shlex
import sys
import warnings
from pathlib import Path
from typing import Any, Optional
from unittest import mock

import bulkhead
from support import SETTINGS, Case, needs_program

AMISS = """service.groups = ["payment"]
hystirx.command.payment.fallback.enabled = false

[hystrix.threadpool.payment]
coreSize = 100
"""

UNKNOWN = {
    "severity": "warning",
    "line": 2,
    "column": 1,
    "message": "nothing looks up `hystirx` in the file",
    "nearest": "hystrix",
    "range": None,
}


def too_large(stands: str, fault: str = "7 out of range", bounds: Optional[list[int]] = None) -> dict[str, Any]:
    """An error of a value, as the program tells it."""
    message = f"{fault}: payment coreSize is {stands}, not a whole number from 1 to 64"
    return {"severity": "error", "line": 5, "column": 1, "message": message, "nearest": None, "range": bounds or [1, 64]}


class LintCase(Case):
    def file(self, text: str) -> Path:
        path = self.folder() / "settings.toml"
        path.write_text(text)
        return path

    def program(self, *told: Any, status: int = 0) -> mock._patch_dict:
        """A program that finds these, whatever it is asked."""
        program = self.folder() / "program"
        lines = "\n".join(json.dumps(one) for one in told)
        program.write_text(f"#!/bin/sh\ncat >/dev/null\nprintf '%s\\n' {shlex.quote(lines)}\nexit {status}\n")
        program.chmod(0o755)
        return mock.patch.dict(os.environ, {"BULKHEAD_PROGRAM": str(program)})


class Lint(LintCase):

    @needs_program
    def test_errors_and_warnings_are_told_with_their_places(self) -> None:
        error, warning = bulkhead.lint(self.file(AMISS))
        self.assertEqual((error.severity, error.line, error.column, error.range), ("error", 5, 1, (1, 64)))
        self.assertIn("payment coreSize is 100", error.message)
        self.assertEqual((warning.severity, warning.line, warning.nearest), ("warning", 2, "hystrix"))
        self.assertIsNone(warning.range)

    @needs_program
    def test_the_first_error_is_why_the_settings_are_refused(self) -> None:
        with self.assertRaises(bulkhead.Refused) as refused:
            bulkhead.open(text=AMISS)
        self.assertIn("7 out of range: payment coreSize", str(refused.exception))
        self.assertTrue(bulkhead.lint(self.file(AMISS))[0].message.startswith("7 out of range: payment coreSize"))

    @needs_program
    def test_settings_with_nothing_amiss_have_no_findings(self) -> None:
        self.assertEqual(bulkhead.lint(str(self.file('service.groups = ["payment"]\n'))), [])

    def test_a_file_that_is_not_there_is_told_as_by_open(self) -> None:
        with self.assertRaises(FileNotFoundError):
            bulkhead.lint("nowhere.toml")

    def test_without_the_program_it_is_said_what_is_wanted(self) -> None:
        path = self.file(SETTINGS)
        with mock.patch.dict(os.environ, {"BULKHEAD_PROGRAM": "", "PATH": "/nowhere"}):
            with self.assertRaisesRegex(bulkhead.Error, "lint wants the program bulkhead"):
                bulkhead.lint(path)
        for program in ("/nowhere/bulkhead", str(path)):
            with mock.patch.dict(os.environ, {"BULKHEAD_PROGRAM": program}):
                with self.assertRaisesRegex(bulkhead.Error, "cannot be asked"):
                    bulkhead.lint(path)

    def test_a_program_that_tells_nothing_is_told_on(self) -> None:
        program, path = self.folder() / "program", self.file(SETTINGS)
        program.write_text("#!/bin/sh\necho no such thing >&2\nexit 2\n")
        program.chmod(0o755)
        with mock.patch.dict(os.environ, {"BULKHEAD_PROGRAM": str(program)}):
            with self.assertRaisesRegex(bulkhead.Error, "ended with status 2: no such thing$"):
                bulkhead.lint(path)

    def test_what_is_no_finding_is_told_on(self) -> None:
        for told in ("[]", {"message": "x"}, {**UNKNOWN, "line": "two"}, {**UNKNOWN, "range": 7}, [1]):
            with self.program(told), self.assertRaisesRegex(bulkhead.Error, "told what is no finding", msg=repr(told)):
                bulkhead.lint(self.file(SETTINGS))


class Refusals(LintCase):
    def refused(self, text: str = AMISS) -> bulkhead.Refused:
        with self.assertRaises(bulkhead.Refused) as refused:
            bulkhead.open(text=text)
        return refused.exception

    def assert_says_no_more(self, error: bulkhead.Refused) -> None:
        self.assertEqual(str(error), "settings refused: 7 out of range: payment coreSize")
        self.assertEqual((error.line, error.value, error.range), (None, None, None))

    @needs_program
    def test_a_refused_value_has_its_line_its_value_and_its_range(self) -> None:
        error = self.refused()
        self.assertEqual((error.line, error.value, error.range), (5, 100, (1, 64)))
        said = "settings refused: 7 out of range: payment coreSize is 100, not a whole number from 1 to 64 (line 5)"
        self.assertEqual(str(error), said)

    @needs_program
    def test_values_are_told_by_their_type(self) -> None:
        for given, value, bounds in (("-1", -1, (1, 64)), ("true", True, (1, 64)), ('"ten"', "ten", (1, 64)), ("1.5", None, (1, 64))):
            error = self.refused(f'service.groups = ["a"]\nhystrix.threadpool.a.coreSize = {given}\n')
            self.assertEqual((error.line, error.value, error.range), (2, value, bounds), given)
        error = self.refused('service.groups = ["a"]\nhystrix.command.a.fallback.enabled = 1\n')
        self.assertEqual((error.line, error.value, error.range), (2, 1, None))

    @needs_program
    def test_a_refusal_that_is_of_no_value_has_its_line_alone(self) -> None:
        for text, line in (('\nservice.groups = ["a", "a"]\n', 2), ('service.groups = ["a"]\n\n= =\n', 3)):
            error = self.refused(text)
            self.assertEqual((error.line, error.value, error.range), (line, None, None))

    def test_the_first_error_says_more_of_a_refusal(self) -> None:
        for stands, value in (("100", 100), ("-3", -3), ("`no`, not so`", "no`, not so"), ("false", False), ("a list", None)):
            with self.program(too_large(stands), UNKNOWN, status=1):
                error = self.refused()
            self.assertEqual((error.line, error.value, error.range), (5, value, (1, 64)), stands)
            self.assertIn(f"payment coreSize is {stands}, not", str(error))

    def test_what_another_version_finds_says_no_more(self) -> None:
        for told in (too_large("100", "8 out of range"), UNKNOWN, {}, {"file": "x", "more": 3}):
            with self.program(told, status=1):
                self.assert_says_no_more(self.refused())
        with self.program(status=2):
            self.assert_says_no_more(self.refused())

    def test_without_the_program_the_text_is_that_of_the_library(self) -> None:
        with mock.patch.dict(os.environ, {"BULKHEAD_PROGRAM": "", "PATH": "/nowhere"}):
            self.assert_says_no_more(self.refused())

    def test_a_value_that_may_not_be_tuned_is_told_with_its_range(self) -> None:
        service = self.open()
        for value, bounds, named in (
            (65, (1, 64), "coreSize"),
            (1 << 32, (0, (1 << 32) - 1), "queueSizeRejectionThreshold"),
            (3, None, "fallback.enabled"),
        ):
            with self.assertRaises(bulkhead.Refused) as refused:
                service.tune("pool", properties={named: value})
            self.assertEqual((refused.exception.value, refused.exception.range), (value, bounds), named)
        with self.assertRaises(bulkhead.Refused) as refused:
            service.tune("pool", properties={"maxQueueSize": 3})
        self.assertEqual((refused.exception.value, refused.exception.range, refused.exception.line), (None, None, None))


class Warnings(LintCase):
    def warned(self, text: str = SETTINGS) -> list[tuple[str, type[Warning]]]:
        with warnings.catch_warnings(record=True) as seen:
            warnings.simplefilter("always")
            bulkhead.open(text=text).close()
        self.assertEqual({one.filename for one in seen} - {__file__}, set(), "it is told of this place")
        return [(str(one.message), one.category) for one in seen]

    @needs_program
    def test_a_misspelt_name_is_warned_of(self) -> None:
        ((text, category),) = self.warned('service.groups = ["a"]\n\nhystirx.command.a.fallback.enabled = false\n')
        said = "line 3 of the settings: nothing looks up `hystirx` in the file; the nearest that is looked up is `hystrix`"
        self.assertEqual((text, category), (said, bulkhead.UnknownNameWarning))

    @needs_program
    def test_other_warnings_of_the_lint_are_not_told(self) -> None:
        self.assertEqual(self.warned('service.groups = ["a"]\nhystrix.command.a.circuitBreaker.errorThresholdPercentage = 200\n'), [])

    def test_names_are_told_with_the_nearest_and_at_most_twenty(self) -> None:
        with self.program(UNKNOWN):
            self.assertEqual([category for _, category in self.warned()], [bulkhead.UnknownNameWarning])
        with self.program({**UNKNOWN, "nearest": None}):
            self.assertEqual([text for text, _ in self.warned()], ["line 2 of the settings: nothing looks up `hystirx` in the file"])
        with self.program(*[UNKNOWN] * 25, too_large("1")):
            told = [text for text, _ in self.warned()]
            self.assertEqual((len(told), told[-1]), (21, "nothing looks up 5 names more"))

    def test_no_program_no_warning(self) -> None:
        with mock.patch.dict(os.environ, {"BULKHEAD_PROGRAM": "/nowhere/bulkhead"}):
            self.assertEqual(self.warned(), [])
        with self.program(UNKNOWN, status=2):
            self.assertEqual(self.warned(), [])

    def test_a_warning_that_is_switched_off_asks_no_program(self) -> None:
        asked = self.folder() / "asked"
        program = self.folder() / "program"
        program.write_text(f"#!/bin/sh\n: >{shlex.quote(str(asked))}\n")
        program.chmod(0o755)
        with mock.patch.dict(os.environ, {"BULKHEAD_PROGRAM": str(program)}):
            for category in (bulkhead.UnknownNameWarning, bulkhead.SettingsWarning, Warning):
                with warnings.catch_warnings():
                    warnings.simplefilter("ignore", category)
                    bulkhead.open(text=SETTINGS).close()
            self.assertFalse(asked.exists())
            with warnings.catch_warnings():
                warnings.filterwarnings("ignore", "another text", bulkhead.UnknownNameWarning)
                bulkhead.open(text=SETTINGS).close()
            self.assertTrue(asked.exists())

    def test_a_warning_that_is_an_error_leaves_no_service_open(self) -> None:
        before = self.threads()
        with self.program(UNKNOWN), warnings.catch_warnings():
            warnings.simplefilter("error", bulkhead.UnknownNameWarning)
            with self.assertRaises(bulkhead.UnknownNameWarning):
                bulkhead.open(text=SETTINGS)
        self.until(lambda: self.threads() == before)

    def threads(self) -> int:
        return len(sys._current_frames())
