"""New settings for a service that is open."""

from __future__ import annotations

import json
import os
import warnings
from pathlib import Path
from typing import Any
from unittest import mock

import bulkhead
from share_support import ShareCase
from support import SETTINGS, Case, Gate, needs_program, replayed

TIMEOUT = "execution.isolation.thread.timeoutInMilliseconds"
PERMITS = "execution.isolation.semaphore.maxConcurrentRequests"


def with_lines(*lines: str, of: str = SETTINGS) -> str:
    """The settings with further lines in front."""
    return "\n".join((*lines, of))


def pool_with(**values: object) -> str:
    """The settings with other numbers of all pools."""
    text = SETTINGS
    for name, value in values.items():
        text = "".join(f"{name} = {value}\n" if line.startswith(f"{name} =") else f"{line}\n" for line in text.splitlines())
    return text


def fallen(*_: Any, cause: bulkhead.CommandError) -> str:
    """A fallback that names its cause."""
    return type(cause).__name__


class ReloadCase(Case):
    def reloaded(self, service: bulkhead.CommandService, text: str) -> list[str]:
        """What a reload changes, as texts."""
        return [str(change) for change in self.reload(service, text)]

    def reload(self, service: bulkhead.CommandService, text: str) -> list[bulkhead.Tuning]:
        with warnings.catch_warnings():
            warnings.simplefilter("ignore", bulkhead.SettingsWarning)
            return service.reload(text=text)

    def refused(self, service: bulkhead.CommandService, text: str) -> tuple[str, ...]:
        """What cannot change, where nothing was changed."""
        before = [group.settings for group in service.turns.groups.values()]
        moments = [group.latest for group in service.turns.groups.values()]
        with self.assertRaises(bulkhead.NotTunable) as refused:
            self.reload(service, text)
        for each in refused.exception.properties[:20]:
            self.assertIn(each, str(refused.exception))
        self.assertEqual([group.settings for group in service.turns.groups.values()], before)
        self.assertEqual([group.latest for group in service.turns.groups.values()], moments, "no step is made")
        return refused.exception.properties


class Reload(ReloadCase):
    def test_equal_settings_change_nothing(self) -> None:
        service, _ = self.by_hand()
        self.assertEqual(self.reload(service, SETTINGS), [])
        self.assertEqual(self.reload(service, f"# another text\n{SETTINGS}\nhystrix.more = 1\n"), [])
        self.assertFalse(service.turns.has_stepped())

    def test_what_differs_is_tuned_and_told(self) -> None:
        service, _ = self.by_hand()
        call = service.command("permits", fallback=fallen)(lambda: 7)
        text = with_lines("hystrix.command.permits.circuitBreaker.forceOpen = true", of=pool_with(coreSize=3))
        self.assertEqual(
            self.reload(service, text),
            [
                bulkhead.Tuning("pool", "pool", "coreSize", 2, 3),
                bulkhead.Tuning("permits", "permits", "circuitBreaker.forceOpen", False, True),
                bulkhead.Tuning("permits", "permits", "coreSize", 2, 3),
            ],
        )
        self.assertEqual(call(), "ShortCircuited")
        self.assertEqual(self.reload(service, text), [])
        self.assertEqual(
            self.reloaded(service, SETTINGS),
            ["pool coreSize 3 -> 2", "permits circuitBreaker.forceOpen true -> false", "permits coreSize 3 -> 2"],
        )
        self.assertEqual(call(), 7)

    def test_each_property_that_may_change_is_brought_to_its_new_value(self) -> None:
        from bulkhead._tuning import TUNABLE

        service, _ = self.by_hand()
        pools = ("coreSize", "queueSizeRejectionThreshold")
        lines = [
            f"hystrix.command.{name}.{each} = {'true' if each.startswith('circuitBreaker.force') else 'false' if bounds is None else 7}"
            for name in ("pool", "more")
            for each, bounds in TUNABLE.items()
            if each not in pools
        ]
        lines += [f"hystrix.threadpool.pool.{each} = 7" for each in pools]
        lines += ["hystrix.threadpool.pool.maxQueueSize = 2"]
        changes = self.reload(service, with_lines(*lines))
        self.assertEqual({change.property for change in changes if change.command == "pool"}, {*TUNABLE})
        self.assertEqual({change.property for change in changes if change.command == "more"}, {*TUNABLE} - {*pools})
        self.assertEqual({change.group for change in changes}, {"pool"})
        self.assertEqual(self.reload(service, with_lines(*lines)), [])
        self.assertEqual(len(self.reload(service, SETTINGS)), len(changes))

    def test_a_further_command_is_tuned_by_its_name(self) -> None:
        service, _ = self.by_hand()
        call = service.command("more", fallback=fallen)(lambda: 7)
        own = service.command("pool", fallback=fallen)(lambda: 8)
        changed = self.reloaded(service, with_lines("hystrix.command.more.circuitBreaker.forceOpen = true"))
        self.assertEqual(changed, ["pool more circuitBreaker.forceOpen false -> true"])
        self.assertEqual((call(), own()), ("ShortCircuited", 8))

    def test_what_a_tune_changed_is_that_of_the_settings_again(self) -> None:
        service, _ = self.by_hand()
        service.tune("permits", circuitBreaker_forceOpen=True)
        self.assertEqual(self.reloaded(service, SETTINGS), ["permits circuitBreaker.forceOpen true -> false"])

    def test_a_pool_that_grows_takes_what_waits_at_once(self) -> None:
        service, gate = self.open(), Gate()
        call = service.command("pool")(gate)
        futures = [call.queue(number) for number in range(4)]
        gate.wait(2)
        self.reload(service, pool_with(coreSize=4))
        gate.wait(2)
        gate.open()
        self.assertEqual([future.result(5) for future in futures], [0, 1, 2, 3])
        self.assert_idle(service)

    def test_a_timeout_that_shrinks_ends_what_is_under_way(self) -> None:
        service, hand = self.by_hand()
        gate = Gate()
        future = service.command("pool", fallback=fallen)(gate).queue()
        gate.wait()
        hand.now = 300
        self.reload(service, with_lines(f"hystrix.command.pool.{TIMEOUT} = 300"))
        self.assertEqual((service.expire(), future.result(5)), (1, "TimedOut"))
        gate.open()
        self.assert_idle(service)

    def test_a_file_is_read_by_its_path(self) -> None:
        service, path = self.open(), self.folder() / "settings.toml"
        path.write_text(pool_with(coreSize=5))
        with warnings.catch_warnings():
            warnings.simplefilter("ignore")
            self.assertEqual([change.after for change in service.reload(path)], [5, 5])
            self.assertEqual(service.reload(str(path)), [])

    @needs_program
    def test_a_record_with_reloads_replays(self) -> None:
        folder, service = self.folder(), self.open()
        record = service.record(folder / "record.jsonl", replies=folder / "replies.jsonl")
        call = service.command("permits", fallback=fallen)(lambda: 7)
        call()
        self.reload(service, with_lines("hystrix.command.permits.circuitBreaker.forceOpen = true"))
        service.register("tenant-7", like="permits")
        told = call(), call.of("tenant-7")()
        service.close()
        self.assertEqual(told, ("ShortCircuited", "ShortCircuited"))
        self.assertTrue(record.is_whole)
        lines = (folder / "record.jsonl").read_bytes()
        self.assertEqual([json.loads(line)["op"] for line in lines.splitlines()].count("tune"), 2)
        self.assertEqual(replayed(folder / "record.toml", lines), (folder / "replies.jsonl").read_bytes())


class Registered(ReloadCase):
    def test_groups_like_a_listed_one_get_its_changes(self) -> None:
        service, _ = self.by_hand()
        call = service.command("permits", fallback=fallen)(lambda: 7)
        service.register("tenant-7", like="permits")
        service.register("tenant-8", like="pool")
        changed = self.reloaded(service, with_lines("hystrix.command.permits.circuitBreaker.forceOpen = true"))
        forced = "circuitBreaker.forceOpen false -> true"
        self.assertEqual(changed, [f"permits {forced}", f"tenant-7 {forced}"])
        self.assertEqual((call(), call.of("tenant-7")()), ("ShortCircuited", "ShortCircuited"))

    def test_their_further_commands_do_too(self) -> None:
        service, _ = self.by_hand()
        call = service.command("more", fallback=fallen)(lambda: 7)
        service.register("tenant-7", like="pool")
        changed = self.reloaded(service, with_lines("hystrix.command.more.circuitBreaker.forceOpen = true"))
        self.assertEqual(changed[1], "tenant-7 more circuitBreaker.forceOpen false -> true")
        self.assertEqual(call.of("tenant-7")(), "ShortCircuited")

    def test_one_that_is_registered_behind_a_reload_has_the_new_settings(self) -> None:
        service, _ = self.by_hand()
        call = service.command("permits", fallback=fallen)(lambda: 7)
        self.reload(service, with_lines("hystrix.command.permits.circuitBreaker.forceOpen = true"))
        service.tune("permits", circuitBreaker_forceOpen=False)
        service.register("tenant-7", like="permits")
        self.assertEqual((call(), call.of("tenant-7")()), (7, "ShortCircuited"))
        self.assertEqual(len(self.reload(service, SETTINGS)), 1)
        service.register("tenant-8", like="permits")
        self.assertEqual((call.of("tenant-7")(), call.of("tenant-8")()), (7, 7))

    def test_a_retired_group_is_passed_over_and_a_like_group_is_not(self) -> None:
        service, _ = self.by_hand()
        service.register("tenant-7", like="permits")
        self.assertTrue(service.retire("permits"))
        changed = self.reloaded(service, with_lines("hystrix.command.permits.circuitBreaker.forceOpen = true"))
        self.assertEqual(changed, ["tenant-7 circuitBreaker.forceOpen false -> true"])

    def test_a_worn_group_is_passed_over(self) -> None:
        service = self.open("service.auditSteps = 1\n" + SETTINGS)
        service.totals("pool")
        changes = self.reload(service, "service.auditSteps = 1\n" + pool_with(coreSize=3))
        self.assertEqual([change.group for change in changes], ["pool", "permits"])
        with self.assertRaises(bulkhead.Worn):
            service.totals("pool")
        self.assertEqual(self.reload(service, "service.auditSteps = 1\n" + pool_with(coreSize=3)), [])

    def test_a_forked_process_has_what_was_reloaded(self) -> None:
        service = self.open()
        call = service.command("permits", fallback=fallen)(lambda: 7)
        service.register("tenant-7", like="permits")
        self.reload(service, with_lines("hystrix.command.permits.circuitBreaker.forceOpen = true"))
        self.assertEqual(self.in_child(lambda: [call(), call.of("tenant-7")()]), ["ShortCircuited"] * 2)
        text = SETTINGS
        self.assertEqual(self.in_child(lambda: [str(one) for one in self.reload(service, text)]), [
            "permits circuitBreaker.forceOpen true -> false", "tenant-7 circuitBreaker.forceOpen true -> false"
        ])

    def in_child(self, function: Any) -> Any:
        """What a function gives in a forked process."""
        reads, writes = os.pipe()
        child = os.fork()
        if child == 0:
            try:
                os.write(writes, json.dumps(function()).encode())
            finally:
                os._exit(0)
        os.close(writes)
        with os.fdopen(reads, "rb") as told:
            answer = told.read()
        os.waitpid(child, 0)
        return json.loads(answer)


class NotTunable(ReloadCase):
    def test_each_property_that_cannot_change_is_named_and_nothing_is_changed(self) -> None:
        service, _ = self.by_hand()
        lines = (
            "service.slots.pool = 7",
            "hystrix.command.pool.metrics.rollingStats.numBuckets = 5",
            "hystrix.command.more.metrics.rollingStats.timeInMilliseconds = 5000",
            'hystrix.command.pool.execution.isolation.strategy = "SEMAPHORE"',
            "hystrix.command.permits.circuitBreaker.forceOpen = true",
        )
        self.assertEqual(
            self.refused(service, with_lines(*lines, of=pool_with(maxQueueSize=9))),
            (
                "pool service.slots",
                "pool execution.isolation.strategy",
                "pool metrics.rollingStats.numBuckets",
                "pool maxQueueSize",
                "more metrics.rollingStats.timeInMilliseconds",
                "permits maxQueueSize",
            ),
        )
        self.assertEqual(service.command("permits")(lambda: 7)(), 7)

    def test_groups_and_commands_are_those_that_were_opened(self) -> None:
        service, _ = self.by_hand()
        more = SETTINGS.replace('["pool", "permits"]', '["pool", "permits", "third"]')
        self.assertEqual(self.refused(service, more), ("service.groups",))
        less = SETTINGS.replace('["pool", "permits"]', '["pool"]')
        self.assertEqual(self.refused(service, less), ("service.groups",))
        other = SETTINGS.replace("command.more.group", "command.other.group")
        self.assertEqual(self.refused(service, other), ("pool service.command",))
        moved = SETTINGS.replace('more.group = "pool"', 'more.group = "permits"')
        self.assertEqual(self.refused(service, moved), ("pool service.command", "permits service.command"))
        self.assertEqual(self.reload(service, SETTINGS.replace('["pool", "permits"]', '["permits", "pool"]')), [])

    def test_a_registered_group_is_none_of_the_settings(self) -> None:
        service, _ = self.by_hand()
        service.register("tenant-7", like="pool")
        named = SETTINGS.replace('["pool", "permits"]', '["pool", "permits", "tenant-7"]')
        self.assertEqual(self.refused(service, named), ("service.groups",))
        self.assertEqual(self.refused(service, pool_with(maxQueueSize=9)), ("pool maxQueueSize", "permits maxQueueSize"))

    def test_of_many_properties_twenty_are_in_the_text(self) -> None:
        names = [f"group-{number:02}" for number in range(30)]
        text = f"service.groups = {json.dumps(names)}\n"
        service, _ = self.by_hand(text)
        with self.assertRaisesRegex(bulkhead.NotTunable, "group-19 service.slots and 10 more$") as refused:
            self.reload(service, text + "service.slots.default = 9\n")
        self.assertEqual(refused.exception.properties, tuple(f"{name} service.slots" for name in names))

    def test_steps_of_an_audit_cannot_change(self) -> None:
        service, _ = self.by_hand()
        fixed = ("pool service.auditSteps", "permits service.auditSteps")
        self.assertEqual(self.refused(service, with_lines("service.auditSteps = 7")), fixed)


class WrongInput(ReloadCase):
    def test_refused_settings_change_nothing(self) -> None:
        service, _ = self.by_hand()
        for text in ("", "= =", pool_with(coreSize=65), pool_with(coreSize='"two"'), "service.groups = []"):
            with self.assertRaisesRegex(bulkhead.Refused, "^settings refused: ") as refused:
                self.reload(service, text)
            self.assertNotIsInstance(refused.exception, bulkhead.NotTunable)
        with self.assertRaisesRegex(bulkhead.Refused, "^settings refused: "):
            service.reload(text=b"\xff")
        self.assertFalse(service.turns.has_stepped())
        self.assertEqual(self.reload(service, SETTINGS), [])

    def test_what_is_given_is_a_path_or_a_text(self) -> None:
        service = self.open()
        for path, text in ((None, None), ("settings.toml", SETTINGS), (7, None), (None, 7)):
            with self.assertRaises(bulkhead.Error):
                service.reload(path, text=text)  # type: ignore[arg-type]
        with self.assertRaises(FileNotFoundError):
            service.reload(Path("nowhere.toml"))
        with self.assertRaises(IsADirectoryError):
            service.reload(self.folder())

    def test_a_closed_service_is_told(self) -> None:
        service = self.open()
        service.close()
        with self.assertRaises(bulkhead.Stopped):
            self.reload(service, SETTINGS)

    def test_a_clock_that_gives_no_moment_changes_nothing(self) -> None:
        service, hand = self.by_hand()
        hand.now = "noon"  # type: ignore[assignment]
        with self.assertRaises(bulkhead.BadStep):
            self.reload(service, pool_with(coreSize=3))
        hand.now = 0
        self.assertEqual(len(self.reload(service, pool_with(coreSize=3))), 2)

    def test_a_warning_that_is_an_error_changes_nothing(self) -> None:
        service, _ = self.by_hand()
        with warnings.catch_warnings():
            warnings.simplefilter("error", bulkhead.SettingsWarning)
            with self.assertRaisesRegex(bulkhead.SettingsWarning, "permits has 65 permits"):
                service.reload(text=SETTINGS.replace("maxConcurrentRequests = 2", "maxConcurrentRequests = 65"))
        self.assertEqual(self.reload(service, SETTINGS), [])

    def test_an_exception_in_the_midst_changes_all_the_same(self) -> None:
        service, _ = self.by_hand()
        changes, broken = len(self.reload(service, pool_with(coreSize=3))), [KeyboardInterrupt()]
        line_into = service.turns.opened.line_into

        def breaking(*given: Any) -> None:
            line_into(*given)
            if broken:
                raise broken.pop()

        with mock.patch.object(service.turns.opened, "line_into", breaking), self.assertRaises(KeyboardInterrupt):
            self.reload(service, SETTINGS)
        self.assertEqual((changes, self.reload(service, SETTINGS)), (2, []))
        self.assertEqual([group.core_size for group in service.turns.groups.values()], [2, 2])


SHARED = """service.groups = ["catalog"]
service.command.report.group = "catalog"
"""


class SharedReload(ShareCase):
    def test_what_differs_from_what_is_in_force_is_tuned(self) -> None:
        client = self.client()
        text = SHARED + "hystrix.command.report.circuitBreaker.forceOpen = true\nhystrix.threadpool.catalog.coreSize = 7\n"
        changed = [
            bulkhead.Tuning("catalog", "catalog", "coreSize", 10, 7),
            bulkhead.Tuning("catalog", "report", "circuitBreaker.forceOpen", False, True),
        ]
        self.assertEqual(client.reload(text=text), changed)
        self.assertEqual(self.fake.values, {("catalog", "coreSize"): 7, ("report", "circuitBreaker.forceOpen"): True})
        self.assertEqual(client.reload(text=text), [])
        self.assertEqual(self.fake.ops().count("tune"), 2)
        self.assertEqual([str(change) for change in client.reload(text=SHARED)][1], "catalog report circuitBreaker.forceOpen true -> false")

    def test_what_cannot_change_is_named_and_nothing_is_changed(self) -> None:
        client = self.client()
        forced = "hystrix.command.default.circuitBreaker.forceOpen = true\n"
        for lines, named in (
            ("service.slots.catalog = 7\nhystrix.threadpool.catalog.maxQueueSize = 9\n", ("catalog service.slots", "catalog maxQueueSize")),
            ("hystrix.command.report.metrics.rollingStats.numBuckets = 5\n", ("report metrics.rollingStats.numBuckets",)),
            ("service.command.nobody.group = 'catalog'\n", ("catalog service.command",)),
        ):
            with self.assertRaises(bulkhead.NotTunable) as refused:
                client.reload(text=SHARED + forced + lines)
            self.assertEqual(refused.exception.properties, named)
        with self.assertRaises(bulkhead.NotTunable) as refused:
            client.reload(text=SETTINGS)
        self.assertEqual(refused.exception.properties, ("service.groups",))
        self.assertNotIn("tune", self.fake.ops())

    def test_a_service_that_does_not_tell_what_is_in_force_is_told_on(self) -> None:
        client = self.client()
        self.fake.say("properties", {"error": "op"}, {"error": "op"})
        with self.assertRaisesRegex(bulkhead.Error, "does not tell what is in force"):
            client.reload(text=SHARED)
        with self.assertRaisesRegex(bulkhead.Refused, "settings refused: "):
            client.reload(text="= =")
        self.fake.say("tune", {"error": "tune"})
        with self.assertRaisesRegex(bulkhead.Refused, "--tunable"):
            client.reload(text=SHARED + "hystrix.threadpool.catalog.coreSize = 7\n")
        self.fake.down()
        with self.assertRaises(bulkhead.Unreachable):
            client.reload(text=SHARED)
