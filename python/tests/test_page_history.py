"""The history of a page: columns that add up, whatever comes in between."""

from __future__ import annotations

import json
import unittest
from typing import Any

from bulkhead import _words as words
from bulkhead.metrics import RUN_BOUNDS, Health
from bulkhead.page._history import KEPT, Columns, CommandPast
from bulkhead.page._state import state_json
from bulkhead.page._watch import Watch
from page_support import PageCase
from played import World


def told(watch: Watch, since: int = 0) -> Any:
    """What the page is told."""
    return json.loads(state_json(watch, since, "shop"))


def past_of(watch: Watch, name: str) -> CommandPast:
    """What is kept of a command."""
    return next(one for group in watch.groups for one in group.commands if one.look.name == name)


class Kept(unittest.TestCase):
    def test_columns_are_those_of_the_last_five_minutes(self) -> None:
        columns = Columns(0)
        for number in range(1000):
            columns.put(number, {"SUCCESS": number, "TIMEOUT": number == 500})
        self.assertEqual(columns.since(0), {"SUCCESS": [*range(700, 1000)]})
        self.assertEqual(columns.since(998), {"SUCCESS": [998, 999]})
        self.assertEqual(columns.since(1000), {})
        self.assertEqual((columns.sum("SUCCESS", 2), columns.most("SUCCESS", 10), columns.sum("TIMEOUT", KEPT)), (1997, 999, 0))

    def test_columns_that_nobody_looked_at_are_empty(self) -> None:
        columns = Columns(0)
        columns.put(0, {"busy": 3})
        columns.put(4, {"busy": 5})
        self.assertEqual(columns.since(0), {"busy": [3, 0, 0, 0, 5]})
        columns.put(1000, {"busy": 7})
        self.assertEqual(columns.since(0), {"busy": [0] * 299 + [7]})

    def test_the_bounds_of_run_times_are_two_to_a_doubling(self) -> None:
        self.assertEqual((RUN_BOUNDS[0], RUN_BOUNDS[-1]), (1, 3_600_000))
        self.assertEqual(RUN_BOUNDS[:9], (1, 2, 3, 4, 6, 8, 11, 16, 23))
        for lower, upper in zip(RUN_BOUNDS[7:-1], RUN_BOUNDS[8:]):
            self.assertLess(upper / lower, 1.45)


class Watched(PageCase):
    def test_the_columns_of_a_command_sum_to_differences_of_its_totals(self) -> None:
        world, watch = self.watched(upto=70)
        for name in ("catalog", "payment", "refund", "search"):
            past, totals = past_of(watch, name), world.command(name).counters.counted().totals()
            sums = {kind: sum(numbers) for kind, numbers in past.columns.since(0).items()}
            for kind, total in zip(words.EVENTS, totals):
                self.assertEqual(sums.get(kind.upper(), 0), total, (name, kind))
            self.assertEqual(sums.get("opened", 0), world.command(name).circuit.trips)
        self.assertGreater(world.command("payment").circuit.trips, 1)

    def test_what_came_before_the_first_look_is_in_no_column(self) -> None:
        world = World()
        world.advance(30_000)
        watch = Watch(world, is_ticking=False)
        self.play(world, watch, 35)
        before = told(watch)
        self.assertEqual((before["columns"]["first"], before["columns"]["next"], before["now"]), (0, 5, 5000))
        catalog = before["groups"][0]["commands"][0]
        self.assertLess(sum(catalog["columns"]["SUCCESS"]), world.command("catalog").counters.counted().totals()[10] / 4)

    def test_two_looks_within_a_second_make_one_column(self) -> None:
        world, watch = self.watched(upto=3)
        before = told(watch)
        world.advance(3400)
        watch.look(), watch.look()
        self.assertEqual(told(watch), before)

    def test_columns_are_told_from_a_number_on_and_settings_with_the_first_alone(self) -> None:
        _, watch = self.watched(upto=20)
        later = told(watch, 18)
        self.assertEqual((later["columns"]["first"], later["columns"]["next"]), (18, 20))
        command = later["groups"][0]["commands"][0]
        self.assertNotIn("settings", command)
        self.assertEqual({len(numbers) for kind, numbers in command["columns"].items() if kind != "circuit"}, {2})
        beyond = told(watch, 999)["columns"]
        self.assertEqual((beyond["first"], beyond["next"]), (20, 20))
        self.assertEqual(told(watch)["groups"][3 - 1]["commands"][0]["settings"]["semaphore"], 5)

    def test_a_look_that_comes_late_leaves_holes(self) -> None:
        world, watch = self.watched(upto=3)
        world.advance(7_200)
        watch.look()
        columns = told(watch)["columns"]
        self.assertEqual((columns["holes"], columns["next"]), ([3, 4, 5], 7))
        total = world.command("catalog").counters.counted().totals()[10]
        self.assertEqual(sum(past_of(watch, "catalog").columns.since(0)["SUCCESS"]), total)

    def test_a_group_that_comes_later_has_no_columns_before(self) -> None:
        world, watch = self.watched(upto=10)
        other = World(5, seed=9)
        other.advance(3000)
        world.groups.append(other.groups[-1])
        self.play(world, watch, 12)
        group = told(watch)["groups"][-1]
        self.assertEqual((group["name"], group["born"]), ("ledger", 10))
        self.assertEqual(len(group["commands"][0]["columns"]["SUCCESS"]), 2)
        gone = world.groups.pop(0).name
        self.play(world, watch, 13)
        self.assertNotIn(gone, [group["name"] for group in told(watch)["groups"]])

    def test_a_name_that_is_registered_again_begins_at_nothing(self) -> None:
        world, watch = self.watched(upto=10)
        fresh = World(4, seed=3)
        world.groups[0] = fresh.groups[0]
        self.play(world, watch, 11)
        past = past_of(watch, "catalog")
        self.assertEqual((past.columns.born, past.columns.sum("SUCCESS", KEPT)), (10, 0))

    def test_settings_that_change_are_told_by_a_number(self) -> None:
        world, watch = self.watched(upto=5)
        self.assertEqual(told(watch)["tuned"], 0)
        world.groups[0].tune(world.command("catalog"), circuitBreaker_forceOpen="true")
        self.play(world, watch, 7)
        state = told(watch)
        self.assertEqual(state["tuned"], 1)
        catalog = state["groups"][0]["commands"][0]
        self.assertEqual((catalog["circuit"], catalog["settings"]["force_open"]), ("forced-open", True))
        self.assertEqual(catalog["columns"]["circuit"], [["closed", 5], ["forced-open", 2]])

    def test_a_restart_is_another_run_that_counts_from_nothing(self) -> None:
        _, before = self.watched(upto=58)
        _, after = self.watched(upto=3, seed=8)
        self.assertNotEqual(told(before)["run"], told(after)["run"])
        self.assertEqual(told(after)["columns"]["next"], 3)
        for group in told(after)["groups"]:
            for command in group["commands"]:
                for numbers in (numbers for kind, numbers in command["columns"].items() if kind != "circuit"):
                    self.assertTrue(all(number >= 0 for number in numbers))

    def test_health_is_that_of_the_window_since_the_circuit_closed(self) -> None:
        world, watch = self.watched(upto=30)
        past = past_of(watch, "catalog")
        wanted = world.command("catalog").health(world.moment)
        self.assertLess(abs(past.health().total - wanted[1]), 15)
        self.play(world, watch, 58)
        self.assertGreater(past_of(watch, "payment").health().percent, 90)
        closed_at = world.command("payment").circuit.since
        second = 58
        while world.command("payment").circuit.state or world.command("payment").circuit.since == closed_at:
            second += 1
            self.play(world, watch, second)
        self.assertLess(past_of(watch, "payment").health().errors, 3)
        self.assertLess(past_of(watch, "payment").health().total, 12)

    def test_health_of_no_run_has_no_errors(self) -> None:
        self.assertEqual((Health().percent, Health(1, 3).percent, Health(2, 3).percent), (0, 33, 66))

    def test_run_times_are_those_of_the_last_minute(self) -> None:
        world, watch = self.watched(upto=30)
        latency = past_of(watch, "catalog").latency(("0", "50", "100"))
        self.assertIn(latency.percentiles["0"], (32, 45))
        self.assertLessEqual(latency.percentiles["50"], 64)
        self.assertIn(latency.percentiles["100"], (64, 91))
        self.assertTrue(30 <= latency.mean <= 80, latency)
        for group in world.groups:
            for command in group.commands:
                command.behaviour.rate = 1e-9
        self.play(world, watch, 120)
        quiet = past_of(watch, "catalog").latency(("50",))
        self.assertEqual((quiet.mean, quiet.percentiles), (0, {"50": 0}))

    def test_a_look_that_fails_leaves_what_is_told(self) -> None:
        world, watch = self.watched(upto=5)
        before = told(watch)
        world.is_open = False
        self.play(world, watch, 9)
        self.assertEqual(told(watch), before)
        self.assertEqual(watch.age(), 4000)
