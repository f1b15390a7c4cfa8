"""Metrics, and their text for Prometheus."""

from __future__ import annotations

import dataclasses
import shutil
import subprocess
import unittest

import bulkhead
from support import SETTINGS, Case


class Metrics(Case):
    def test_metrics_are_frozen(self) -> None:
        metrics = self.open().metrics("pool")
        self.assertEqual((metrics.circuit, metrics.free, metrics.busy), ("closed", 64, 0))
        with self.assertRaises(dataclasses.FrozenInstanceError):
            metrics.busy = 1  # type: ignore[misc]

    def test_a_name_that_no_command_has_is_told(self) -> None:
        service = self.open()
        for name in ("nobody", "pool/nobody", "", "permits/more"):
            with self.assertRaises(bulkhead.NoSuchCommand, msg=name):
                service.metrics(name)

    def test_events_are_those_of_the_calls(self) -> None:
        service = self.open()
        call = service.command("permits", fallback=lambda value, *, cause: 0)(lambda value: 1 // value)
        for value in (1, 0, 1):
            call(value)
        metrics = service.metrics("permits")
        self.assertEqual((metrics.success, metrics.failure, metrics.fallback_success), (2, 1, 1))
        self.assertEqual((metrics.errors, metrics.total, metrics.percent), (1, 3, 33))

    def exposition(self) -> str:
        service, hand = self.by_hand(
            SETTINGS + "\n[hystrix.command.permits.circuitBreaker]\nrequestVolumeThreshold = 3\n"
        )

        def slow(value: int) -> int:
            hand.now += 30
            return 1 // value

        call = service.command("permits", fallback=lambda value, *, cause: 0)(slow)
        for value in (1, 0, 0):
            call(value)
        hand.now = 1000
        call(1)
        service.register("tenant-7", like="pool")
        return service.prometheus()

    def test_the_text_has_gauges_counters_and_a_histogram(self) -> None:
        lines = self.exposition().splitlines()
        labels = 'group="permits",command="permits"'
        for line in (
            "# TYPE bulkhead_circuit_state gauge",
            f'bulkhead_circuit_state{{{labels},state="open"}} 1',
            f'bulkhead_circuit_state{{{labels},state="closed"}} 0',
            'bulkhead_free_slots{group="tenant-7"} 64',
            f'bulkhead_circuit_state{{{labels},state="forced-open"}} 0',
            f"bulkhead_circuit_opened_total{{{labels}}} 1",
            f"bulkhead_permits{{{labels}}} 2",
            'bulkhead_pool_workers{group="tenant-7"} 2',
            f'bulkhead_runs_total{{{labels},end="success"}} 1',
            f'bulkhead_runs_total{{{labels},end="failure"}} 2',
            f'bulkhead_fallbacks_total{{{labels},end="success"}} 3',
            f"bulkhead_errors_total{{{labels}}} 0",
            f'bulkhead_rejections_total{{{labels},reason="short-circuited"}} 1',
            f'bulkhead_run_duration_seconds_bucket{{{labels},le="0.023"}} 0',
            f'bulkhead_run_duration_seconds_bucket{{{labels},le="0.032"}} 3',
            f'bulkhead_run_duration_seconds_bucket{{{labels},le="+Inf"}} 3',
            f"bulkhead_run_duration_seconds_sum{{{labels}}} 0.09",
            f"bulkhead_run_duration_seconds_count{{{labels}}} 3",
        ):
            self.assertIn(line, lines)

    def states(self, service: bulkhead.CommandService, command: str) -> list[str]:
        """The states in which the gauge has the circuit breaker of a command."""
        of = f'bulkhead_circuit_state{{group="permits",command="{command}",state="'
        lines = [line[len(of) :] for line in service.prometheus().splitlines() if line.startswith(of)]
        self.assertEqual(len(lines), 4)
        return [line.partition('"')[0] for line in lines if line.endswith(" 1")]

    def test_a_circuit_that_is_held_open_is_told_as_such(self) -> None:
        further = 'service.command.later.group = "permits"\nhystrix.command.later.circuitBreaker.forceOpen = true\n'
        service = self.open(further + SETTINGS)
        self.assertEqual((self.states(service, "permits"), self.states(service, "later")), (["closed"], ["forced-open"]))
        service.tune("permits", circuitBreaker_forceOpen=True)
        service.tune("permits", "later", circuitBreaker_forceOpen=False)
        self.assertEqual((self.states(service, "permits"), self.states(service, "later")), (["forced-open"], ["closed"]))
        service.tune("permits", circuitBreaker_enabled=False)
        self.assertEqual(self.states(service, "permits"), ["closed"], "a breaker that is switched off holds nothing up")

    @unittest.skipUnless(shutil.which("promtool"), "promtool is not there")
    def test_promtool_finds_nothing_in_the_text(self) -> None:
        checked = subprocess.run(
            ["promtool", "check", "metrics"], input=self.exposition(), capture_output=True, text=True, check=False
        )
        self.assertEqual((checked.returncode, checked.stdout, checked.stderr), (0, "", ""))
