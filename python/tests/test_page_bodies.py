"""What tools read of a page: Prometheus' text, and the events of Hystrix's stream."""

from __future__ import annotations

import json
import re
import shutil
import subprocess
import unittest
from collections import Counter
from typing import Any

from bulkhead.page._endpoints import path, policy
from bulkhead.page._hystrix import stream
from bulkhead.page._state import metrics_text, state_json
from bulkhead.page._watch import Watch
from page_support import PageCase

COMMAND_FIELDS = (
    "type name group currentTime isCircuitBreakerOpen errorPercentage errorCount requestCount rollingCountBadRequests "
    "rollingCountCollapsedRequests rollingCountExceptionsThrown rollingCountFailure rollingCountFallbackFailure "
    "rollingCountFallbackMissing rollingCountFallbackRejection rollingCountFallbackSuccess rollingCountResponsesFromCache "
    "rollingCountSemaphoreRejected rollingCountShortCircuited rollingCountSuccess rollingCountThreadPoolRejected "
    "rollingCountTimeout currentConcurrentExecutionCount latencyExecute_mean latencyExecute latencyTotal_mean latencyTotal "
    "propertyValue_circuitBreakerRequestVolumeThreshold propertyValue_circuitBreakerSleepWindowInMilliseconds "
    "propertyValue_circuitBreakerErrorThresholdPercentage propertyValue_circuitBreakerForceOpen "
    "propertyValue_circuitBreakerForceClosed propertyValue_executionIsolationStrategy "
    "propertyValue_executionIsolationThreadTimeoutInMilliseconds propertyValue_executionIsolationThreadInterruptOnTimeout "
    "propertyValue_executionIsolationSemaphoreMaxConcurrentRequests propertyValue_fallbackIsolationSemaphoreMaxConcurrentRequests "
    "propertyValue_requestCacheEnabled propertyValue_requestLogEnabled "
    "propertyValue_metricsRollingStatisticalWindowInMilliseconds reportingHosts"
).split()
POOL_FIELDS = (
    "type name currentTime currentActiveCount currentCompletedTaskCount currentCorePoolSize currentLargestPoolSize "
    "currentMaximumPoolSize currentPoolSize currentQueueSize currentTaskCount rollingCountThreadsExecuted rollingMaxActiveThreads "
    "propertyValue_queueSizeRejectionThreshold propertyValue_metricsRollingStatisticalWindowInMilliseconds reportingHosts"
).split()
NAMES = (
    "runs_total rejections_total fallbacks_total errors_total joined_total circuit_opened_total group_full_total "
    "run_duration_seconds circuit_state health_error_ratio health_runs busy_runs queued_calls permits pool_workers "
    "pool_queue_limit slots free_slots looked_timestamp_seconds"
).split()


def samples_in(text: str) -> dict[str, float]:
    """Each sample by its name and labels."""
    lines = [line for line in text.splitlines() if not line.startswith("#")]
    return {name: float(value) for name, _, value in (line.rpartition(" ") for line in lines)}


def events_in(body: bytes) -> list[dict[str, Any]]:
    """The events of a stream."""
    return [json.loads(line[6:]) for line in body.decode().splitlines() if line.startswith("data: ")]


class Prometheus(PageCase):
    def text(self, watch: Watch) -> str:
        return metrics_text(watch).decode()

    def test_the_families_are_there(self) -> None:
        _, watch = self.watched(upto=58)
        told = re.findall(r"^# TYPE (\S+) (\S+)$", self.text(watch), re.M)
        self.assertEqual([name for name, _ in told], [*(f"bulkhead_{name}" for name in NAMES), "process_start_time_seconds"])
        self.assertEqual(Counter(kind for _, kind in told), {"counter": 7, "histogram": 1, "gauge": 12})

    @unittest.skipUnless(shutil.which("promtool"), "promtool is not there")
    def test_promtool_finds_nothing_in_the_text(self) -> None:
        _, watch = self.watched(12, upto=58)
        checked = subprocess.run(
            ["promtool", "check", "metrics"], input=self.text(watch), capture_output=True, text=True, check=False
        )
        self.assertEqual((checked.returncode, checked.stdout, checked.stderr), (0, "", ""))

    def test_counters_are_since_the_start_and_never_fall(self) -> None:
        world, watch = self.watched(upto=5)
        before = samples_in(self.text(watch))
        for second in range(6, 80, 3):
            self.play(world, watch, second)
            after = samples_in(self.text(watch))
            for name, value in before.items():
                if re.match(r"bulkhead_\w+(_total|_bucket|_sum|_count)\b", name):
                    self.assertGreaterEqual(after[name], value, name)
            before = after
        totals = world.command("payment").counters.counted().totals()
        labels = 'group="payment",command="payment"'
        self.assertEqual(before[f'bulkhead_runs_total{{{labels},end="success"}}'], totals[10])
        self.assertEqual(before[f"bulkhead_circuit_opened_total{{{labels}}}"], world.command("payment").circuit.trips)

    def test_each_answer_is_in_one_family(self) -> None:
        _, watch = self.watched(upto=200)
        told = samples_in(self.text(watch))
        for at in ('group="catalog",command="catalog"', 'group="payment",command="payment"', 'group="search",command="search"'):
            wrong = sum(told[f'bulkhead_runs_total{{{at},end="{end}"}}'] for end in ("failure", "timeout"))
            refused = sum(value for name, value in told.items() if name.startswith(f"bulkhead_rejections_total{{{at}"))
            fallbacks = sum(told[f'bulkhead_fallbacks_total{{{at},end="{end}"}}'] for end in ("success", "failure", "missing", "rejection"))
            self.assertTrue(0 <= wrong + refused - fallbacks <= 10, (at, wrong, refused, fallbacks))

    def test_one_state_of_a_circuit_is_one(self) -> None:
        world, watch = self.watched(10, upto=58)
        told = samples_in(self.text(watch))
        states: dict[str, list[str]] = {}
        for name, value in told.items():
            found = re.fullmatch(r'bulkhead_circuit_state\{.*command="(.*)",state="(.*)"\}', name)
            if found and value:
                states.setdefault(found[1], []).append(found[2])
        self.assertEqual((states["legacy"], states["catalog"]), (["forced-open"], ["closed"]))
        self.assertTrue(all(len(those) == 1 for those in states.values()))
        self.assertIn(states["payment"][0], ("open", "half-open"))

    def test_a_histogram_counts_each_run_once(self) -> None:
        world, watch = self.watched(upto=58)
        told = samples_in(self.text(watch))
        at = 'bulkhead_run_duration_seconds_bucket{group="payment",command="payment",le='
        buckets = [value for name, value in told.items() if name.startswith(at)]
        self.assertEqual(buckets, sorted(buckets))
        self.assertEqual(buckets[-1], sum(world.command("payment").counters.counted().buckets()))
        bounds = [name[len(at) :] for name in told if name.startswith(at)]
        self.assertEqual((bounds[0], bounds[-2:]), ('"0.001"}', ['"3600"}', '"+Inf"}']))

    def test_labels_are_quoted(self) -> None:
        world, watch = self.watched()
        world.groups[0].name = 'a"b\\c\nd'
        self.play(world, watch, 1)
        self.assertIn('bulkhead_slots{group="a\\"b\\\\c\\nd"} 64\n', self.text(watch))

    def test_the_text_is_made_once_for_each_look(self) -> None:
        world, watch = self.watched(upto=3)
        self.assertIs(metrics_text(watch), metrics_text(watch))
        before = metrics_text(watch)
        self.play(world, watch, 4)
        self.assertNotEqual(metrics_text(watch), before)


class Hystrix(PageCase):
    def test_commands_and_pools_have_each_field(self) -> None:
        _, watch = self.watched(upto=58)
        events = events_in(stream(watch))
        self.assertEqual(Counter(event["type"] for event in events), {"HystrixCommand": 4, "HystrixThreadPool": 2})
        for event in events:
            fields = COMMAND_FIELDS if event["type"] == "HystrixCommand" else POOL_FIELDS
            self.assertEqual([name for name in fields if name not in event], [])

    def test_what_it_tells_is_what_happened(self) -> None:
        world, watch = self.watched(upto=58)
        payment = next(event for event in events_in(stream(watch)) if event["name"] == "payment")
        self.assertTrue(payment["isCircuitBreakerOpen"])
        self.assertEqual(payment["currentTime"], watch.started + 58_000)
        self.assertGreater(payment["rollingCountShortCircuited"], 20)
        self.assertGreater(payment["latencyExecute"]["99"], payment["latencyExecute"]["25"])
        self.assertEqual(payment["propertyValue_executionIsolationThreadTimeoutInMilliseconds"], 800)
        self.assertEqual((payment["latencyTotal_mean"], payment["latencyTotal"]["50"]), (0, 0))
        pool = next(event for event in events_in(stream(watch)) if event["type"] == "HystrixThreadPool" and event["name"] == "payment")
        self.assertEqual((pool["currentCorePoolSize"], pool["currentActiveCount"]), (6, world.groups[1].pool()[0]))

    def test_a_circuit_that_is_held_open_is_told_open(self) -> None:
        world, watch = self.watched(upto=3)
        self.assertFalse(events_in(stream(watch))[0]["isCircuitBreakerOpen"])
        world.groups[0].tune(world.command("catalog"), circuitBreaker_forceOpen="true")
        self.play(world, watch, 4)
        self.assertTrue(events_in(stream(watch))[0]["isCircuitBreakerOpen"])

    def test_it_has_its_reader_ask_again(self) -> None:
        _, watch = self.watched(upto=3)
        body = stream(watch)
        self.assertTrue(body.startswith(b"retry: 1000\n\n") and body.endswith(b"}\n\n"))


class Alerts(unittest.TestCase):
    @unittest.skipUnless(shutil.which("promtool"), "promtool is not there")
    def test_the_alerts_are_rules_and_do_what_their_tests_say(self) -> None:
        folder = path().parents[1] / "examples" / "alerts"
        for words in (("check", "rules", "alerts.yml"), ("test", "rules", "alerts_test.yml")):
            ran = subprocess.run(["promtool", *words], cwd=folder, capture_output=True, text=True, check=False)
            self.assertEqual(ran.returncode, 0, ran.stdout + ran.stderr)


class Names(PageCase):
    def test_a_name_that_would_end_a_script_stands_in_no_page(self) -> None:
        world, watch = self.watched()
        for group, name in zip(world.groups, ("</script><script>alert(1)</script>", "__proto__", "\u202ex")):
            group.name = name
        self.play(world, watch, 1)
        told = json.loads(state_json(watch, 0, ""))
        self.assertEqual([group["name"] for group in told["groups"]], [group.name for group in world.groups])
        self.assertNotIn(b"alert", path().read_bytes())

    def test_the_page_is_one_file_with_nothing_from_elsewhere(self) -> None:
        page = path().read_bytes()
        self.assertLessEqual(len(page), 60_000)
        for word in (b"innerHTML", b"outerHTML", b"insertAdjacentHTML", b"document.write", b"eval(", b" style=", b" onclick="):
            self.assertNotIn(word, page)
        urls = re.findall(rb"https?://[^\"'`) ]+", page)
        self.assertEqual({*urls}, {b"http://www.w3.org/2000/svg"})
        self.assertNotIn("unsafe", policy(page))

    def test_the_page_is_what_its_sources_make(self) -> None:
        build = path().with_name("build")
        self.assertEqual(subprocess.run([str(build), "--check"], check=False).returncode, 0, "page/build makes it")
