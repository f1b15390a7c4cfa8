"""What the page shows in a browser, for what a service tells."""

from __future__ import annotations

import dataclasses
import json
import re
import threading
import unicodedata
import unittest
from typing import Any, Optional

from bulkhead import _words as words
from bulkhead.page import MetricsServer
from bulkhead.page._endpoints import Answer, Asked
from bulkhead.page._state import state_json
from bulkhead.page._watch import Watch
from bulkhead.settings import CommandSettings
from chrome import PROGRAM, Chrome
from page_support import PageCase
from played import World

STARTED = 1_764_597_600_000  # 14:00:00
HOSTILE = [
    "<img src=x onerror=alert(1)>",
    '"></script><script>alert(2)</script>',
    "__proto__",
    "constructor",
    "a" * 200,
    "\u202egnp.exe",
    "Ünïcødé ✓ 漢字 \U0001f4a5",
    "x\u0000y\u0007\u200bz",
    "${alert(3)}",
    "javascript:alert(4)",
]
ROW = """(name => {
  const box = [...document.querySelectorAll('.row')].find(r => r.querySelector('.name').getAttribute('aria-label') === name);
  if (!box) return null;
  const t = s => box.querySelector(s).textContent, d = s => box.querySelector('svg.lane path.' + s).getAttribute('d'), nums = {};
  box.querySelectorAll('.nums div').forEach(n => { nums[n.querySelector('dt').textContent] = n.querySelector('dd').textContent; });
  return {mark: t('.mark'), chip: t('.chip'), why: t('.why'), tall: box.classList.contains('tall'), nums, gap: d('gap'), again: d('again'),
    value: d('value'), open: d('open'), label: box.querySelector('svg.lane').getAttribute('aria-label')};
})"""
CONTRAST = """(() => {
  const rgb = s => (s.match(/[\\d.]+/g) || []).map(Number), linear = v => v <= .04045 ? v / 12.92 : ((v + .055) / 1.055) ** 2.4;
  const light = ([r, g, b]) => [r, g, b].reduce((n, v, i) => n + linear(v / 255) * [.2126, .7152, .0722][i], 0);
  const ground = e => {
    for (; e; e = e.parentElement) { const c = rgb(getComputedStyle(e).backgroundColor); if (c.length === 3 || c[3] > 0) return c; }
    return [255, 255, 255];
  };
  const texts = 'h1, h2 button, p, p b, dt, dd, dd small, li, button, label, svg.lane text:not(.on), .mark, .chip span';
  return [...document.querySelectorAll(texts)].filter(e => e.textContent.trim() && e.getClientRects().length).map(e => {
    const style = getComputedStyle(e), a = light(rgb(e.tagName === 'text' ? style.fill : style.color));
    const b = light(ground(e.closest('svg') ? e.closest('svg').parentElement : e));
    return [e.className.baseVal ?? e.className, e.textContent.slice(0, 20), (Math.max(a, b) + .05) / (Math.min(a, b) + .05)];
  }).filter(([, , ratio]) => ratio < 4.5);
})()"""


@unittest.skipUnless(PROGRAM, "chromium is not there")
class Shown(PageCase):
    chrome: Chrome

    @classmethod
    def setUpClass(cls) -> None:
        cls.chrome = Chrome()
        cls.addClassCleanup(cls.chrome.close)

    def open(self, commands: int = 4, at: int = 0, names: Optional[list[str]] = None, address: str = "") -> None:  # type: ignore[override]
        """Opens the page before a world at a second."""
        self.world, self.watch = World(commands), None  # type: ignore[assignment]
        for group, name in zip(self.world.groups, names or []):
            group.name = name
            group.commands[0].settings = _renamed(group.commands[0].settings, name)
        self.watch = self.new_watch(self.world, at)
        self.server = self.served(self.watch)
        self.endpoints = self.server._server.endpoints
        self.chrome.media()
        self.chrome.size(1200, 900)
        self.chrome.open("about:blank")
        self.chrome.events.clear()
        self.addCleanup(self.assert_no_fault)
        self.chrome.open(self.server.url + address)
        self.chrome.wait("document.querySelector('svg.lane path.base')?.getAttribute('d')")

    def new_watch(self, world: World, at: int, started: int = STARTED) -> Watch:
        watch = Watch(world, is_ticking=False)
        watch.started = started
        self.play(world, watch, at)
        return watch

    def assert_no_fault(self) -> None:
        faults = [told["entry"]["text"] for told in self.chrome.of("Log.entryAdded")]
        faults = [fault for fault in faults if not re.search("ERR_|status of 503|TrustedHTML", fault)]
        faults += [told["exceptionDetails"]["text"] for told in self.chrome.of("Runtime.exceptionThrown")]
        self.chrome.open("about:blank")
        self.assertEqual(faults, [])

    def to(self, second: int) -> None:
        """Goes on to a second, and has the page ask after each."""
        for at in range(self.world.moment // 1000 + 1, second + 1):
            self.play(self.world, self.watch, at)
            self.chrome.js("hand += 1000")
            self.poll()

    def poll(self) -> None:
        """Has the page ask until it shows what the service told last."""
        self.chrome.js("window.answered = 0; window.real ??= fetch; window.fetch = (...of) => real(...of).finally(() => { answered++ }); true")
        self.chrome.js("dispatchEvent(new Event('online'))")
        self.chrome.wait("answered > 0 || (dispatchEvent(new Event('online')), false)")
        self.chrome.js("new Promise(done => setTimeout(done, 50))")  # a page that is hidden draws no frames

    def pass_time(self, ms: int) -> None:
        """Lets time go by in the page, and has it drawn."""
        self.chrome.js(f"hand += {ms}")

    def text(self, selector: str) -> str:
        told: str = self.chrome.js(f"document.querySelector({json.dumps(selector)})?.textContent ?? ''")
        return told

    def row(self, name: str) -> Any:
        return self.chrome.js(f"{ROW}({json.dumps(name)})")

    def order(self) -> list[str]:
        told: list[str] = self.chrome.js(
            "[...document.querySelectorAll('.group')].filter(g => !g.hidden).flatMap(g => [...g.querySelectorAll('.row')]"
            ".filter(r => !r.hidden).map(r => r.querySelector('.name').getAttribute('aria-label')))"
        )
        return told

    def recent(self, name: str) -> dict[str, float]:
        """Events a second of the last ten columns."""
        past = next(one for group in self.watch.groups for one in group.commands if one.look.name == name)
        return {kind: past.columns.sum(kind.upper(), 10) / 10 for kind in words.EVENTS}

    def assert_near(self, text: str, wanted: float) -> None:
        found = re.match(r"[\d.,]+", text)
        assert found is not None, text
        self.assertLess(abs(float(found[0].replace(",", "")) - wanted), 0.051, text)

    # -- what is shown

    def test_all_are_well(self) -> None:
        self.open(at=30)
        self.assertEqual(self.text("h1"), "All 4 commands are well")
        self.assertEqual(self.chrome.js("document.title"), "✓ · bulkhead")
        self.assertEqual(self.order(), ["catalog", "payment", "payment/refund", "search"])
        for name in self.order():
            row = self.row(name)
            self.assertEqual((row["mark"], row["chip"], row["tall"]), ("well", "closed 30 s", True))
        rates, row = self.recent("catalog"), self.row("catalog")
        self.assert_near(row["nums"]["values"], rates["success"])
        answers = sum(rates[kind] for kind in ("success", "fallback_success", "response_from_cache", "bad_request"))
        self.assert_near(row["why"], answers)

    def test_an_outage_is_told_in_sentences(self) -> None:
        self.open(at=36)
        self.to(58)
        self.assertEqual(self.order()[:2], ["payment", "payment/refund"])
        self.assertIn("in trouble", self.text("h1"))
        self.assertTrue(self.chrome.js("document.title").startswith("▲"))
        row, rates = self.row("payment"), self.recent("payment")
        self.assertEqual(row["mark"], "trouble")
        self.assertRegex(row["chip"], "^(open|half-open) ")
        for label, kind in (("short-circuited", "short_circuited"), ("fallbacks", "fallback_success"), ("timeouts", "timeout")):
            self.assert_near(row["nums"][label], rates[kind])
        said = self.text("#says")
        self.assertIn("callers get fallbacks", said)
        self.assertRegex(said, r"Began 14:00:4\d with ")
        self.assertIn("Well: catalog and search.", self.text("#fine"))
        self.assertIn("in trouble", self.text("#live"))
        self.to(69)
        self.assertIn("closed again", self.row("payment")["why"])
        self.to(135)
        self.assertEqual(self.text("h1"), "All 4 commands are well")

    def test_a_page_that_is_opened_amid_an_outage_shows_how_it_began(self) -> None:
        self.open(at=58)
        self.assertGreater(self.row("payment")["value"].count("M"), 35)
        self.assertRegex(self.text("#says"), r"Began 14:00:4\d")

    def test_sixty_commands_the_worst_first(self) -> None:
        self.open(60, at=58)
        order = self.order()
        self.assertEqual(len(order), 60)
        self.assertEqual({*order[:3]}, {"geo", "payment", "payment/refund"})
        self.assertIn("there is no fallback", self.row("geo")["why"])
        self.assertEqual((self.row("report")["mark"], self.row("legacy")["mark"]), ("idle", "held open"))
        self.assertFalse(self.row("plain-1")["tall"])
        self.chrome.js("const f = document.getElementById('filter'); f.value = 'PAY'; f.dispatchEvent(new Event('input'))")
        self.assertEqual({*self.order()}, {"payment", "payment/refund"})
        self.assertIn("q=pay", self.chrome.js("location.hash"))
        self.chrome.js("document.getElementById('filter').value = 'nobody'; document.getElementById('filter').dispatchEvent(new Event('input'))")
        self.assertEqual((self.order(), self.chrome.js("document.getElementById('none').hidden")), ([], False))

    def test_a_circuit_that_was_held_open_is_drawn_open(self) -> None:
        self.open(at=10)
        group, command = self.world.groups[0], self.world.command("catalog")
        group.tune(command, circuitBreaker_forceOpen="true")
        self.to(20)
        row = self.row("catalog")
        self.assertEqual((row["mark"], row["chip"]), ("at risk", "held open"))
        self.assertIn("None in trouble, catalog", self.text("h1"))
        group.tune(command, circuitBreaker_forceOpen="false")
        self.to(25)
        row = self.row("catalog")
        self.assertEqual((row["chip"], row["open"].count("M")), ("closed 25 s", 1))

    def test_a_restart_counts_nothing_twice(self) -> None:
        self.open(at=57)
        world = World(4, seed=8, has_outage=False)
        self.world, self.watch = world, self.new_watch(world, 4, STARTED + 61_000)
        self.endpoints.watch = self.watch
        self.poll()
        row = self.row("payment")
        self.assertEqual((row["again"].count("M"), row["gap"].count("M"), row["chip"]), (1, 1, "closed 4 s"))
        most = max(self.watch.groups[1].commands[0].columns.since(0)["SUCCESS"])
        self.assertLessEqual(float(row["nums"]["values"].split("/")[0]), most)
        self.assertIn("started 4 s ago", self.text("#clock"))

    # -- what is not known

    def test_silence_is_not_health(self) -> None:
        self.open(at=30)
        gate, answer = threading.Event(), self.endpoints.answer
        self.addCleanup(gate.set)

        def silent(asked: Asked) -> Answer:
            gate.wait(60)
            return answer(asked)

        self.endpoints.answer = silent  # type: ignore[method-assign]
        self.pass_time(4000)
        self.chrome.wait("document.body.classList.contains('stale')")
        self.assertRegex(self.text("h1"), "^Not known: nothing heard for ")
        self.assertTrue(self.chrome.js("document.title").startswith("? "))
        self.chrome.wait("document.getElementById('noticed').textContent.includes('silent')")
        self.assertNotEqual(self.row("catalog")["gap"], "")
        self.endpoints.answer = answer  # type: ignore[method-assign]
        gate.set()
        self.to(45)
        self.assertFalse(self.chrome.js("document.body.classList.contains('stale')"))
        self.assertEqual(self.row("catalog")["gap"], "", "what was missed is there")

    def test_numbers_that_stand_still_are_not_believed(self) -> None:
        self.open(at=30)
        self.pass_time(6000)
        self.poll()
        self.chrome.wait("document.getElementById('noticed').textContent.includes('stand still')")
        self.assertRegex(self.text("h1"), "^Not known")
        self.to(31)
        self.assertEqual(self.text("h1"), "All 4 commands are well")

    def test_a_service_that_is_gone_and_one_that_takes_its_place(self) -> None:
        self.open(at=30)
        port = self.server.port
        self.server.close()
        self.pass_time(4000)
        self.chrome.js("dispatchEvent(new Event('online'))")
        self.chrome.wait("document.getElementById('noticed').textContent.includes('no connection')")
        self.world = World(4, seed=9)
        self.watch = self.new_watch(self.world, 3, STARTED + 40_000)
        server = MetricsServer(self.watch, port, "127.0.0.1", ())
        self.addCleanup(server.close)
        self.chrome.js("dispatchEvent(new Event('online'))")
        self.chrome.wait("!document.body.classList.contains('stale') || (dispatchEvent(new Event('online')), false)")
        self.assertEqual(self.row("catalog")["again"].count("M"), 1)

    def test_answers_that_are_none_leave_what_is_shown(self) -> None:
        self.open(at=30)
        later = self.new_watch(World(4), 58)
        later.run = self.watch.run
        newer = state_json(later, 0, "").replace(b'"format":1', b'"format":2')
        state = self.endpoints._state
        for body in (newer, b"", b"<html>proxy", b"{}", b"[]", b"null", b'{"format":1,"groups":[{}],"columns":{},"started":0}'):
            self.endpoints._state = lambda _, body=body: Answer(200, (), body)  # type: ignore[method-assign, misc]
            self.poll()
            self.assertEqual(self.row("payment")["mark"], "well", body)
        self.pass_time(4000)
        self.chrome.wait("document.getElementById('noticed').textContent.startsWith('The service does not answer: its answer')")
        self.endpoints._state = state  # type: ignore[method-assign]
        self.to(31)
        self.assertEqual(self.text("h1"), "All 4 commands are well")

    def test_groups_come_and_go(self) -> None:
        self.open(at=30)
        other = World(5, seed=3)
        gone = self.world.groups.pop(0)
        self.world.groups.append(other.groups[-1])
        self.to(31)
        self.assertEqual(self.order(), ["payment", "payment/refund", "search", "ledger"] if gone.name == "catalog" else [])
        self.assertEqual(self.chrome.js("document.querySelectorAll('#map button').length"), 4)

    # -- names, hands and readers

    def test_names_are_text(self) -> None:
        self.open(14, at=40, names=HOSTILE)
        shown = self.order()
        for name in HOSTILE:
            spelled = "".join(c if unicodedata.category(c)[0] not in "CZ" or c == " " else f"\\u{{{ord(c):x}}}" for c in name)
            self.assertIn(spelled if len(spelled) <= 60 else spelled[:59] + "…", shown)
            self.assertTrue(self.chrome.js(f"[...document.querySelectorAll('.name')].some(n => n.title === {json.dumps(name)})"))
        self.assertNotRegex(self.chrome.js("document.body.innerText + document.title"), "[\u202a-\u202e\u2066-\u2069\u200b]")
        self.assertTrue(self.chrome.js("document.documentElement.scrollWidth <= innerWidth"), "no name widens the page")
        self.assertEqual(self.chrome.js("document.querySelectorAll('img, script').length"), 1)
        self.assertEqual(self.chrome.of("Page.javascriptDialogOpening"), [])

    def test_a_pause_leaves_rows_and_the_head_goes_on(self) -> None:
        self.open(at=30)
        self.chrome.js("document.getElementById('pause').click()")
        before = self.row("payment")["value"]
        self.to(49)
        self.assertEqual((self.row("payment")["value"], self.row("payment")["mark"]), (before, "well"))
        self.assertTrue(self.text("#noticed").startswith("Paused at 14:00:30"))
        self.assertIn("in trouble", self.text("h1"))
        self.chrome.js("document.getElementById('pause').click()")
        self.assertNotEqual(self.row("payment")["value"], before)

    def test_all_is_reached_by_keys(self) -> None:
        self.open(at=58)
        self.chrome.js("document.querySelector('#map button').focus()")
        self.chrome.key("ArrowRight"), self.chrome.key("ArrowRight")
        self.assertTrue(self.chrome.js("document.activeElement.getAttribute('aria-label')").startswith("payment/refund: "))
        self.chrome.key("Enter")
        self.assertEqual(self.chrome.js("document.activeElement.getAttribute('aria-label')"), "payment/refund")
        tall = self.row("payment/refund")["tall"]
        self.chrome.key("Enter")
        self.assertNotEqual(self.row("payment/refund")["tall"], tall)
        self.chrome.key("ArrowLeft"), self.chrome.key("ArrowLeft")
        self.assertIn("payment/refund", self.text("#tip"))
        self.assertRegex(self.text("#live"), r"14:00:5\d: ")
        self.chrome.key("Escape")
        self.assertTrue(self.chrome.js("document.getElementById('tip').hidden"))

    def test_a_focus_is_kept_while_rows_move(self) -> None:
        self.open(at=30)
        self.chrome.js("[...document.querySelectorAll('.name')].find(n => n.getAttribute('aria-label') === 'search').focus()")
        command = self.world.command("search")
        command.behaviour.has_no_fallback = True
        self.world.groups[2].tune(command, circuitBreaker_forceOpen="true")
        self.to(38)
        self.assertEqual(self.order()[0], "search")
        self.assertEqual(self.chrome.js("document.activeElement.getAttribute('aria-label')"), "search")

    def test_a_tab_that_slept_misses_nothing(self) -> None:
        self.open(at=30)
        other = self.chrome.browser("Target.createTarget", url="about:blank")["targetId"]
        self.addCleanup(self.chrome.call, "Page.bringToFront")
        self.chrome.wait("document.hidden")
        self.to(50)
        self.assertTrue(self.chrome.js("document.title").startswith("▲"))
        self.assertEqual(self.row("payment")["mark"], "well", "the title alone")
        self.play(self.world, self.watch, 85)
        self.chrome.call("Page.bringToFront")
        self.chrome.wait("!document.hidden")
        self.chrome.wait("document.getElementById('clock').textContent.includes('85 s')")
        self.assertEqual(self.row("payment")["gap"], "")
        self.chrome.browser("Target.closeTarget", targetId=other)

    def test_each_control_has_a_name_and_texts_a_contrast(self) -> None:
        self.open(at=58)
        controls = ("button", "image", "link", "searchbox", "combobox", "heading", "toolbar", "main", "region")
        for node in self.chrome.call("Accessibility.getFullAXTree")["nodes"]:
            if not node.get("ignored") and node.get("role", {}).get("value") in controls:
                self.assertTrue(node.get("name", {}).get("value"), node)
        for scheme in ("light", "dark"):
            self.chrome.media(prefers_color_scheme=scheme)
            self.assertEqual(self.chrome.js(CONTRAST), [], scheme)

    def test_the_policy_is_kept(self) -> None:
        self.open(12, at=58)
        self.chrome.js("window.broken = []; addEventListener('securitypolicyviolation', e => broken.push(e.violatedDirective)); true")
        self.chrome.js("document.getElementById('span').value = '5'; document.getElementById('span').dispatchEvent(new Event('change'))")
        self.to(60)
        self.assertEqual(self.chrome.js("broken"), [])
        urls = {told["request"]["url"] for told in self.chrome.of("Network.requestWillBeSent")} - {"about:blank"}
        self.assertTrue(all(url.startswith((self.server.url, "data:image/svg+xml")) for url in urls), urls)
        refused = "(() => { try { document.body.innerHTML = '<b>'; return false } catch { return true } })()"
        self.assertTrue(self.chrome.js(refused), "no text becomes markup")


def _renamed(settings: CommandSettings, name: str) -> CommandSettings:
    return dataclasses.replace(settings, name=name)
