"""The service of commands: groups, commands, contexts, metrics, and the end."""

from __future__ import annotations

import json
import os
from collections.abc import Callable, Coroutine, Iterable, Mapping
from contextlib import suppress
from contextvars import ContextVar
from itertools import count
from pathlib import Path
from typing import TYPE_CHECKING, Any, Literal, Optional, Protocol, TypeVar, Union, overload

from . import _coroutines, _ends, _words as words, prometheus, settings as of_settings
from ._closing import Closing
from ._core import Core
from ._declared import is_coroutine_command
from ._events import Event, Listener, numbers_of
from ._failures import Which, judge_of
from ._groups import Group, Place
from ._looks import look_at
from ._opening import by_name, opened_by
from ._recording import Record
from ._reloading import Retuning, Tuning, changes_to, raise_unless_tunable, tuning_of
from ._runs import RETIRED, Body, Run
from ._tuning import Change, Growth, Value, changes_of, in_force, line_of, place_of, raise_unless_told, take_over
from ._typing import ParamSpec
from ._warning import warn_of
from .commands import AsyncCommand, Command
from .contexts import RequestContext
from .errors import BadLine, Error, NoSuchCommand, NoSuchGroup, Refused, Stopped, Worn
from .metrics import Health, Metrics, Totals, totals_in
from .settings import GroupSettings
from .steps import Service as StepService, metrics_in

if TYPE_CHECKING:
    from .page import MetricsServer

P = ParamSpec("P")
R = TypeVar("R")
T = TypeVar("T")

# what becomes of a service in a forked process
AfterFork = Literal["reopen", "stop"]
_CHOICES = ("reopen", "stop")


class _Declares(Protocol):
    """What `service.command(..)` gives: it makes a command of a function."""

    @overload
    def __call__(self, function: Callable[P, Coroutine[Any, Any, T]]) -> AsyncCommand[P, T]: ...  # type: ignore[misc]
    @overload
    def __call__(self, function: Callable[P, R]) -> Command[P, R]: ...


def open(  # noqa: A001: it is called as bulkhead.open
    settings: Union[str, os.PathLike[str], None] = None,
    *,
    text: Union[str, bytes, None] = None,
    clock: Optional[Callable[[], int]] = None,
    on_transition: Optional[Callable[[str, str, str], object]] = None,
    after_fork: AfterFork = "reopen",
) -> CommandService:
    """Opens a service by a settings file, which is given by its path or as `text=`.

    `clock` gives the moments of a test, whole milliseconds from 0 on; then there is no timer, and `expire` times out what
    is due. `on_transition` is called with the name of a command and two of "closed", "open" and "half-open" where its
    circuit breaker changes: in order, by a thread of its own, and what it raises is told to `sys.unraisablehook`.

    `after_fork` says what becomes of it in a forked process. "reopen" has the first call there open the same settings anew:
    with fresh counts and threads of its own, with the groups that were registered, and with a record in files of that
    process. "stop" has every call there raise `Stopped`.

    Warns by `SettingsWarning` where a command's permits, or a group's workers and queue, are more than the group's slots, and
    by `UnknownNameWarning` of a name that nothing looks up, as one that is misspelt. The program `bulkhead` finds these (see
    `bulkhead.lint`); where there is none, or the warning is switched off, nothing is looked for.
    Raises `Refused`, with the program's text, where the settings are refused, and an OSError where the file cannot be read.
    """
    content = of_settings.read(settings, text)
    service = CommandService(content, clock, on_transition, after_fork)
    try:
        warn_of(content, service.in_force)
    except BaseException:  # warnings may be made errors
        service.close()
        raise
    return service


class CommandService(Closing):
    """A service of commands, which `bulkhead.open` gives. It is a context manager, whose end closes it."""

    def __init__(
        self,
        settings: bytes,
        clock: Optional[Callable[[], int]] = None,
        on_transition: Optional[Callable[[str, str, str], object]] = None,
        after_fork: AfterFork = "reopen",
    ) -> None:
        if after_fork not in _CHOICES:
            raise Refused(f'after_fork= is "reopen" or "stop", and not {after_fork!r}')
        opened = opened_by(settings)
        self._settings = settings
        self.turns = Core(settings, opened, clock, after_fork == "reopen")
        # what it was opened with, by which a group is registered, and what the latest `reload` made of it
        self._in_force = self._reloaded = by_name(opened)
        self.turns.listed = len(self._in_force)
        groups = [Group(number, group, name) for number, (name, group) in enumerate(self._in_force.items())]
        self.turns.every_group += groups
        self.turns.groups |= {group.name: group for group in groups}
        self._places = {place.spelled: place for group in groups for place in group.places}
        self._declared: set[str] = set()
        self._numbers = count(1)
        self.current: ContextVar[Optional[RequestContext]] = ContextVar("bulkhead_context", default=None)
        _ends.watch(self)
        self._tells_transitions = on_transition is not None
        if on_transition is not None:
            self.turns.start_teller(on_transition)
        if clock is None:
            self.turns.start_timer()

    @property
    def in_force(self) -> list[GroupSettings]:
        """The settings that the service was opened with, group by group."""
        return [*self._in_force.values()]

    # -- commands

    def command(
        self,
        name: str,
        *,
        fallback: Optional[Callable[..., Any]] = None,
        key: Optional[Callable[..., Any]] = None,
        failures: Optional[Which] = None,
        ignored: Optional[Which] = None,
        failed_result: Optional[Callable[[Any], object]] = None,
    ) -> _Declares:
        """Makes a command of the function below it: that of a group of the settings, or a further one.

        `fallback` is called with the arguments of the call and `cause`, a `CommandError`, where the run gives no value.
        `key` is called with the arguments and gives a str or an int: within a request context, calls with equal keys
        share one answer.

        Each exception of the function is a failure, unless `ignored` or `failures` says otherwise. Both are classes of
        exceptions, or are called with an exception and tell whether it is meant. One that `ignored` means passes through to
        the caller and counts against nobody, as `BadRequest` does. Where `failures` is given, so does one that it does not
        mean. `failed_result` is called with a value and tells whether that is a failure: then the call goes to the
        fallback, with a `FailedResult` as `cause`.

        Raises `NoSuchGroup` where no group and no command has the name, and `Refused` where the name was given already, or
        where the function cannot run under the strategy that the settings have for it.
        """
        if name not in self._places:
            raise NoSuchGroup(f"no group and no command of the settings is called {name!r}")
        place, judge = self._places[name], judge_of(name, failures, ignored, failed_result)

        def declare(function: Callable[..., Any]) -> Any:
            if name in self._declared:
                raise Refused(f"the command {name} was declared already")
            is_coroutine = is_coroutine_command(name, function, fallback)
            if is_coroutine and place.settings.is_pooled:
                raise Refused(f"{name} runs under THREAD, and a coroutine function can run under SEMAPHORE alone")
            self._declared.add(name)
            kind = AsyncCommand if is_coroutine else Command
            return kind(self, Body(place, function, fallback, is_coroutine, judge), key)

        return declare

    def context(self) -> RequestContext:
        """A request context: within its `with` block, calls with equal keys share one answer."""
        return RequestContext(self.turns, self.current, next(self._numbers))

    def group(self, name: str) -> Group:
        """What the package keeps of the group of the name. Raises `NoSuchGroup`, and `Stopped` after the end."""
        if not self.turns.is_open:
            raise Stopped("the service is closed")
        group = self.turns.groups.get(name)
        if group is None:
            raise NoSuchGroup(f"no group that is there is called {name!r}")
        return group

    # -- groups that come and go

    def register(self, name: str, *, like: str) -> None:
        """Registers a new group with the properties of one of the settings. Raises `Refused` where that cannot be."""
        if like not in self._in_force:
            raise NoSuchGroup(f"no group of the settings is called {like!r}")
        try:
            told = self.turns.turn(self._register, name, like)
        except BadLine:
            told = {"error": "name"}
        if told.get("reply") != "registered":
            whys = {"name": "it is no name for a group, or is taken", "groups": "2^40 groups were registered"}
            raise Refused(f"the group {name!r} is not registered: {whys.get(str(told.get('error')), told)}")

    def _register(self, name: str, like: str) -> dict[str, Any]:
        told: dict[str, Any] = {}
        line = json.dumps({"op": "register", "group": name, "like": like}).encode()
        self.turns.act(line, self._registered, told, name, like)
        return told

    def _registered(self, told: dict[str, Any], name: str, like: str) -> None:
        turns, answer = self.turns, json.loads(self.turns.answer())
        if answer.get("reply") == "registered":
            group = Group(turns.opened.group(name), self._in_force[like], name)
            work = Retuning(changes_to(group, self._reloaded[like]))
            # from here on nothing is called
            turns.groups[name] = group
            turns.every_group += (group,)
            turns.todo += (work,)
        told |= answer
        turns.unit = None

    def retire(self, name: str) -> bool:
        """Retires a group, which is then there no more, and tells whether it did.

        It does not where the group is in use: where a run goes on, or an answer has still to be collected.
        """
        group = self.group(name)
        self.turns.turn(self._retire, group)
        return group.over == RETIRED

    def _retire(self, group: Group) -> None:
        if self.turns.groups.get(group.name) is group:
            line = json.dumps({"op": "retire", "group": group.name}).encode()
            self.turns.act(line, self._retired, group, None, None)

    def _retired(self, group: Group, *_: None) -> None:
        turns, answer = self.turns, json.loads(self.turns.answer())
        if answer.get("reply") == "retired":
            turns.end_group(group, RETIRED)
            turns.groups.pop(group.name, None)
        turns.unit = None

    # -- properties that change

    def tune(
        self,
        group: str,
        command: Optional[str] = None,
        properties: Optional[Mapping[str, Value]] = None,
        **named: Value,
    ) -> None:
        """Changes properties of a group's own command or of a further one, or of its pool, while it runs.

        They are named as in the settings, either in `properties`, or by keywords with an underscore for each dot, as in
        `tune("payment", coreSize=8, circuitBreaker_forceOpen=True)`. Each is in force from its step on: for what comes, and
        for what is under way. Those of one call are changed in one turn, in their order. Slots, windows, the strategy and the
        size of the queue never change, and `register` still copies the settings of the file.

        Raises `Refused` at the first that may not change so, where those before it are in force; `NoSuchGroup`,
        `NoSuchCommand`, `Worn` and `Stopped`.
        """
        place = place_of(self.group(group), command)
        self.turns.turn(self._tune, place, changes_of(place, properties, named))

    def _tune(self, place: Place, changes: list[Change]) -> None:
        turns, group = self.turns, place.group
        for change in changes:
            told: dict[str, Any] = {}
            moment = turns.moment_of(group)
            turns.act(change.line(moment), self._tuned, told, change, moment)
            raise_unless_told(place, told, "tuned", change)

    def _tuned(self, told: dict[str, Any], change: Change, moment: int) -> None:
        turns, answer, group = self.turns, json.loads(self.turns.answer()), change.place.group
        if answer.get("reply") == "tuned":
            take_over(change, in_force(change))
            # from here on nothing is called
            turns.todo += (Growth(group),)
        self._answered(group, answer, moment)
        told |= answer
        turns.unit = None

    def _answered(self, group: Group, answer: dict[str, Any], moment: int) -> None:
        """A line of a group was answered: a step was made, unless it was at fault."""
        if answer.get("reply") == "worn":
            self.turns.is_over(group, words.WORN)
        elif "reply" in answer:
            group.latest = moment

    def reload(
        self, settings: Union[str, os.PathLike[str], None] = None, *, text: Union[str, bytes, None] = None
    ) -> list[Tuning]:
        """Brings all groups to new settings, given as to `open`, and tells each property that it changed.

        What differs from what is in force is tuned, in one turn: also what `tune` changed before, and for each group that was
        registered `like` one of the settings, or will be. Equal settings change nothing. A group that is `Worn` is passed over.

        Raises `NotTunable`, which names each property that differs from those that the service was opened with and cannot
        change, `Refused` where the settings are refused, an OSError where the file cannot be read, and `Stopped`. Nothing was
        changed then. Warns as `open` does, before anything is changed.
        """
        content = of_settings.read(settings, text)
        with opened_by(content) as opened:
            wanted = by_name(opened)
        raise_unless_tunable(self._in_force, wanted)
        warn_of(content, wanted.values())
        made: list[Tuning] = []
        self.turns.turn(self._reload, wanted, made).raise_failed()
        return made

    def _reload(self, wanted: dict[str, GroupSettings], made: list[Tuning]) -> Retuning:
        turns = self.turns
        if not turns.is_open:
            raise Stopped("the service is closed")
        groups = [group for group in turns.groups.values() if not group.over]
        changes = [change for group in groups for change in changes_to(group, wanted[group.like])]
        for change in changes[:1]:
            turns.moment_of(change.place.group)  # a clock that gives none is told of before anything is changed
        made += map(tuning_of, changes)
        work = Retuning(changes)
        # from here on nothing is called
        self._reloaded = wanted
        turns.todo += (work,)
        return work

    def totals(self, group: str, command: Optional[str] = None) -> Totals:
        """How many events of each kind a group's own command, or a further one, has had since the group was there.

        It is a step of the group. Raises `NoSuchGroup`, `NoSuchCommand`, `Worn` and `Stopped`.
        """
        told: dict[str, Any] = {}
        place = place_of(self.group(group), command)
        self.turns.turn(self._total, place, told)
        raise_unless_told(place, told, "totals")
        return totals_in(told["events"])

    def _total(self, place: Place, told: dict[str, Any]) -> None:
        moment = self.turns.moment_of(place.group)
        self.turns.act(line_of("totals", place, moment), self._totalled, told, place.group, moment)

    def _totalled(self, told: dict[str, Any], group: Group, moment: int) -> None:
        answer = json.loads(self.turns.answer())
        self._answered(group, answer, moment)
        told |= answer
        self.turns.unit = None

    # -- metrics and time

    @overload
    def metrics(self) -> dict[str, Metrics]: ...
    @overload
    def metrics(self, name: str) -> Metrics: ...
    def metrics(self, name: Optional[str] = None) -> Union[Metrics, dict[str, Metrics]]:
        """The metrics of a command at this moment, or those of all commands by their names.

        A group's own command goes by the group's name, and a further one of a registered group as "tenant-7/refund".
        Each look is a step of the group. Raises `NoSuchCommand`, `Worn` and `Stopped`.
        """
        _coroutines.sweep(self.turns)
        if name is not None:
            return self._read(self._place(name))
        told = {}
        for group in [*self.turns.groups.values()]:
            for place in group.places:
                with suppress(NoSuchGroup, Worn):
                    told[place.spelled] = self._read(place)
        return told

    def _place(self, name: str) -> Place:
        group = self.turns.groups.get(name.partition("/")[0])
        known = self._places.get(name)
        places = [*(group.places if group is not None else ()), *(() if known is None else (known,))]
        for place in places:
            if place.spelled == name and place.group.over != RETIRED:
                return place
        raise NoSuchCommand(f"no command is called {name!r}")

    def _read(self, place: Place) -> Metrics:
        reply: bytearray = self.turns.turn(self.turns.read, place)
        return Metrics(**metrics_in(reply))  # type: ignore[arg-type]

    def prometheus(self) -> str:
        """The metrics of all commands in Prometheus's text format."""
        dropped = prometheus.dropped_transitions(self.dropped_transitions) if self._tells_transitions else ""
        if self.turns.events.listeners:
            dropped += prometheus.dropped_events(self.dropped_events)
        healths = {self._place(name): Health(told.errors, told.total) for name, told in self.metrics().items()}
        return prometheus.text([prometheus.of_look(group, healths) for group in look_at(self.turns)]) + dropped

    def serve_metrics(self, port: int, address: str = "127.0.0.1", hosts: Iterable[str] = ()) -> MetricsServer:
        """Serves the page, and what tools read, at a port until it is closed. It is a context manager. Port 0 is a free one.

        docs/PAGE.md tells what there is to read. It is answered by threads of their own, and no reader makes a step or holds
        one up. A request has to name an address, "localhost" or one of `hosts` as its Host. Whoever reaches the address may
        read. In a forked process the port is closed. Raises an OSError where the port cannot be taken, `Refused` where it is
        none, and `Stopped` after the end.
        """
        from .page import serve  # a program that serves none does not load the server

        return serve(self, port, address, hosts)

    @property
    def dropped_transitions(self) -> int:
        """How many changes of circuit breakers were not told: `on_transition` was slow, and a thousand waited."""
        return self.turns.changes.dropped

    def expire(self) -> int:
        """Times out what is due, and tells how many calls that were. Without a clock of its own the timer does so."""
        _coroutines.sweep(self.turns)
        number: int = self.turns.turn(self.turns.expire_all)
        return number

    # -- events

    def on_event(self, call: Callable[[Event], object], *, kinds: Optional[Iterable[str]] = None) -> None:
        """Has `call` called with each `Event` that the core counts from now on, or with those of some `kinds`.

        It is called in the order of the steps, by a thread of its own, for which no command waits; what it raises is told to
        `sys.unraisablehook`. Where 10,000 events wait, the oldest thousand make room, which `dropped_events` counts. May be
        called again, for further listeners. Raises `Refused` where no event has such a kind, and `Stopped` after the end.
        """
        if not callable(call):
            raise Refused(f"on_event is given what is called with each event, and no {type(call).__name__}")
        listener = Listener(self.turns, call, numbers_of(kinds), self.turns.events)
        self.turns.turn(self.turns.listen, listener)
        listener.start()

    @property
    def dropped_events(self) -> int:
        """How many events were not told, as their listener was slow: those of all listeners."""
        return sum(listener.dropped for listener in self.turns.events.listeners)

    # -- records and the end

    def record(
        self,
        path: Union[str, os.PathLike[str]],
        *,
        replies: Union[str, os.PathLike[str], None] = None,
        timeout: float = 5.0,
    ) -> Record:
        """Writes each step from now on as a line of `bulkhead run`, and the settings beside it, as PATH with ".toml".

        `replies` is a path to which the replies are written, as `bulkhead run` would write them. It is called before the
        first step; raises an `Error` after it. The record's `is_whole` tells whether all could be written. At the end of
        the service it is waited for, `timeout` seconds at most. In a forked process it goes on in files of that process, whose
        number stands behind their names, as its `path` says then.
        """
        self.turns.turn(self._begin_record, None)
        record = Record(Path(path), Path(replies) if replies else None, self._settings, self.turns, timeout)
        try:
            self.turns.turn(self._begin_record, record)
        except BaseException:
            record.finish()
            raise
        record.start()
        return record

    def _begin_record(self, record: Optional[Record]) -> None:
        """Begins a record, or where none is given looks whether one may begin."""
        if not self.turns.is_open:
            raise Stopped("the service is closed")
        if self.turns.has_stepped() or self.turns.record is not None:
            raise Error("a record begins before the first step, and there is one of a service")
        if record is not None:
            self.turns.begin_record(record)

    def runs(self) -> list[Run]:
        """The tickets that are there, for tests and for a look at what goes on."""
        return [run for group in [*self.turns.groups.values()] for run in [*group.runs.values()]]

    def close(self) -> None:
        """Closes the service: whoever waits is told `Stopped`, and so is every later call. Waits for no function."""
        turns, record = self.turns, self.turns.record
        interrupt: Optional[BaseException] = None
        turns.is_closing = True  # where it was not opened yet in a forked process, it is not opened for its end
        while turns.is_open:
            try:
                turns.turn(self._close)
            except Exception:
                raise
            except BaseException as error:
                interrupt = error
        if record is not None:
            record.finish()
        if interrupt is not None:
            raise interrupt

    def _close(self) -> None:
        turns = self.turns
        if turns.record is not None:
            group = next((one for one in turns.groups.values() if not one.over), None)
            if group is not None:
                turns.record.is_last = True
                with suppress(Worn):
                    turns.read(group.places[0])
        turns.close()

