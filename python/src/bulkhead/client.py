"""The client of a service that processes share, which `bulkhead share` runs: each process runs its functions itself."""

from __future__ import annotations

import os
from collections.abc import Callable, Coroutine, Iterable, Mapping
from contextvars import ContextVar
from typing import Any, Literal, Optional, Protocol, TypeVar, Union, overload

from . import _lines, _words as words, prometheus, settings as of_settings
from ._client_bodies import ClientBody, Texts, thread_refused
from ._client_calls import Asked, execute
from ._client_commands import AsyncClientCommand, ClientCommand
from ._client_contexts import ClientContext
from ._closing import Closing
from ._connection import Address, Answer, Lost, checked_address
from ._declared import is_coroutine_command
from ._failures import Which, judge_of
from ._groups import Group, Place
from ._links import Links
from ._looks import HELD_OPEN
from ._opening import by_name, opened_by
from ._reloading import Tuning, tunings_by_looks
from ._tuning import Value, changes_of, in_force, raise_unless_told, take_over
from ._typing import ParamSpec
from .contexts import RequestContext
from .errors import Error, NoSuchCommand, NoSuchGroup, Refused, Unreachable, Worn
from .metrics import Health, Metrics, Totals, totals_in
from .settings import CommandSettings, GroupSettings
from .steps import Service as StepService

P = ParamSpec("P")
R = TypeVar("R")
T = TypeVar("T")

# what a call comes to while the service cannot be asked: `Unreachable` is raised, or its fallback answers
WhenUnreachable = Literal["error", "fallback"]
_CHOICES = ("error", "fallback")


class _Declares(Protocol):
    """What `client.command(..)` gives: it makes a command of a function."""

    @overload
    def __call__(self, function: Callable[P, Coroutine[Any, Any, T]]) -> AsyncClientCommand[P, T]: ...  # type: ignore[misc]
    @overload
    def __call__(self, function: Callable[P, R]) -> ClientCommand[P, R]: ...


def connect(
    address: Address,
    settings: Union[str, os.PathLike[str], None] = None,
    *,
    text: Union[str, bytes, None] = None,
    when_unreachable: WhenUnreachable = "error",
    timeout: float = 1.0,
) -> Client:
    """Connects to a `bulkhead share`, by the path of its socket or by its port on 127.0.0.1.

    `settings` is the service's settings file, or `text=` its text. With it a command under THREAD, or of a name that the
    settings lack, is refused where it is declared; a coroutine function is cancelled at its timeout; and the service need not
    be there yet. Without it the names are asked of the service, and the strategy is known by the first call.

    `when_unreachable` says what a call comes to while the service cannot be asked: "error" raises `Unreachable`, and
    "fallback" has the command's fallback answer. `timeout` is how many seconds the service may take for an answer before it
    counts as unreachable.

    Raises `Unreachable` where the names are to be asked and the service is not there, and `Refused` where the settings are
    refused or are not the service's.
    """
    if timeout <= 0:
        raise Error(f"a timeout is more than 0 seconds, and not {timeout}")
    links = Links(checked_address(address), timeout)
    known = None
    if settings is not None or text is not None:
        with StepService(of_settings.read(settings, text)) as service:
            known = of_settings.in_force(service.check())
    return Client(links, known, when_unreachable)


class Client(Closing):
    """A client, which `bulkhead.connect` gives. It is a context manager, whose end closes it.

    Threads and coroutines of a process may share it. In a forked process it goes on, over a connection of that process.
    """

    def __init__(
        self, links: Links, known: Optional[list[GroupSettings]], when_unreachable: WhenUnreachable = "error"
    ) -> None:
        self._links, self._is_known, self._when = links, known is not None, _checked_choice(when_unreachable)
        self._declared: set[str] = set()
        self._bodies: list[ClientBody] = []
        self.current: ContextVar[Optional[RequestContext]] = ContextVar("bulkhead_client_context", default=None)
        try:
            links.shared()
        except Lost as lost:
            if known is None:
                raise Unreachable(f"the service cannot be asked for its groups: {lost}") from lost
        else:
            if known is not None and [group.name for group in known] != links.names:
                links.close()
                raise Refused(f"the settings are not the service's, whose groups are {', '.join(links.names)}")
        of = known if known is not None else [_unknown(name) for name in links.names]
        self._groups = [Group(number, group, group.name) for number, group in enumerate(of)]
        self._places = {place.spelled: place for group in self._groups for place in group.places}

    def close(self) -> None:
        """Closes all connections. The service fails the runs that go on; every later call is `Stopped`."""
        self._links.close()

    def command(
        self,
        name: str,
        *,
        fallback: Optional[Callable[..., Any]] = None,
        key: Optional[Callable[..., Any]] = None,
        encode: Optional[Callable[[Any], str]] = None,
        decode: Optional[Callable[[str], Any]] = None,
        when_unreachable: Optional[WhenUnreachable] = None,
        failures: Optional[Which] = None,
        ignored: Optional[Which] = None,
        failed_result: Optional[Callable[[Any], object]] = None,
    ) -> _Declares:
        """Makes a command of the function below it: that of a group of the service, or a further one, under SEMAPHORE.

        `fallback` is called with the arguments of the call and `cause`, a `CommandError`, where the run gives no value.
        `key` is called with the arguments and gives a str or an int: within a request context, calls with equal keys share
        one answer, also those of other processes. So it wants `encode`, which tells the function's value (and the
        fallback's) by a text of at most 256 bytes, and `decode`, which reads it again. `when_unreachable` is the choice for
        this command, where it is not that of the client. `failures`, `ignored` and `failed_result` are those of a command of
        `bulkhead.open`: which exceptions and values are failures.

        Raises `NoSuchGroup` where no group and no command has the name, `Refused` where the name was given already or the
        command runs under THREAD, and `Unreachable` where the service has to be asked for the name and cannot be.
        """
        place = self._place(name)
        choice = self._when if when_unreachable is None else _checked_choice(when_unreachable)
        if place.settings.is_pooled:
            raise thread_refused(name)
        if (encode is None) != (decode is None) or (key is None) != (encode is None):
            raise Refused(f"{name}: key=, encode= and decode= are given together, or none of them")
        judge = judge_of(name, failures, ignored, failed_result)
        texts = None if encode is None or decode is None else Texts(encode, decode)

        def declare(function: Callable[..., Any]) -> Any:
            if name in self._declared:
                raise Refused(f"the command {name} was declared already")
            is_coroutine = is_coroutine_command(name, function, fallback)
            self._declared.add(name)
            body = ClientBody(self._links, place, function, fallback, is_coroutine, texts, choice == "fallback", judge)
            body.is_inline = self._is_known
            self._bodies.append(body)
            return (AsyncClientCommand if is_coroutine else ClientCommand)(self, body, key)

        return declare

    def ask(self, name: str, arg: str, *, fallback: Optional[Callable[..., str]] = None) -> str:
        """Has a worker process run a command under THREAD (`bulkhead.work`), and waits for the text that it gives.

        `arg` is a text of at most 64 bytes. `fallback` is called with it and `cause`, where the run gives no value. Raises a
        `CommandError`, as a command does; `BadText` where `arg` is none; and `Refused` where the command runs under SEMAPHORE.
        A coroutine awaits it by `asyncio.to_thread`.
        """
        place = self._place(name)
        if self._is_known and not place.settings.is_pooled:
            raise Refused(f"{name} runs under SEMAPHORE: it is called as a command")
        given = _lines.checked_text(arg, "the caller", _lines.ARG_LIMIT)
        body = ClientBody(self._links, place, _run_by_worker, fallback, False, None, self._when == "fallback")
        text: str = execute(Asked(body, given))
        return text

    def context(self, number: Optional[int] = None) -> ClientContext:
        """A request context: within its `with` block, calls with equal keys share one answer.

        Processes that give one `number` (that of another process's context, or what they agree on) are within the same one.
        """
        return ClientContext(self._links, self.current, number)

    # -- names

    def _place(self, name: str) -> Place:
        """The command of the name, which is declared or asked for."""
        place = self._found(name)
        if place is None:
            raise NoSuchGroup(f"no group and no command of the service is called {name!r}")
        return place

    def _found(self, name: str) -> Optional[Place]:
        """The command of the name. Without settings a further one is looked for in each group, by a look at its metrics."""
        place = self._places.get(name)
        if place is None and not self._is_known and isinstance(name, str):
            told = self._ask([_lines.metrics(group.name, name) for group in self._groups])
            of = next((group for group, answer in zip(self._groups, told) if "error" not in answer), None)
            place = None if of is None else self._add(of, name)
        return place

    def _add(self, group: Group, name: str) -> Place:
        place = Place(group, len(group.places), _unknown(name).commands[0], name)
        group.places = (*group.places, place)
        self._places[name] = place
        return place

    # -- properties that change

    def tune(
        self,
        group: str,
        command: Optional[str] = None,
        properties: Optional[Mapping[str, Value]] = None,
        **named: Value,
    ) -> None:
        """Changes properties of a group's own command or of a further one, or of its pool, for all processes.

        They are named as in the settings, either in `properties`, or by keywords with an underscore for each dot. Those of one
        call are changed one after another. A service on a port lets its connections do so where it was started with
        `--tunable`. Raises `Refused` at the first that may not change so, where those before it are in force; `NoSuchGroup`,
        `NoSuchCommand`, `Worn`, `Unreachable` and `Stopped`.
        """
        place = self._of(group, command)
        for change in changes_of(place, properties, named):
            line = _lines.tune(place.group.name, self._name_of(place), change.name, change.value)
            (answer,) = self._ask([line])
            raise_unless_told(place, answer, "tuned", change)
            if self._is_known:
                take_over(change, in_force(change))

    def reload(
        self, settings: Union[str, os.PathLike[str], None] = None, *, text: Union[str, bytes, None] = None
    ) -> list[Tuning]:
        """Brings the service to new settings for all processes, given as to `connect`, and tells each property that it changed.

        It asks what is in force, and tunes what differs. Raises `NotTunable`, which names each property that differs and cannot
        change while the service is there, and `Refused` where the settings are refused or the service lets this connection
        change nothing: nothing was changed then. Each change is a line of its own, so where an `Unreachable` ends it, those
        before it are in force, and another `reload` makes the rest. Raises an `Error` where the service does not tell what is in
        force, and `Stopped`.
        """
        with opened_by(of_settings.read(settings, text)) as opened:
            wanted = by_name(opened)
        changes = tunings_by_looks(wanted, [group.name for group in self._groups], self._ask)
        for change in changes:
            self.tune(change.group, change.command, {change.property: change.after})
        return changes

    def totals(self, group: str, command: Optional[str] = None) -> Totals:
        """How many events of each kind a command has had since its group was there: what all processes did.

        It is a step of the group. Raises `NoSuchGroup`, `NoSuchCommand`, `Worn`, `Unreachable` and `Stopped`.
        """
        place = self._of(group, command)
        (answer,) = self._ask([_lines.totals(place.group.name, self._name_of(place))])
        raise_unless_told(place, answer, "totals")
        return totals_in(answer["events"])

    def _of(self, group: str, command: Optional[str]) -> Place:
        """A command of a group by its name, or its own one."""
        of = next((one for one in self._groups if one.name == group), None)
        if of is None:
            raise NoSuchGroup(f"the service has no group {group!r}")
        place = of.places[0] if command in (None, group) else self._found(str(command))
        if place is None or place.group is not of:
            raise NoSuchCommand(f"{group} has no command {command!r}")
        return place

    def _name_of(self, place: Place) -> Optional[str]:
        """The name of a command in a line, where it is not the group's own."""
        return place.settings.name if place.number else None

    # -- metrics

    @overload
    def metrics(self) -> dict[str, Metrics]: ...
    @overload
    def metrics(self, name: str) -> Metrics: ...
    def metrics(self, name: Optional[str] = None) -> Union[Metrics, dict[str, Metrics]]:
        """The metrics of a command at this moment, or those of all commands by their names: what all processes did.

        Without settings, of the further commands those are told that were named here before. Each look is a step of the
        group.
        Raises `NoSuchCommand`, `Worn`, `Unreachable` and `Stopped`.
        """
        if name is None:
            places = [place for group in self._groups for place in group.places]
            told = zip(places, self._looked_at(places))
            return {place.spelled: _metrics_in(answer) for place, answer in told if answer.get("reply") == "metrics"}
        known = self._found(name)
        if known is None:
            raise NoSuchCommand(f"no command is called {name!r}")
        (answer,) = self._looked_at([known])
        if answer.get("reply") == "worn":
            raise Worn(f"{known.group.name}: the group has made all of its steps")
        if answer.get("reply") != "metrics":
            raise NoSuchCommand(f"{name}: the service answered {answer}")
        return _metrics_in(answer)

    def _looked_at(self, places: Iterable[Place]) -> list[Answer]:
        return self._ask(
            [_lines.metrics(place.group.name, self._name_of(place)) for place in places]
        )

    def _ask(self, lines: list[bytes]) -> list[Answer]:
        try:
            return self._links.ask(*lines)
        except Lost as lost:
            raise Unreachable(str(lost)) from lost

    def prometheus(self) -> str:
        """The metrics of all commands in Prometheus's text format.

        The gauges are the service's, over all processes; the counters are of this process alone, and have one more: the calls
        that found the service unreachable.
        """
        unreachable = prometheus.unreachable((body.place, body.unreachable) for body in self._bodies)
        metrics = self.metrics()
        return prometheus.text([_sample(group, metrics) for group in self._groups]) + unreachable


def _sample(group: Group, metrics: dict[str, Metrics]) -> prometheus.GroupSample:
    """A group as its metrics are told: by the service what is of this moment, and by this process what it counted."""
    commands, free = [], None
    for place, name in zip(group.places, group.command_names()):
        at, told = metrics.get(place.spelled), None
        if at is not None:
            circuit, free = (HELD_OPEN if place.settings.is_held_open else at.circuit), at.free
            told = prometheus.Told(circuit, at.busy, at.queued, Health(at.errors, at.total))
        commands.append(prometheus.of_place(place, name, told))
    full = sum(place.counters.full for place in group.places)
    return prometheus.GroupSample(prometheus.labelled(group=group.name), group.settings, commands, full, free)


def _checked_choice(choice: WhenUnreachable) -> WhenUnreachable:
    if choice not in _CHOICES:
        raise Refused(f'when_unreachable= is "error" or "fallback", and not {choice!r}')
    return choice


def _run_by_worker(arg: str) -> str:
    raise AssertionError("a worker runs it")


def _unknown(name: str) -> GroupSettings:
    """A group of which the name alone is known."""
    own = CommandSettings(name, is_pooled=False, timeout_ms=None, is_cached=True, circuit_moves=False)
    return GroupSettings(name, 0, (own,))


def _metrics_in(answer: Answer) -> Metrics:
    """Metrics as a line tells them, which leaves out events that did not happen."""
    events = {name: answer["events"].get(name.upper(), 0) for name in words.EVENTS}
    told = {name: answer[name] for name in words.METRICS if name not in words.EVENTS}
    return Metrics(**told, **events)
