import argparse
import itertools
from collections.abc import Callable, Generator, Sequence
from typing import NamedTuple, TypeVar

from rvstm_tools.errors import Status
from rvstm_tools.options import Command, argument, count

MOST_STATES = 20_000
Value = int | None  # of a key; None if it has none
Run = Generator[str, Value, dict[str, Value]]  # it asks for keys, is sent their values, and returns its writes
Writes = tuple[tuple[str, Value], ...]  # by ascending key
Item = TypeVar("Item")


def put(key: str, value: Value) -> Run:
    return {key: value}
    yield  # is not reached: it makes this a generator


def copy(source: str, target: str) -> Run:
    return {target: (yield source)}


def add(key: str) -> Run:
    return {key: ((yield key) or 0) + 1}


def conditional() -> Run:
    """Writes b, and c too if a has a number above 0."""
    return {"b": 1, "c": 1} if (yield "a") else {"b": 1}


class ModelBlock(NamedTuple):
    calls: Sequence[Callable[[], Run]]
    reads: int = 1
    """No call has more reads, and none has more writes than the next number."""
    writes: int = 1


BLOCKS = {
    "put, copy": ModelBlock([lambda: put("a", 1), lambda: copy("a", "b")]),
    "copy, put": ModelBlock([lambda: copy("a", "b"), lambda: put("a", 1)]),
    "two sums": ModelBlock([lambda: add("a")] * 2),
    "put, conditional, copy": ModelBlock([lambda: put("a", 1), conditional, lambda: copy("b", "d")], writes=2),
    "put, remove, copy": ModelBlock([lambda: put("a", 1), lambda: put("a", None), lambda: copy("a", "b")]),
    "conditional, put, copy": ModelBlock([conditional, lambda: put("a", 1), lambda: copy("b", "a")], writes=2),
    "three sums": ModelBlock([lambda: add("a")] * 3),
}


class WriteEntry(NamedTuple):
    """What a call wrote to a key; without an incarnation it is an estimate."""

    key: str
    writer: int
    incarnation: int | None
    value: Value


Read = tuple[str, WriteEntry | None]  # a key, and the entry that answered; None if the storage before the block did


class CallState(NamedTuple):
    status: str = "ready"
    incarnation: int = 0
    parked: int | None = None
    writes: Writes = ()
    reads: tuple[Read, ...] = ()


class Executing(NamedTuple):
    call: int
    reads: tuple[Read, ...] = ()
    blocked: int | None = None


class MovingKeys(NamedTuple):
    call: int
    keys: tuple[str, ...]
    writes_new_key: bool


class Validating(NamedTuple):
    call: int
    incarnation: int
    left: int
    has_failed: bool = False


class Marking(NamedTuple):
    call: int
    keys: tuple[str, ...]


Task = Executing | MovingKeys | Validating | Marking | None


class ModelState(NamedTuple):
    calls: tuple[CallState, ...]
    entries: tuple[WriteEntry, ...]  # by ascending key and writer
    execution: int
    validation: int
    tasks: tuple[Task, ...]


def next_of(run: Run, values: Sequence[Value]) -> str | Writes:
    """The key for which a run asks after it got these values, or its writes if it has ended."""
    try:
        asked = next(run)
        for value in values:
            asked = run.send(value)
        return asked
    except StopIteration as end:
        return tuple(sorted(end.value.items()))


def replaced(items: tuple[Item, ...], place: int, item: Item) -> tuple[Item, ...]:
    return (*items[:place], item, *items[place + 1 :])


def found(state: ModelState, key: str, reader: int) -> WriteEntry | None:
    """The entry of the greatest writer below the reader."""
    return next((one for one in reversed(state.entries) if one.key == key and one.writer < reader), None)


def with_entry(state: ModelState, key: str, writer: int, entry: WriteEntry | None) -> ModelState:
    entries = [one for one in state.entries if (one.key, one.writer) != (key, writer)] + ([entry] if entry else [])
    return state._replace(entries=tuple(sorted(entries, key=lambda one: one[:2])))


def with_call(state: ModelState, index: int, call: CallState) -> ModelState:
    return state._replace(calls=replaced(state.calls, index, call))


def readied(call: CallState) -> CallState:
    return call._replace(status="ready", incarnation=call.incarnation + 1, parked=None)


def is_quiet(state: ModelState) -> bool:
    """Whether both indices are past the last call, so that an asking changes nothing."""
    return state.execution == state.validation == len(state.calls)


def asked(state: ModelState) -> tuple[ModelState, Task]:
    index = min(state.validation, state.execution)
    if state.validation < state.execution:
        call, state = state.calls[index], state._replace(validation=index + 1)
        return state, Validating(index, call.incarnation, len(call.reads)) if call.status == "executed" else None
    call, state = state.calls[index], state._replace(execution=index + 1)
    if call.status != "ready":
        return state, None
    return with_call(state, index, call._replace(status="executing")), Executing(index)


def executed(block: ModelBlock, state: ModelState, task: Executing) -> tuple[ModelState, Task]:
    """The step of a run: it reads, is parked, or is recorded."""
    index, reads, blocked = task
    call = state.calls[index]
    if blocked is not None:
        if state.calls[blocked].status == "executed":
            return state, Executing(index)
        return with_call(state, index, call._replace(status="aborting", parked=blocked)), None
    following = next_of(block.calls[index](), [entry.value if entry else None for _, entry in reads])
    if isinstance(following, str):
        entry = found(state, following, index)
        if entry and entry.incarnation is None:
            return state, Executing(index, reads, entry.writer)
        return state, Executing(index, (*reads, (following, entry)))
    written, before = ([key for key, _ in writes] for writes in (following, call.writes))
    left_over = (key for key in before if key not in written)
    moving = MovingKeys(index, (*written, *left_over), not set(written) <= set(before))
    return with_call(state, index, call._replace(writes=following, reads=reads)), moving


def moved(state: ModelState, task: MovingKeys) -> tuple[ModelState, Task]:
    """The next key is published or withdrawn; after the last one the execution is finished."""
    index, call = task.call, state.calls[task.call]
    if task.keys:
        key, writes = task.keys[0], dict(call.writes)
        entry = WriteEntry(key, index, call.incarnation, writes[key]) if key in writes else None
        return with_entry(state, key, index, entry), task._replace(keys=task.keys[1:])
    state = with_call(state, index, call._replace(status="executed"))
    parked = [number for number, other in enumerate(state.calls) if other.parked == index]
    for number in parked:
        state = with_call(state, number, readied(state.calls[number]))
    state = state._replace(execution=min([state.execution, *parked]))
    if state.validation <= index:
        return state, None
    if task.writes_new_key:
        return state._replace(validation=index), None
    return state, Validating(index, call.incarnation, len(call.reads))


def validated(state: ModelState, task: Validating) -> tuple[ModelState, Task]:
    """The next read is checked, or it is decided whether the call is taken back."""
    call = state.calls[task.call]
    is_there = (call.status, call.incarnation) == ("executed", task.incarnation)
    if not is_there or not task.left and not task.has_failed:
        return state, None
    if task.has_failed:
        state = with_call(state, task.call, call._replace(status="aborting"))
        return state, Marking(task.call, tuple(key for key, _ in call.writes))
    key, origin = call.reads[-task.left]
    entry = found(state, key, task.call)
    if (entry and entry[:3]) == (origin and origin[:3]):  # values do not count
        return state, task._replace(left=task.left - 1)
    return state, task._replace(has_failed=True)


def marked(state: ModelState, task: Marking) -> tuple[ModelState, Task]:
    """The next key becomes an estimate; after the last one the call is readied."""
    index, call = task.call, readied(state.calls[task.call])
    if task.keys:
        estimate = WriteEntry(task.keys[0], index, None, None)
        return with_entry(state, estimate.key, index, estimate), task._replace(keys=task.keys[1:])
    state = state._replace(validation=min(state.validation, index + 1))
    if index >= state.execution:
        return with_call(state, index, call), None
    return with_call(state, index, call._replace(status="executing")), Executing(index)


def after(block: ModelBlock, state: ModelState, worker: int) -> ModelState:
    """The state after the step that a worker owes, which is no asking that changes nothing."""
    task = state.tasks[worker]
    if task is None:
        state, task = asked(state)
    elif isinstance(task, Executing):
        state, task = executed(block, state, task)
    elif isinstance(task, MovingKeys):
        state, task = moved(state, task)
    elif isinstance(task, Validating):
        state, task = validated(state, task)
    else:
        state, task = marked(state, task)
    return state._replace(tasks=replaced(state.tasks, worker, task))


def in_order(block: ModelBlock) -> list[Writes]:
    storage: dict[str, Value] = {}
    found: list[Writes] = []
    for call in block.calls:
        values: list[Value] = []
        while isinstance(following := next_of(call(), values), str):
            values.append(storage.get(following))
        storage |= dict(following)
        found.append(following)
    return found


def graph_of(block: ModelBlock, workers: int) -> dict[ModelState, list[ModelState]] | None:
    """All states, breadth first, each with those to which its steps of work lead; None if there are too many."""
    steps: dict[ModelState, list[ModelState]] = {}
    level = [ModelState((CallState(),) * len(block.calls), (), 0, 0, (None,) * workers)]
    while level:
        for state in level:
            working = [worker for worker in range(workers) if state.tasks[worker] or not is_quiet(state)]
            steps[state] = [after(block, state, worker) for worker in working]
        level = list(dict.fromkeys(one for state in level for one in steps[state] if one not in steps))
        if len(steps) > MOST_STATES:
            return None
    return steps


def most_work(steps: dict[ModelState, list[ModelState]]) -> dict[ModelState, int]:
    """The most steps of work on a way to each state. A state is left out if a circle leads to it."""
    missing = dict.fromkeys(steps, 0)
    for state in itertools.chain.from_iterable(steps.values()):
        missing[state] += 1
    ready = [state for state, count in missing.items() if count == 0]
    most = dict.fromkeys(ready, 0)
    for state in ready:
        for one in steps[state]:
            most[one] = max(most.get(one, 0), most[state] + 1)
            missing[one] -= 1
            if missing[one] == 0:
                ready.append(one)
    return {state: most[state] for state in ready}


def fault_of(block: ModelBlock, workers: int, steps: dict[ModelState, list[ModelState]]) -> str:
    """What a graph has that no fair schedule may lead to; empty if there is nothing."""
    most, count = most_work(steps), len(block.calls)
    if len(most) < len(steps):
        return "work goes on in a circle"
    cost = (workers + 1) * (block.reads + 2 * block.writes + 2) + 2 * count * (block.reads + 3) + block.writes + 1
    for state, work in most.items():
        if work > (count + sum(call.incarnation for call in state.calls)) * cost:
            return f"{work} steps of work lead to {state}"
        if any(call.incarnation >= (2 * block.writes + 2) ** index for index, call in enumerate(state.calls)):
            return f"an incarnation is above its bound in {state}"
        if not steps[state] and [call.writes for call in state.calls] != in_order(block):
            return f"the calls wrote something else than in order in {state}"
    return ""


def run(given: argparse.Namespace) -> int:
    failed = 0
    for workers, (name, block) in itertools.product(range(1, given.workers + 1), BLOCKS.items()):
        steps = graph_of(block, workers)
        fault = "" if steps is None else fault_of(block, workers, steps)
        failed += bool(fault)
        counted = f"more than {MOST_STATES} states, left out" if steps is None else f"{len(steps)} states"
        print(f"{name}, {workers} workers: {counted}" + (f"; failed: {fault}" if fault else ""), flush=True)
    return Status.FAILED if failed else Status.DONE


COMMAND = Command(
    "Walks through all states of small blocks with a model of the scheduler, and checks that each fair schedule ends.",
    "--workers 2",
    run,
    (argument("--workers", type=count, default=3, metavar="N", help="with 1 to N workers (3)"),),
)
