"""The protocol machine, as docs/PROTOCOL.md describes it: lines, homes, wires and steps."""

from dataclasses import dataclass, field
from typing import Optional

from model.tables import STALL

READERS = {"S", "SM^AD", "SM^A", "M", "E"}
WRITERS = {"M", "E"}
MODIFIED = "M"
HOME = "home"
LEAST, MOST = -(2**63), 2**63 - 1


@dataclass(frozen=True)
class Ask:
    cache: int
    block: int
    kind: str
    value: Optional[int] = None

    def __str__(self):
        value = f" {self.value}" if self.kind == "store" else ""
        return f"ask {self.cache} {self.block} {self.kind}{value}"


@dataclass(frozen=True)
class Delivery:
    """A message served: a request or a response by its index, a forward by the cache of its link."""

    network: str
    block: int
    index: int

    def __str__(self):
        return f"{self.network} {self.block} {self.index}"


@dataclass(frozen=True)
class Message:
    kind: str
    receiver: object
    sender: object = None
    requestor: Optional[int] = None
    value: Optional[int] = None
    acks: int = 0


@dataclass
class Line:
    state: str = "I"
    value: int = 0
    acks: int = 0
    pending: Optional[Ask] = None


@dataclass
class Home:
    memory: int
    state: str = "I"
    owner: Optional[int] = None
    sharers: set = field(default_factory=set)


class Block:
    def __init__(self, caches, value):
        self.lines = [Line() for _ in range(caches)]
        self.home = Home(value)
        self.requests, self.responses = [], []
        self.links = [[] for _ in range(caches)]
        self.latest = value

    def is_quiet(self):
        return not self.requests and not self.responses and not any(self.links)

    def wire(self, delivery):
        """The wire that a delivery takes from, and the index on it."""
        if delivery.network == "forward":
            in_shape = delivery.index < len(self.links)
            return (self.links[delivery.index] if in_shape else []), 0
        return (self.requests if delivery.network == "request" else self.responses), delivery.index

    def send(self, message):
        if message.receiver is HOME and message.kind != "Data":
            self.requests.append(message)
        elif message.kind in ("Data", "Data-Excl", "Inv-Ack"):
            self.responses.append(message)
        else:
            self.links[message.receiver].append(message)


@dataclass
class Decision:
    """What a step comes to: an outcome in advance, or `act`; and the cell that it meets, by side, state and event, and as it is."""

    outcome: str
    cache: Optional[int] = None
    cell: object = None
    message: Optional[Message] = None
    met: Optional[tuple] = None


class World:
    def __init__(self, caches, opening, tables):
        self.caches, self.tables, self.broken = caches, tables, False
        self.blocks = [Block(caches, value) for value in opening]

    def decide(self, step):
        if self.broken:
            return Decision("broken")
        if step.block >= len(self.blocks):
            return Decision("absent")
        block = self.blocks[step.block]
        if isinstance(step, Ask):
            if step.cache >= self.caches:
                return Decision("absent")
            if step.kind == "replace" and block.lines[step.cache].state == "I":
                return Decision("idle")
            event = {"load": "Load", "store": "Store", "replace": "Replacement"}[step.kind]
            return self.at_cache(block, step.cache, event, None)
        wire, index = block.wire(step)
        if index >= len(wire):
            return Decision("absent")
        message = wire[index]
        if message.receiver is HOME:
            return self.at_home(block, message)
        event = event_at_line(block.lines[message.receiver], message)
        return self.at_cache(block, message.receiver, event, message)

    def at_cache(self, block, cache, event, message):
        met = (block.lines[cache].state, event)
        cell = self.tables.cache.get(met)
        return Decision(named(cell), cache, cell, message, ("cache", *met))

    def at_home(self, block, message):
        met = (block.home.state, event_at_home(block.home, message))
        cell = self.tables.directory.get(met)
        return Decision(named(cell), None, cell, message, ("directory", *met))

    def deliveries(self):
        """All deliveries of messages that could be served next, if their cells act."""
        for number, block in enumerate(self.blocks):
            yield from (Delivery("request", number, index) for index in range(len(block.requests)))
            yield from (Delivery("forward", number, cache) for cache, link in enumerate(block.links) if link)
            yield from (Delivery("response", number, index) for index in range(len(block.responses)))

    def step(self, step):
        """Makes a step, and answers its outcome."""
        decision = self.decide(step)
        self.broken |= decision.outcome == "blank"
        if decision.outcome != "act":
            return decision.outcome
        block = self.blocks[step.block]
        if isinstance(step, Delivery):
            wire, index = block.wire(step)
            wire.pop(index)
        if decision.cache is None:
            act_at_home(block, decision)
            return "moved"
        act_at_cache(block, decision)
        ask = step if isinstance(step, Ask) else None
        return complete(block, decision.cache, ask) or ("sent" if ask else "moved")


def named(cell):
    if cell is None:
        return "blank"
    return "held" if cell == STALL else "act"


def within(number):
    return max(LEAST, min(MOST, number))


def event_at_line(line, message):
    if message.kind == "Data" and message.sender is HOME:
        return "Data-Dir-Zero" if within(line.acks + message.acks) == 0 else "Data-Dir-More"
    if message.kind == "Data":
        return "Data-Owner"
    if message.kind == "Data-Excl":
        return "Data-Dir-Excl"
    if message.kind == "Inv-Ack":
        return "Last-Inv-Ack" if line.acks == 1 else "Inv-Ack"
    return message.kind


def event_at_home(home, message):
    if message.kind == "PutS":
        return "PutS-Last" if home.sharers == {message.sender} else "PutS-NotLast"
    if message.kind == "PutM":
        return "PutM-Owner" if home.owner == message.sender else "PutM-NonOwner"
    return message.kind


def act_at_cache(block, decision):
    line, message = block.lines[decision.cache], decision.message
    if message and message.kind == "Data":
        line.value = message.value
        if message.sender is HOME:
            line.acks = within(line.acks + message.acks)
    if message and message.kind == "Data-Excl":
        line.value = message.value
    if message and message.kind == "Inv-Ack":
        line.acks = within(line.acks - 1)
    for action in decision.cell.actions:
        message_sent = sent_by_cache(action, decision, line)
        if message_sent:
            block.send(message_sent)
    line.state = decision.cell.next


def sent_by_cache(action, decision, line):
    cache = decision.cache
    requestor = decision.message.requestor if decision.message else None
    if action in ("gets", "getm", "puts", "putm"):
        kind = {"gets": "GetS", "getm": "GetM", "puts": "PutS", "putm": "PutM"}[action]
        return Message(kind, HOME, cache, value=line.value if action == "putm" else None)
    if action == "data-dir":
        return Message("Data", HOME, cache, value=line.value)
    if requestor is None:
        return None
    if action == "inv-ack":
        return Message("Inv-Ack", requestor, cache)
    return Message("Data", requestor, cache, value=line.value)


def act_at_home(block, decision):
    home, message = block.home, decision.message
    requestor = message.sender if message.kind != "Data" else None
    for action in decision.cell.actions:
        if action in ("data-req", "data-acks", "data-excl", "inv-sharers", "fwd-gets", "fwd-getm", "put-ack"):
            for message_sent in sent_by_home(action, home, requestor):
                block.send(message_sent)
        else:
            change_home(action, home, requestor, message)
    home.state = decision.cell.next


def sent_by_home(action, home, requestor):
    if requestor is None:
        return []
    others = sorted(home.sharers - {requestor})
    if action == "inv-sharers":
        return [Message("Inv", sharer, HOME, requestor) for sharer in others]
    if action == "put-ack":
        return [Message("Put-Ack", requestor, HOME)]
    if action in ("fwd-gets", "fwd-getm"):
        kind = "Fwd-GetS" if action == "fwd-gets" else "Fwd-GetM"
        return [] if home.owner is None else [Message(kind, home.owner, HOME, requestor)]
    if action == "data-excl":
        return [Message("Data-Excl", requestor, HOME, value=home.memory)]
    acks = len(others) if action == "data-acks" else 0
    return [Message("Data", requestor, HOME, value=home.memory, acks=acks)]


def change_home(action, home, requestor, message):
    if action == "clear-sharers":
        home.sharers = set()
    elif action == "clear-owner":
        home.owner = None
    elif action == "copy-data":
        home.memory = home.memory if message.value is None else message.value
    elif action == "add-owner":
        home.sharers |= set() if home.owner is None else {home.owner}
    elif requestor is None:
        pass
    elif action == "add-req":
        home.sharers |= {requestor}
    elif action == "remove-req":
        home.sharers -= {requestor}
    elif action == "set-owner":
        home.owner = requestor


def complete(block, cache, ask):
    """Completes an ask, or where there is none what is pending, and answers the completion."""
    line = block.lines[cache]
    wanted = ask or line.pending
    done = None
    if wanted and wanted.kind == "load" and line.state in READERS:
        done = f"load {cache} {line.value}"
    if wanted and wanted.kind == "store" and line.state == MODIFIED:
        line.value = block.latest = wanted.value
        done = f"store {cache} {wanted.value}"
    if done and not ask:
        line.pending = None
    if ask and not done and ask.kind != "replace":
        line.pending = ask
    return done


def violation(world, step, outcome, place, due):
    """The violation of a step, if it has one. `due` has the value that a load of each block has to return."""
    if outcome in ("held", "absent", "idle", "broken"):
        return None
    if outcome == "blank":
        at = "directory" if place is None else f"cache {place}"
        return f"blank {at} block {step.block}"
    states = [line.state for line in world.blocks[step.block].lines]
    writers = [cache for cache, state in enumerate(states) if state in WRITERS]
    if len(writers) > 1:
        return f"second writer {writers[0]} {writers[1]} block {step.block}"
    readers = [cache for cache, state in enumerate(states) if state in READERS and cache not in writers]
    if writers and readers:
        return f"writer {writers[0]} beside reader {readers[0]} block {step.block}"
    word, *rest = outcome.split()
    if word == "load" and int(rest[1]) != due[step.block]:
        return f"stale load got {rest[1]} due {due[step.block]} block {step.block}"
    return None


class Watched:
    """A world with what its loads are due."""

    def __init__(self, caches, blocks, tables, opening=None):
        self.due = list(opening or [0] * blocks)
        self.world = World(caches, self.due, tables)

    def step(self, step):
        """Makes a step, and answers its outcome and its violation."""
        place = self.world.decide(step).cache
        outcome = self.world.step(step)
        found = violation(self.world, step, outcome, place, self.due)
        if outcome.startswith("store "):
            self.due[step.block] = int(outcome.split()[2])
        return outcome, found
