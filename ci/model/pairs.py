"""Two caches of a block as they and its home see each other, and the least closed set of such pairs, as docs/CERTIFY.md tells them:
a second reading of crates/pairs/specs and crates/closing/specs."""

from collections import defaultdict, namedtuple

from model.machine import MODIFIED, READERS, WRITERS
from model.tables import STALL

MOST = {"gets": 2, "getm": 2, "fwd_gets": 2, "fwd_getm": 2}
COUNTS = "gets getm puts putm dir_data owner_data excl_data fwd_gets fwd_getm".split()
TESTS = "fresh fresh_putm fresh_data low owed shares others".split()
# A link has its messages in order, each with its kind and whether it names the very cache that it goes to.
Side = namedtuple("Side", ["state", "waits", "owned", "lag", *COUNTS, *TESTS, "link"])
Home = namedtuple("Home", "state data fresh fresh_data")
# Beside each side stand marks: which messages of its link name the other cache.
Pair = namedtuple("Pair", "home first second first_names second_names")
Scene = namedtuple("Scene", "pair owner third debt")
Step = namedtuple("Step", "rule concerned after")

NOBODY, FIRST, SECOND, THIRD = "nobody", "first", "second", "third"
EVEN, ANNOUNCED, INVALIDATED, UNEVEN = "even", "announced", "invalidated", "uneven"
# Whether a cache awaits fewer Inv-Acks than are owed to it, as many, or more.
BEHIND, LEVEL, AHEAD = "behind", "level", "ahead"
OPENED = Side("I", None, NOBODY, LEVEL, *[0] * len(COUNTS), False, True, True, True, False, False, False, ())
OPENED_PAIR = Pair(Home("I", 0, True, True), OPENED, OPENED, (), ())
ALIKE = {(NOBODY, NOBODY), (THIRD, THIRD), (SECOND, THIRD), (THIRD, SECOND)}
FORWARDS = {"fwd-gets": "Fwd-GetS", "fwd-getm": "Fwd-GetM"}
COUNTED = {"Fwd-GetS": "fwd_gets", "Fwd-GetM": "fwd_getm"}
RULES = "load store replace head gets getm puts putm dir_data owner_data excl_data".split()
RULES += [("ack", last, owed) for last in (False, True) for owed in (False, True)]


class Breach(Exception):
    """What no closed set allows: a pair that isn't followed, or that is spoilt."""


def swapped(pair):
    return Pair(pair.home, pair.second, pair.first, pair.second_names, pair.first_names)


def trimmed(side):
    """None of a kind is fresh in whatever sense."""
    has_data = side.dir_data + side.owner_data + side.excl_data > 0
    return side._replace(fresh_putm=side.fresh_putm or not side.putm, fresh_data=side.fresh_data or not has_data)


def trimmed_home(home):
    return home._replace(fresh_data=home.fresh_data or not home.data)


def marked(kind, link, marks):
    return sum(mark and it == kind for (it, _), mark in zip(link, marks))


def owned_marked(kind, link):
    return sum(own and it == kind for it, own in link)


def names_fit(side, other, marks):
    """Whether what a cache's own link and the other's name of it is counted in what names it."""
    counted = all(
        owned_marked(kind, side.link) + marked(kind, other.link, marks) <= getattr(side, name) for kind, name in COUNTED.items()
    )
    return counted and (side.owed or not marked("Inv", other.link, marks))


def thirds_fit(third, pair):
    one, other = pair.first, pair.second
    return one.others == (other.shares or third) and other.others == (one.shares or third)


def fits(pair):
    one, other = pair.first, pair.second
    owners = (one.owned, other.owned)
    if (NOBODY in owners and owners != (NOBODY, NOBODY)) or owners == ("itself", "itself"):
        return False
    shared = thirds_fit(True, pair) or thirds_fit(False, pair)
    return shared and names_fit(one, other, pair.second_names) and names_fit(other, one, pair.first_names)


def is_few(pair):
    sides = (pair.first, pair.second)
    counts = all(getattr(side, name) <= MOST.get(name, 1) for side in sides for name in COUNTS)
    return counts and pair.home.data <= 1 and all(len(side.link) <= 2 for side in sides)


def seen(concerned, pair):
    """What is seen of a step: whom it concerns besides the first, and the pair after it; `None` where there is no such pair."""
    if not is_few(pair):
        raise Breach("not followed")
    return (concerned, pair) if fits(pair) else None


def spoilt(concerned):
    if concerned != THIRD:
        raise Breach("spoilt")


def more(side, name, fresh=None):
    """A side with one more of something, whose value is fresh or not where it has one."""
    side = side._replace(**{name: getattr(side, name) + 1})
    if fresh is None:
        return side
    tag = "fresh_putm" if name == "putm" else "fresh_data"
    return side._replace(**{tag: getattr(side, tag) and fresh})


def shifted(by, lag):
    """A lag that is moved one way; where it stood on the other side that isn't followed."""
    if by != LEVEL and lag not in (LEVEL, by):
        raise Breach("Inv-Acks don't add up")
    return lag if by == LEVEL else by


def moved_by(event, acks):
    """How so many Inv-Acks in answer to an event move what their receiver awaits beside what is owed to it."""
    due = event == "Inv"
    return LEVEL if acks == due else AHEAD if acks < due else BEHIND


def answered(guess, to, by, pair):
    """What an answer makes of the requestor: whether acks are still owed to it is guessed where it was one less."""
    if to in (NOBODY, THIRD) or by == LEVEL:
        return pair
    if to == FIRST:
        raise Breach("Inv-Acks don't add up")
    second = pair.second
    return pair._replace(second=second._replace(owed=guess if by == AHEAD else True, lag=shifted(by, second.lag)))


def line_acted(to, fresh, action, pair):
    first = pair.first
    if action in ("gets", "getm", "puts"):
        return pair._replace(first=more(first, action))
    if action == "putm":
        return pair._replace(first=more(first, "putm", fresh))
    if action == "data-dir":
        home = pair.home
        return pair._replace(home=home._replace(data=home.data + 1, fresh_data=home.fresh_data and fresh))
    if action == "data-req" and to == FIRST:
        return pair._replace(first=more(first, "owner_data", fresh))
    if action == "data-req" and to == SECOND:
        return pair._replace(second=more(pair.second, "owner_data", fresh))
    return pair


def stale(side):
    return trimmed(side._replace(fresh=False, fresh_putm=False, fresh_data=False))


def stored(pair):
    home = trimmed_home(pair.home._replace(fresh=False, fresh_data=False))
    return pair._replace(home=home, first=stale(pair.first)._replace(fresh=True), second=stale(pair.second))


def waiting(what, pair):
    return pair._replace(first=pair.first._replace(waits=what))


def loaded(concerned, pair, after):
    return seen(concerned, after) if pair.first.fresh else spoilt(concerned)


def settled(concerned, rule, pair):
    reads, modifies = pair.first.state in READERS, pair.first.state == MODIFIED
    if rule == "load":
        return loaded(concerned, pair, pair) if reads else seen(concerned, waiting("load", pair))
    if rule == "store":
        return seen(concerned, stored(pair) if modifies else waiting("store", pair))
    if rule != "replace" and pair.first.waits == "load" and reads:
        return loaded(concerned, pair, waiting(None, pair))
    if rule != "replace" and pair.first.waits == "store" and modifies:
        return seen(concerned, stored(waiting(None, pair)))
    return seen(concerned, pair)


def at_line(tables, rule, guess, to, event, pair):
    """An event comes to the first cache's line, from a forward that names this cache, or from none."""
    concerned = NOBODY if to == FIRST else to
    entry = tables.cache.get((pair.first.state, event))
    if entry is None:
        return spoilt(concerned)
    if entry == STALL:
        return None
    pair = answered(guess, to, moved_by(event, entry.actions.count("inv-ack")), pair)
    fresh = pair.first.fresh
    for action in entry.actions:
        pair = line_acted(to, fresh, action, pair)
    return settled(concerned, rule, pair._replace(first=pair.first._replace(state=entry.next)))


def onto_first(kind, pair):
    link = (*pair.first.link, (kind, True))
    return pair._replace(first=pair.first._replace(link=link), first_names=(*pair.first_names, False))


def onto_second(kind, pair):
    link = (*pair.second.link, (kind, False))
    return pair._replace(second=pair.second._replace(link=link), second_names=(*pair.second_names, True))


def of_first(scene, **parts):
    return scene._replace(pair=scene.pair._replace(first=scene.pair.first._replace(**parts)))


def of_second(scene, **parts):
    return scene._replace(pair=scene.pair._replace(second=scene.pair.second._replace(**parts)))


def others_share(scene):
    return scene.pair.second.shares or scene.third


def announced(scene):
    if not others_share(scene):
        return scene
    return scene._replace(debt={EVEN: ANNOUNCED, INVALIDATED: EVEN}.get(scene.debt, UNEVEN))


def invalidated(scene):
    if not others_share(scene):
        return scene
    debt = UNEVEN if scene.pair.first.owed else {EVEN: INVALIDATED, ANNOUNCED: EVEN}.get(scene.debt, UNEVEN)
    pair = onto_second("Inv", scene.pair) if scene.pair.second.shares else scene.pair
    return scene._replace(pair=pair._replace(first=pair.first._replace(owed=True)), debt=debt)


def resharing(scene):
    return scene if scene.debt == EVEN else scene._replace(debt=UNEVEN)


def forwarded(kind, scene):
    if scene.owner == NOBODY:
        return scene
    pair = {FIRST: onto_first, SECOND: onto_second}.get(scene.owner, lambda _, it: it)(kind, scene.pair)
    return scene._replace(pair=pair._replace(first=more(pair.first, COUNTED[kind])))


def owner_added(scene):
    if scene.owner == FIRST:
        return of_first(scene, shares=True)
    if scene.owner == SECOND:
        return of_second(resharing(scene), shares=True)
    return resharing(scene)._replace(third=True) if scene.owner == THIRD else scene


def done_for(action, scene):
    """An action that a request alone has done."""
    pair, memory = scene.pair, scene.pair.home.fresh
    if action in ("data-req", "data-acks"):
        scene = scene._replace(pair=pair._replace(first=more(pair.first, "dir_data", memory)))
        return announced(scene) if action == "data-acks" else scene
    if action == "data-excl":
        return scene._replace(pair=pair._replace(first=more(pair.first, "excl_data", memory)))
    if action == "inv-sharers":
        return invalidated(scene)
    if action in FORWARDS:
        return forwarded(FORWARDS[action], scene)
    if action == "put-ack":
        return scene._replace(pair=onto_first("Put-Ack", pair))
    if action in ("add-req", "remove-req"):
        return of_first(scene, shares=action == "add-req")
    return scene._replace(owner=FIRST) if action == "set-owner" else scene


def home_acted(asked, value, action, scene):
    """What an action of the home does for a request of the first or, where there is none, for Data; either brings a fresh value,
    another one, or none."""
    if action == "add-owner":
        return owner_added(scene)
    if action == "clear-sharers":
        return of_second(of_first(resharing(scene), shares=False), shares=False)._replace(third=False)
    if action == "clear-owner":
        return scene._replace(owner=NOBODY)
    if action == "copy-data" and value is not None:
        return scene._replace(pair=scene.pair._replace(home=scene.pair.home._replace(fresh=value)))
    return done_for(action, scene) if asked else scene


def owned_by(who, owner):
    return NOBODY if owner == NOBODY else "itself" if who == owner else "another"


def at_home(tables, third, asked, value, event, pair):
    if not thirds_fit(third, pair):
        return None
    entry = tables.directory.get((pair.home.state, event))
    if entry is None:
        return spoilt(NOBODY)
    if entry == STALL:
        return None
    owner = {"itself": FIRST, NOBODY: NOBODY}.get(pair.first.owned) or (SECOND if pair.second.owned == "itself" else THIRD)
    names_owner = asked and owner != FIRST and any(it in ("fwd-gets", "fwd-getm", "add-owner") for it in entry.actions)
    scene = Scene(pair, owner, third, EVEN)
    for action in entry.actions:
        scene = home_acted(asked, value, action, scene)
    if scene.debt == UNEVEN:
        raise Breach("Inv-Acks don't add up")
    pair, third = scene.pair, scene.third
    lag = shifted({ANNOUNCED: AHEAD, INVALIDATED: BEHIND}.get(scene.debt, LEVEL), pair.first.lag)
    first = pair.first._replace(lag=lag, others=pair.second.shares or third, owned=owned_by(FIRST, scene.owner))
    second = pair.second._replace(others=pair.first.shares or third, owned=owned_by(SECOND, scene.owner))
    home = pair.home._replace(state=entry.next)
    return seen(owner if names_owner else NOBODY, pair._replace(home=home, first=first, second=second))


def head_seen(tables, guess, pair):
    """What is seen where the head of the first's link comes to its line."""
    if not pair.first.link:
        return None
    (kind, own), mark = pair.first.link[0], pair.first_names[0]
    to = NOBODY if kind == "Put-Ack" else FIRST if own else SECOND if mark else THIRD
    pair = pair._replace(first=pair.first._replace(link=pair.first.link[1:]), first_names=pair.first_names[1:])
    name = COUNTED.get(kind)
    if name and to in (FIRST, SECOND):
        side = getattr(pair, to)
        pair = pair._replace(**{to: side._replace(**{name: max(0, getattr(side, name) - 1)})})
    return at_line(tables, "head", guess, to, kind, pair)


def request_seen(tables, rule, third, pair):
    first = pair.first
    if not getattr(first, rule):
        return None
    last = first.shares and not first.others
    event = {
        "gets": "GetS",
        "getm": "GetM",
        "puts": "PutS-Last" if last else "PutS-NotLast",
        "putm": "PutM-Owner" if first.owned == "itself" else "PutM-NonOwner",
    }[rule]
    value = first.fresh_putm if rule == "putm" else None
    left = trimmed(first._replace(**{rule: getattr(first, rule) - 1}))
    return at_home(tables, third, True, value, event, pair._replace(first=left))


def data_seen(tables, rule, pair):
    first = pair.first
    if not getattr(first, rule):
        return None
    left, event = first._replace(**{rule: getattr(first, rule) - 1}), {"owner_data": "Data-Owner", "excl_data": "Data-Dir-Excl"}.get(rule)
    if rule == "dir_data":
        awaited = shifted(AHEAD if first.owed else LEVEL, first.lag)
        left, event = left._replace(low=awaited != AHEAD), "Data-Dir-Zero" if awaited == LEVEL else "Data-Dir-More"
    return at_line(tables, rule, False, NOBODY, event, pair._replace(first=trimmed(left._replace(fresh=first.fresh_data))))


def ack_seen(tables, rule, pair):
    _, last, owed = rule
    first = pair.first
    fit = {
        LEVEL: not first.low and last == (not owed),
        AHEAD: not first.low and not last,
        BEHIND: first.low or owed,
    }[first.lag]
    if not first.owed or (first.low and last) or not (first.dir_data or fit):
        return None
    left = first._replace(owed=owed, low=first.low or last)
    return at_line(tables, rule, False, NOBODY, "Last-Inv-Ack" if last else "Inv-Ack", pair._replace(first=left))


def sight(tables, rule, guess, pair):
    """What a step of the first cache by this rule makes of a pair: it is guessed whether a third cache shares, where that counts, and
    of a head whether acks are still owed to the second."""
    if rule in ("load", "store", "replace"):
        event = {"load": "Load", "store": "Store", "replace": "Replacement"}[rule]
        is_idle = rule == "replace" and pair.first.state == "I"
        return None if is_idle else at_line(tables, rule, guess, NOBODY, event, pair)
    if rule == "head":
        return head_seen(tables, guess, pair)
    if rule in ("gets", "getm", "puts", "putm"):
        return request_seen(tables, rule, guess, pair)
    return data_seen(tables, rule, pair) if isinstance(rule, str) else ack_seen(tables, rule, pair)


def home_data_seen(tables, third, pair):
    """What Data that comes to the home makes of a pair."""
    home = pair.home
    if not home.data:
        return None
    left = pair._replace(home=trimmed_home(home._replace(data=home.data - 1)))
    return at_home(tables, third, False, home.fresh_data, "Data", left)


def lengthened(link, marks):
    """Marks for a link that may have grown at its end."""
    return (*marks, *[False] * len(link))[: len(link)]


class Closure:
    """The least set of pairs that is closed under these tables, as far as it has been gathered."""

    def __init__(self, tables):
        self.tables, self.steps, self.waiting = tables, {}, []
        self.starting, self.ending, self.between = defaultdict(list), defaultdict(list), defaultdict(list)
        self.add(OPENED_PAIR)

    def add(self, pair):
        for it in (pair, swapped(pair)):
            if it not in self.steps:
                self.steps[it] = None
                self.waiting.append(it)

    def gather(self):
        """Gathers it to the end. What no closed set allows is raised."""
        while self.waiting:
            pair = self.waiting.pop()
            if pair.first.state in WRITERS and pair.second.state in READERS:
                raise Breach("a writer beside a reader")
            self.steps[pair] = list(self.steps_of(pair))
            self.glue_with(pair)
        return set(self.steps)

    def steps_of(self, pair):
        for guess in (False, True):
            told = home_data_seen(self.tables, guess, pair)
            if told:
                self.add(told[1])
            for rule in RULES:
                told = sight(self.tables, rule, guess, pair)
                if told:
                    if told[0] != THIRD:
                        self.add(told[1])
                    yield Step(rule, *told)

    def glue_with(self, pair):
        """Glues a pair as the first, as the second and as the third of three."""
        front = (pair.home, pair.first)
        self.starting[front].append(pair)
        self.ending[(pair.home, pair.second)].append(pair)
        self.between[(*front, pair.second)].append(pair)
        for other in list(self.starting[front]):
            for third in list(self.between[(pair.home, pair.second, other.second)]):
                self.glue(pair, other, third)
            if other is not pair:
                for third in list(self.between[(pair.home, other.second, pair.second)]):
                    self.glue(other, pair, third)
        for one in list(self.ending[front]):
            for other in list(self.between[(pair.home, one.first, pair.second)]):
                self.glue(one, other, pair)

    def glue(self, one, other, between):
        if any(mark and too for mark, too in zip(one.first_names, other.first_names)):
            return
        for mine in self.steps[one]:
            for theirs in self.steps[other]:
                same = mine.rule == theirs.rule and mine.after[:2] == theirs.after[:2]
                if same and (mine.concerned, theirs.concerned) in ALIKE:
                    self.join(mine, theirs, between)

    def join(self, mine, theirs, between):
        if mine.concerned == SECOND:
            self.add(theirs.after)
        if theirs.concerned == SECOND:
            self.add(mine.after)
        second, third = mine.after.second, theirs.after.second
        names = lengthened(second.link, between.first_names), lengthened(third.link, between.second_names)
        glued = Pair(mine.after.home, second, third, *names)
        if fits(glued):
            self.add(glued)


def side_of(told):
    """A side and its marks, of an object of `msi certify --pairs`."""
    link = tuple((it["kind"], it["own"]) for it in told["link"])
    return Side(**{**told, "link": link}), tuple(it["other"] for it in told["link"])


def pair_of(told):
    (first, first_names), (second, second_names) = side_of(told["first"]), side_of(told["second"])
    return Pair(Home(**told["home"]), first, second, first_names, second_names)
