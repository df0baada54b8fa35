"""What the page can ask, by name, with what each wants: PROTOCOL.md has it in words. A request is checked here, and
done by questions, changes, moving, the order or the shelf."""
from typing import Any, Dict

from desk.plotting import sheets
from screen import changes, moving, papers, questions
from screen.library import Unasked
from screen.order import FOILS, Order
from screen.session import Fault, Session
from screen.shelf import good

# the largest number of a call, and the longest lists that are taken
MOST, CORNERS, WISHES = 0xFFFF, 8192, 400
# a figure of the ink is less
LARGEST = 1e9


class Asked:
    """A request's values, each checked when it is taken."""

    def __init__(self, values):
        if not isinstance(values, dict):
            raise Fault("asked", "a request is an object")
        self.values = values

    def has(self, key):
        """Whether a value is given."""
        return self.values.get(key) is not None

    def number(self, key, most=MOST, least=0):
        """A whole number."""
        return whole(self.values.get(key), key, most, least)

    @property
    def foil(self):
        """The number of a foil; 0 where none is given."""
        return self.number("foil", FOILS - 1) if self.has("foil") else 0

    def net(self, needed=True):
        """The number of a net, or none."""
        return self.number("net") if needed or self.has("net") else None

    def numbers(self, key, count, least=0):
        """So many numbers."""
        return numbers(self.values.get(key), key, count, least)

    def points(self, key):
        """A list of points."""
        given = self.values.get(key)
        if not isinstance(given, list) or len(given) > CORNERS:
            raise Fault("asked", "`%s` is no list of points" % key)
        return [numbers(point, key, 2) for point in given]

    def word(self, key, most=4_000_000):
        """A text; empty where none is given."""
        given = self.values.get(key, "")
        if given is None:
            return ""
        if not isinstance(given, str) or len(given) > most:
            raise Fault("asked", "`%s` is no text, or too long" % key)
        return given.encode("utf-8", "replace").decode()

    def truth(self, key):
        """Whether something is asked for."""
        return self.values.get(key) is True

    def figure(self, key):
        """A number with or without decimals, or none."""
        given = self.values.get(key)
        if given is None:
            return None
        if isinstance(given, bool) or not isinstance(given, (int, float)) or not abs(given) < LARGEST:
            raise Fault("asked", "`%s` is no number" % key)
        return float(given)

    def wishes(self):
        """The nets of an order form."""
        given = self.values.get("wishes")
        if not isinstance(given, list) or len(given) > WISHES:
            raise Fault("asked", "`wishes` is no list of nets")
        made = []
        for wish in map(Asked, given):
            made.append({"net": wish.net(), "from": wish.numbers("from", 2), "to": wish.numbers("to", 2),
                         "name": wish.word("name", 200)})
        return made


def whole(value, key, most=MOST, least=0):
    """A whole number within its bounds."""
    if isinstance(value, bool) or not isinstance(value, int) or not least <= value <= most:
        raise Fault("asked", "`%s` is no whole number from %d to %d" % (key, least, most))
    return value


def numbers(value, key, count, least=0):
    """So many whole numbers."""
    if not isinstance(value, list) or len(value) != count:
        raise Fault("asked", "`%s` is no list of %d numbers" % (key, count))
    return tuple(whole(number, key, MOST, least) for number in value)


# what asks

def find(session, asked):
    """The way of a track before it is laid."""
    return questions.find(session, asked.foil, asked.numbers("from", 2), asked.numbers("to", 2), asked.net(False))


def opens(session, asked):
    """The lifts that would help: for a patch, or for a track."""
    if asked.has("box"):
        return questions.lets(session, asked.foil, asked.numbers("box", 4))
    return questions.opens(session, asked.foil, asked.numbers("from", 2), asked.numbers("to", 2), asked.net(False))


def moved(asked):
    """What a request says of a move."""
    nets = [whole(net, "nets") for net in asked.values["nets"]] if isinstance(asked.values.get("nets"), list) else None
    return asked.foil, asked.numbers("box", 4), asked.numbers("by", 2, -MOST), nets


def past_orders(session: Session) -> Dict[str, Any]:
    """The orders of the folder; one that only a closed tab has open is not open."""
    orders = [{**row, "open": row["open"] and not session.tabs.is_left(row["name"])} for row in session.shelf.orders()]
    return {"orders": orders, "folder": str(session.shelf.path)}


def plot(session: Session, asked: Asked) -> Dict[str, object]:
    """The plot file of a foil."""
    manner = sheets.Manner(asked.word("patches", 20), asked.truth("travel"))
    return papers.plotted(session, asked.foil, asked.word("mm", 20), asked.word("format", 20), manner,
                          asked.truth("open"))


def watch(session, asked):
    """Waits for a change."""
    session.watch(*(asked.values.get(key) for key in ("version", "generation", "screens")))
    return {}


ASKING = {
    "state": lambda session, asked: session.state(asked.foil),
    "look_up": lambda session, asked: questions.look_up(session, asked.foil, (asked.number("x"), asked.number("y"))),
    "nearest": lambda session, asked: questions.nearest(session, asked.foil, (asked.number("x"), asked.number("y"))),
    "find": find,
    "opens": opens,
    "try_book": lambda session, asked: questions.try_book(
        session, asked.foil, asked.net(False), asked.points("corners")),
    "try_join": lambda session, asked: questions.try_join(session, asked.foil, asked.net(), asked.numbers("point", 2)),
    "try_draw": lambda session, asked: questions.try_draw(session, asked.foil, asked.numbers("box", 4)),
    "try_move": lambda session, asked: moving.try_move(session, *moved(asked)),
    "tracks_of": lambda session, asked: moving.key_tracks(session, asked.foil, asked.numbers("box", 4)),
    "plot": plot,
    "free_net": lambda session, asked: questions.free_net(session, asked.foil),
    "orders": lambda session, asked: past_orders(session),
    "watch": watch,
}


# what changes

def relay(session, asked):
    """Lifts a net for a track, and lays it again."""
    step = questions.track(asked.net(), asked.numbers("from", 2), asked.numbers("to", 2))
    return changes.relay(session, asked.foil, asked.number("lift"), step, asked.word("name", 200))


def name(session, asked):
    """Names a key or a net."""
    if asked.has("box"):
        return changes.name_key(session, asked.foil, asked.numbers("box", 4), asked.word("name", 200))
    return changes.name_net(session, asked.foil, asked.net(), asked.word("name", 200))


def ink(session, asked):
    """Keeps the ink's figures."""
    figures = {key: asked.figure(key) for key in ("sheet", "bend", "width", "dead")}
    return changes.put_ink(session, asked.foil, figures)


def back(session, asked, step):
    """Undoes or redoes a change: the foil that it was of."""
    foil = step()
    if foil is None:
        return {"foil": asked.foil}
    session.changed()
    return {"foil": foil}


def refuse_unsaved(session, asked):
    """Refuses to lose changes, unless that is asked for."""
    if session.order.unsaved and not asked.truth("discard"):
        raise Fault("unsaved", "the order %s has changes that are not saved" % (session.order.name or "without a name"))


def take(session, order):
    """Has another order open; its version goes on from the last one's."""
    order.version += session.order.version
    session.order = order
    session.told.notify_all()
    return {}


def open_order(session: Session, asked: Asked) -> Dict[str, Any]:
    """Opens a past order."""
    wanted = good(asked.word("name"))
    refuse_unsaved(session, asked)
    session.shelf.texts(wanted)
    session.shelf.drop_draft()
    session.tabs.give_up(wanted)
    return take(session, session.shelf.open(wanted))


def new_order(session, asked):
    """Begins an order without a name."""
    refuse_unsaved(session, asked)
    session.shelf.drop_draft()
    return take(session, session.shelf.begin(Order()))


def template(session, asked):
    """Begins an order with the texts of a past one."""
    wanted = good(asked.word("name"))
    refuse_unsaved(session, asked)
    texts = session.shelf.texts(wanted)
    session.shelf.drop_draft()
    return take(session, session.shelf.begin(Order("", texts, saved=False)))


def save(session: Session, asked: Asked) -> Dict[str, Any]:
    """Saves the order, under its name or another."""
    wanted = good(asked.word("name") or session.order.name)
    session.tabs.give_up(wanted)
    files, without = papers.files(session, wanted)
    written = session.shelf.save(session.order, wanted, files, asked.word("over", 64))
    session.order.name, session.order.saved = wanted, session.order.texts
    session.order.draft, session.order.amiss, session.order.unkept = "", "", ""
    session.told.notify_all()
    return {"files": written, "without": without}


CHANGING = {
    "text": lambda session, asked: changes.put_text(session, asked.foil, asked.word("text")),
    "begin": lambda session, asked: changes.begin(
        session, asked.foil, [asked.number(key) for key in ("width", "height", "half", "gap")]),
    "lay": lambda session, asked: changes.lay(
        session, asked.foil, asked.net(), asked.numbers("from", 2), asked.numbers("to", 2), asked.word("name", 200)),
    "book": lambda session, asked: changes.book(
        session, asked.foil, asked.net(), asked.points("corners"), asked.word("name", 200)),
    "join": lambda session, asked: changes.join(session, asked.foil, asked.net(), asked.numbers("point", 2)),
    "draw": lambda session, asked: changes.draw(session, asked.foil, asked.numbers("box", 4), asked.word("name", 200)),
    "lift": lambda session, asked: changes.lift(session, asked.foil, asked.net()),
    "relay": relay,
    "move": lambda session, asked: moving.move(session, *moved(asked)),
    "list": lambda session, asked: changes.lay_list(session, asked.foil, asked.wishes(), asked.truth("keep")),
    "drop": lambda session, asked: changes.drop(session, asked.foil, asked.number("line")),
    "end": lambda session, asked: changes.put_end(session, asked.foil),
    "name": name,
    "ink": ink,
    "copy_foil": lambda session, asked: changes.copy_foil(session, asked.foil, asked.number("from", FOILS - 1)),
    "undo": lambda session, asked: back(session, asked, session.order.undo),
    "redo": lambda session, asked: back(session, asked, session.order.redo),
    "open": open_order,
    "new": new_order,
    "template": template,
    "save": save,
}


def done(session: Session, word: str, asked: Asked) -> Dict[str, Any]:
    """Does a request: its answer."""
    with session.lock:
        if word in ASKING:
            return ASKING[word](session, asked)
        if word not in CHANGING:
            raise Fault("absent", "there is no request `%s`" % word[:40])
        if asked.values.get("version") != session.order.version:
            raise Fault("stale", "the order was changed since this tab has seen it, or another order is open")
        made = CHANGING[word](session, asked)
        foil = made.get("foil", asked.foil)
        try:
            return {**made, "state": session.state(foil)}
        except Unasked:
            # the change is made: a library that ended since is asked once more
            return {**made, "state": session.state(foil)}
