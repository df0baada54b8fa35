"""What is asked of a foil as it stands: nothing is changed by it."""
from typing import Any, Dict, NoReturn, Optional

from desk import advice, job as jobs
from screen import advising, shown, ways
from screen.session import Refused, Session
from screen.ways import Corners

# the number of corners that are no way
NO_WAY = 19


def refuse(session, account, step, number, more=None, lifts=False):
    """A refusal in words, with what would help here."""
    here = session.adviser.here(account, step, number, lifts)
    told = shown.refused(number, session.table, here, step_said(step))
    raise Refused({**told, **(more or {})})


def step_said(step):
    """A step as a text has it; a way drawn by hand and a join have no line of their own."""
    return " ".join([step.word, *map(str, step.numbers)])


def track(net, start, end):
    """A track as a step."""
    return jobs.Step("track", (net, *start, *end))


def look_up(session, k, point):
    """The strip that holds a point, or what blocks it."""
    account = session.account(k)
    said = session.ask({"ask": "look_up", "foil": k, "point": point})
    if said["number"]:
        told = shown.refused(said["number"], session.table, step="look up %d,%d" % tuple(point))
        near = advice.in_the_way(advising.case_of(account, None), point) if said["number"] == 8 else ""
        told["here"] = ["%d,%d is %s" % (*point, near)] if near else []
        around = advising.blocks(account, point) if said["number"] == 8 else {"blocks": [], "edge": False}
        raise Refused({**told, **around})
    return {"place": said["place"], "strip": said["strip"]}


def nearest(session, k, point):
    """The nearest free point, by the strips; the library is asked whether it is free."""
    account = session.account(k)
    if not account.run.strips:
        return {"point": None}
    found = advice.nearest(point, account.run.strips)
    said = session.ask({"ask": "look_up", "foil": k, "point": found})
    return {"point": found if not said["number"] else None}


def free_net(session, k):
    """The lowest number that is not on the foil nor in its text."""
    taken = {outcome.step.net for outcome in session.account(k).run.outcomes}
    return {"net": next((net for net in range(1, 1000) if net not in taken), None)}


def find(session, k, start, end, net):
    """The way of a track before it is laid."""
    account = session.account(k)
    net = net or free_net(session, k)["net"] or 1
    said = session.ask({"ask": "find", "foil": k, "from": start, "to": end, "net": net, "ink": session.ink(k)})
    if said["number"]:
        refuse(session, account, track(net, start, end), said["number"])
    return way_seen(session, k, said, step_said(track(net, start, end)))


def way_seen(session, k, said, step):
    """A way that was tried, as the page gets it."""
    dead = shown.texts.ink_of(session.order.texts[k])["dead"]
    ohms = said.get("ohms")
    return {"corners": said["corners"], "bends": said["bends"], "length": said.get("length"), "ohms": ohms,
            "net_length": said.get("net_length", said.get("length")),
            "dead": ohms is not None and shown.ohms.is_dead(ohms, dead),
            "lay": shown.refused(said["lay"], session.table, step=step) if said.get("lay") else None}


def opens(session, k, start, end, net):
    """The nets of which a single lift opens a way, each tried."""
    session.account(k)
    net = net or free_net(session, k)["net"] or 1
    said = session.ask({"ask": "opening", "foil": k, "from": start, "to": end, "net": net})
    return lifts_of(said)


def lets(session, k, box):
    """The nets of which a single lift lets a patch be drawn, each tried."""
    session.account(k)
    return lifts_of(session.ask({"ask": "letting", "foil": k, "box": box}))


def lifts_of(said):
    """The lifts that help, of those that were tried."""
    return {"lifts": [{key: row[key] for key in ("net", "bends", "length")} for row in said if not row["number"]],
            "tried": len(said)}


def try_book(session: Session, k: int, net: Optional[int], corners: Corners) -> Dict[str, Any]:
    """What a booking of a way would give."""
    account = session.account(k)
    net = net or free_net(session, k)["net"] or 1
    said = session.ask({"ask": "book", "foil": k, "net": net, "corners": corners, "ink": session.ink(k)})
    if said["number"]:
        refuse_drawn(session, account, net, corners, said["number"])
    return way_seen(session, k, said, step_said(drawn(net, corners)))


def try_join(session, k, net, point):
    """What a join would give."""
    account = session.account(k)
    said = session.ask({"ask": "join", "foil": k, "net": net, "point": point, "ink": session.ink(k)})
    if said["number"]:
        refuse_join(session, account, net, point, said["number"])
    return way_seen(session, k, said, step_said(jobs.Step("join", (net, *point))))


def refuse_join(session, account, net, point, number):
    """A refused join in words: what blocks its point, the net's own legs apart."""
    case = advising.case_of(account, None)
    others = case._replace(table=[entry for entry in case.table if entry.net != net])
    near = advice.in_the_way(others, point) if number == 8 else ""
    here = ["its point %d,%d is %s" % (*point, near)] if near else []
    raise Refused(shown.refused(number, session.table, here, step_said(jobs.Step("join", (net, *point)))))


def refuse_drawn(session: Session, account: shown.Account, net: int, corners: Corners, number: int) -> NoReturn:
    """A refused way in words: which corners and straights are at fault, and what blocks them."""
    here = ways.faults(advising.case_of(account, None), account.run.strips, corners) if number == NO_WAY else []
    raise Refused(shown.refused(number, session.table, here, step_said(drawn(net, corners))))


def drawn(net, corners):
    """A way drawn by hand as a step: it has no line of its own."""
    return jobs.Step("book", (net, *(value for corner in corners for value in corner)))


def try_draw(session, k, box):
    """What a patch would be answered."""
    account = session.account(k)
    said = session.ask({"ask": "draw", "foil": k, "box": box})
    if said["number"]:
        refuse(session, account, jobs.Step("patch", tuple(box)), said["number"])
    return {}
