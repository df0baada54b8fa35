"""Changes by a click. Each is a new text of one foil: it is run by the library, and where the step was refused the text
stays as it was.

A join and a way drawn by hand have no line of their own in the text form: they stand there as `leg` lines of their net,
which put the same entries. That these are the same is seen to before the text is taken."""
from typing import Any, Dict, List

from desk import job as jobs
from screen import order as orders, questions, shown, texts
from screen.questions import refuse, step_said
from screen.session import Fault, Refused, Session
from screen.ways import Corners


def commit(session, k, text):
    """Takes a text, once the library has run it."""
    session.library.set_jobs(session.order.jobs(k, text))
    session.order.change(k, text)
    session.changed()


def with_lines(session, k, new):
    """The text of a foil with lines more, and its account before."""
    account = session.account(k)
    try:
        return account, texts.appended(session.order.texts[k], new)
    except texts.Unchangeable as fault:
        raise Fault("unread", "the text of foil %d cannot be made longer: %s" % (k, fault))


def after(session, k, text):
    """The account of a foil with another text."""
    held = session.library.set_jobs(session.order.jobs(k, text))
    return shown.Account(orders.read(text).text, held[k])


def add_step(session, k, step, name=""):
    """Adds a step as a line of its own: what was said of it. Where it is refused, nothing is changed."""
    before, text = with_lines(session, k, [texts.step_line(step.word, step.numbers, name)])
    outcome = last_of(session, after(session, k, text))
    if outcome.number:
        refuse(session, before, step, outcome.number)
    commit(session, k, text)
    return outcome


def last_of(session, account):
    """What was said of the last step of a text."""
    if account.run.fault:
        raise Refused(shown.refused(account.run.fault.number, session.table, step="the whole file"))
    return account.run.outcomes[-1].said


def lay(session, k, net, start, end, name):
    """Lays a track."""
    said = add_step(session, k, questions.track(net, start, end), name)
    return {"way": {"corners": said.corners, "bends": said.bends}}


def draw(session, k, box, name):
    """Draws a patch."""
    add_step(session, k, jobs.Step("patch", tuple(box)), name)
    return {}


def lift(session, k, net):
    """Lifts a net."""
    add_step(session, k, jobs.Step("lift", (net,)))
    return {}


def book(session: Session, k: int, net: int, corners: Corners, name: str) -> Dict[str, Any]:
    """Books a way drawn by hand."""
    account = session.account(k)
    said = session.ask({"ask": "book", "foil": k, "net": net, "corners": corners, "ink": None})
    if said["number"]:
        questions.refuse_drawn(session, account, net, corners, said["number"])
    put_legs(session, k, said["entries"], name)
    return {"way": {"corners": said["corners"], "bends": said["bends"]}}


def join(session, k, net, point):
    """Joins a point to a net."""
    account = session.account(k)
    said = session.ask({"ask": "join", "foil": k, "net": net, "point": point, "ink": None})
    if said["number"]:
        questions.refuse_join(session, account, net, point, said["number"])
    put_legs(session, k, said["entries"], "")
    return {"way": {"corners": said["corners"], "bends": said["bends"]}}


def put_legs(session, k, entries, name):
    """Adds the entries that a call has put behind those of the foil, as `leg` lines."""
    before = session.account(k).held["entries"]
    new = [texts.step_line("leg", entry, name if at == 0 else "")
           for at, entry in enumerate(entries[len(before):])]
    _, text = with_lines(session, k, new)
    if entries[:len(before)] != before or after(session, k, text).held["entries"] != entries:
        raise Fault("mistake", "the `leg` lines do not give the entries that the call has put: nothing was changed")
    if new:
        commit(session, k, text)


def lay_list(session: Session, k: int, wishes: List[Dict[str, Any]], keep: bool) -> Dict[str, Any]:
    """Lays a whole order form."""
    session.account(k)
    asked = [(wish["net"], wish["from"], wish["to"]) for wish in wishes]
    said = session.ask({"ask": "list", "foil": k, "wishes": asked})
    if said["number"]:
        raise Refused(shown.refused(said["number"], session.table, step="a list of %d nets" % len(wishes)))
    steps = [(questions.track(wish["net"], wish["from"], wish["to"]), wish.get("name", "")) for wish in wishes]
    lines = [texts.step_line(step.word, step.numbers, name) for step, name in steps]
    helps = helps_of(session, k, lines, said["ways"])
    kept = [line for line, way in zip(lines, said["ways"]) if keep or not way["number"]]
    if kept:
        _, text = with_lines(session, k, kept)
        if after(session, k, text).held["entries"] != said["entries"]:
            raise Fault("mistake", "the tracks' lines do not give what the list has laid: nothing was changed")
        commit(session, k, text)
    return {"ways": [{**way, "says": shown.refused(way["number"], session.table)["says"] if way["number"] else "",
                      "here": here} for way, here in zip(said["ways"], helps)]}


def helps_of(session: Session, k: int, lines: List[str], ways: List[Dict[str, Any]]) -> List[List[str]]:
    """What would help with each net of an order form that was refused: that of its line, as ./foil has it."""
    if not any(way["number"] for way in ways):
        return [[] for _ in ways]
    account = after(session, k, with_lines(session, k, lines)[1])
    outcomes = account.run.outcomes[-len(lines):] if account.is_done else []
    if [outcome.said.number for outcome in outcomes] != [way["number"] for way in ways]:
        return [[] for _ in ways]
    notes = session.adviser.notes(account)
    return [notes.get(outcome.key, []) for outcome in outcomes]


def relay(session, k, lifted, step, name):
    """Lifts a net, lays a track, and lays the lifted net again between its ends."""
    account = session.account(k)
    steps = account.standing()[1].get(lifted, [])
    if len(steps) != 1 or steps[0].step.word != "track":
        raise Fault("asked", "net %d does not stand as one track, so it cannot be laid again by itself" % lifted)
    again = steps[0].step
    lines = [texts.step_line("lift", (lifted,)), texts.step_line(step.word, step.numbers, name),
             texts.step_line(again.word, again.numbers)]
    _, text = with_lines(session, k, lines)
    said = [outcome.said for outcome in after(session, k, text).run.outcomes[-3:]]
    for of, what in zip(said, (jobs.Step("lift", (lifted,)), step)):
        if of.number:
            raise Refused(shown.refused(of.number, session.table, step=step_said(what)))
    commit(session, k, text)
    return {"way": {"corners": said[1].corners, "bends": said[1].bends},
            "again": shown.refused(said[2].number, session.table, step=step_said(again)) if said[2].number else None}


def put_text(session, k, text):
    """Takes a text as it was typed, readable or not."""
    text = text.replace("\r\n", "\n").replace("\r", "\n")
    if text != session.order.texts[k]:
        commit(session, k, text)
    return {}


def begin(session, k, board):
    """Begins a foil, or gives it another board."""
    line, source = texts.board_line(*board), session.order.texts[k]
    read = session.order.reads[k]
    if not source.strip():
        inks = [figures for figures in map(texts.ink_of, session.order.texts) if figures["sheet"] is not None]
        text = texts.inked(texts.EMPTY % line, inks[0] if inks else {})
    elif read.text and read.text.lines[0].said.startswith("board "):
        text = texts.reboarded(source, read.text.lines[0].number, line)
    else:
        raise Fault("unread", "the text of foil %d has no board that could be changed" % k)
    account = after(session, k, text)
    said = account.run.outcomes[0].said if account.run.outcomes else account.run.fault
    if said.number:
        raise Refused(shown.refused(said.number, session.table, step=line))
    commit(session, k, text)
    return {}


def drop(session, k, line):
    """Takes a line out."""
    source = session.order.texts[k]
    if not 1 <= line <= len(texts.lines_of(source)):
        raise Fault("asked", "the text has no line %d" % line)
    return put_text(session, k, texts.changed(source, {line: None}))


def put_end(session: Session, k: int) -> Dict[str, Any]:
    """Adds a last line `end`, where that is all that the text lacks."""
    text, longer = session.order.texts[k], texts.ended(session.order.texts[k])
    if not orders.read(text).text or after(session, k, text).is_done or not after(session, k, longer).is_done:
        raise Fault("unread", f"a last line `end` is not what the text of foil {k} lacks")
    commit(session, k, longer)
    return {}


def name_net(session, k, net, name):
    """Gives a net a name: on the first line of what stands of it."""
    steps = session.account(k).standing()[1].get(net)
    if not steps:
        raise Fault("asked", "net %d is not on the foil" % net)
    return put_name(session, k, [outcome for outcome in session.account(k).run.outcomes
                                 if outcome.step.word in ("track", "leg") and outcome.step.net == net],
                    steps[0], "net", name)


def name_key(session, k, box, name):
    """Gives a key a name: on the line of its patch."""
    there = [outcome for outcome in session.account(k).standing()[0] if outcome.step.numbers == tuple(box)]
    if not there:
        raise Fault("asked", "there is no patch %d %d %d %d" % tuple(box))
    return put_name(session, k, there, there[0], "key", name)


def put_name(session, k, named, first, word, name):
    """Puts a name on the line of one step, and takes it from those of the others."""
    account, source = session.account(k), session.order.texts[k]
    lines = texts.lines_of(source)
    numbers = {account.line_of(outcome.place) for outcome in named}
    on = account.line_of(first.place)
    return put_text(session, k, texts.changed(source, {
        number: texts.named(lines[number - 1], word, name if number == on else "") for number in numbers}))


def put_ink(session, k, figures):
    """Keeps the ink's figures in the text."""
    return put_text(session, k, texts.inked(session.order.texts[k], figures))


def copy_foil(session, k, other):
    """Copies a foil's text."""
    return put_text(session, k, session.order.texts[other])
