"""A key that is moved, with its tracks: those with an end near it, and to no other patch nearer, are lifted and laid
anew, their ends moved with it.

In the text the patch's line gets its new place, the lines of its tracks go, and tracks between the moved ends stand
behind all others. Every other track stays where it is: one that would take another way, now that the text is run
without those, is kept as `leg` lines. The lines of a net that was open, and would now be laid before the key's own
tracks, go behind these."""
from typing import NamedTuple

from desk import blocking, foils
from desk.boxes import apart, area, common, widened
from screen import changes, questions, shown, texts
from screen.session import Fault, Refused

# how far beyond the nearest free point an end of a key's track may be
NEAR = 2
# how often tracks are turned into legs before it is given up
ROUNDS = 12


class Move(NamedTuple):
    """A move: the patch's step, how far, and the tracks that go with it by net."""
    patch: object
    by: tuple
    tracks: dict


def shifted(point, by):
    """A point after a move."""
    return (point[0] + by[0], point[1] + by[1])


def is_end_of(account, box, point):
    """Whether a point is as near to a key as an end of its track, and to no other patch nearer."""
    at, pen = blocking.point_box(point), account.held["board"][2:]
    others = [apart(at, other) for net, *other in account.held["entries"] if not net]
    return area(common(at, widened(box, blocking.reach(0, pen) + 1 + NEAR))) > 0 and (
        apart(at, box) <= min(others, default=0))


def tracks_of(account, box):
    """The tracks that go with a key, by net; and the nets near it that stay, since they have legs of their own."""
    tracks, stay = {}, []
    for net, steps in account.standing()[1].items():
        ends = [end for outcome in steps if outcome.step.word == "track" for end in foils.points_of(outcome.step)]
        if any(is_end_of(account, box, end) for end in ends):
            if len(steps) == 1:
                tracks[net] = steps[0]
            else:
                stay.append(net)
    return tracks, stay


def asked(session, k, box, by, nets):
    """What is to be moved."""
    account = session.account(k)
    patch = next((outcome for outcome in account.standing()[0] if outcome.step.numbers == tuple(box)), None)
    if patch is None:
        raise Fault("asked", "there is no patch %d %d %d %d" % tuple(box))
    if account.text.line_of(patch.place).said.startswith("bytes"):
        raise Fault("asked", "the patch is in a line of bytes, which no click changes")
    tracks = tracks_of(account, box)[0]
    if nets is not None:
        wrong = [net for net in nets if net not in account.standing()[1]]
        if wrong:
            raise Fault("asked", "net %d is not on the foil" % wrong[0])
        tracks = {net: steps[0] for net, steps in account.standing()[1].items()
                  if net in nets and len(steps) == 1 and steps[0].step.word == "track"}
    move = Move(patch, tuple(by), tracks)
    refuse_unasked(account, move)
    return account, move


def refuse_unasked(account, move):
    """Refuses a move that no call can be asked about, since it has numbers below 0."""
    x, y = moved_patch(move)[:2]
    if min(x, y) < 0:
        raise Fault("asked", "the patch would begin at %d,%d: no call can be asked about numbers below 0" % (x, y))
    for net in move.tracks:
        for x, y in new_ends(account, move, net):
            if min(x, y) < 0:
                raise Fault("asked", "an end of net %d would go along, to %d,%d: no call can be asked about numbers "
                            "below 0" % (net, x, y))


def new_ends(account, move, net):
    """The ends of a track after the move: those near the key go with it."""
    return [shifted(end, move.by) if is_end_of(account, move.patch.step.numbers, end) else end
            for end in foils.points_of(move.tracks[net].step)]


def moved_patch(move):
    """The patch's numbers after the move."""
    x0, y0, x1, y1 = move.patch.step.numbers
    return (*shifted((x0, y0), move.by), *shifted((x1, y1), move.by))


def text_of(account, source, move, legs, later):
    """The text after a move, with the nets in `legs` kept as legs, and the lines of those in `later` behind all."""
    lines, made, last = texts.lines_of(source), {}, []
    patch, gone = account.line_of(move.patch.place), {*move.tracks, *legs, *later}

    def stays(words):
        """A step that stays on its line, or none."""
        return None if net_of(words) in gone else words

    def moved(words):
        """The same on the line of the patch."""
        return ["patch", *map(str, moved_patch(move))] if words[0] == "patch" else stays(words)

    for line in account.text.lines:
        if line.said.split()[0] not in ("end", "bytes"):
            whole = lines[line.number - 1]
            left = made[line.number] = texts.with_steps(whole, moved if line.number == patch else stays)
            behind = texts.with_steps(whole, lambda words: words if net_of(words) in later else None)
            last += [behind if left is None else texts.parted(behind)[0]] if behind else []
    return texts.appended(texts.changed(source, made), new_lines(account, move, legs) + last)


def net_of(words):
    """The net of a step by its words, none for one that has none."""
    return int(words[1]) if words[0] in ("track", "lift", "leg") else None


def new_lines(account, move, legs):
    """The lines of nets that are kept as legs, and those of the tracks that go with the key."""
    kept = [texts.step_line("leg", (net, *box), name_of(account, net) if at == 0 else "")
            for net in legs for at, box in enumerate(legs[net])]
    ends = {net: new_ends(account, move, net) for net in move.tracks}
    return kept + [texts.step_line("track", (net, *start, *end), name_of(account, net))
                   for net, (start, end) in ends.items()]


def name_of(account, net):
    """A net's name."""
    return next((of.name for of in account.foil.nets if of.net == net), "")


def boxes_by_net(account):
    """The legs of each net on a foil."""
    legs = {}
    for net, *box in account.held["entries"]:
        if net:
            legs.setdefault(net, []).append(tuple(box))
    return legs


def result(session, k, box, by, nets):
    """The text and the account that a move gives, and its nets; or a refusal."""
    before, move = asked(session, k, box, by, nets)
    source, stand, legs, later = session.order.texts[k], boxes_by_net(before), {}, set()
    for _ in range(ROUNDS):
        text = text_of(before, source, move, legs, later)
        account = changes.after(session, k, text)
        now = boxes_by_net(account)
        others = {net: boxes for net, boxes in stand.items() if net not in move.tracks and now.get(net) != boxes}
        if not account.is_done or not set(others) - set(legs) and not set(now) - set(stand) - later:
            break
        legs.update(others)
        later |= set(now) - set(stand)
    refuse_worse(session, before, account, move, stand)
    return text, account, sorted(move.tracks)


def refuse_worse(session, before, account, move, stand):
    """Refuses a move after which the patch, a track of the key or another net is not there as it was."""
    if not account.is_done:
        changes.last_of(session, account)
    box, now = moved_patch(move), boxes_by_net(account)
    if [0, *box] not in account.held["entries"]:
        refused = last_refused(account, lambda step: step.word == "patch" and step.numbers == box)
        say(session, refused, crossed_by(before, box, move))
    for net in move.tracks:
        if net not in now:
            refused = last_refused(account, lambda step: step.net == net)
            say(session, refused, session.adviser.notes(account).get(refused.key, []))
    for net, boxes in stand.items():
        if net not in move.tracks and now.get(net) != boxes:
            refused = last_refused(account, lambda step: step.net == net)
            say(session, refused, ["net %d cannot stay as it is" % net])


def last_refused(account, wanted):
    """The last refused step of a kind."""
    there = [outcome for outcome in account.run.refused if wanted(outcome.step)]
    if not there:
        raise Fault("mistake", "the move would change what no call has refused: nothing was changed")
    return there[-1]


def crossed_by(account, box, move):
    """The nets that stand against the patch at its new place."""
    _, _, half, gap = account.held["board"]
    table = [foils.Entry(net, tuple(at)) for net, *at in account.held["entries"]]
    against = {entry.net for entry in blocking.crossed(box, True, table, (half, gap))} - set(move.tracks)
    return ["it is too near net " + ", ".join(map(str, sorted(against)))] if against else []


def say(session, outcome, here):
    """Refuses a move by the step that was refused."""
    raise Refused(shown.refused(outcome.said.number, session.table, here, questions.step_said(outcome.step)))


def move(session, k, box, by, nets):
    """Moves a key."""
    try:
        text, _, nets = result(session, k, box, by, nets)
    finally:
        session.held()
    changes.commit(session, k, text)
    return {"nets": nets}


def try_move(session, k, box, by, nets):
    """The foil as a move would leave it; nothing is changed."""
    try:
        text, account, nets = result(session, k, box, by, nets)
        counts = shown.counts_of(session.library.set_jobs(session.order.jobs(k, text)))
        made = shown.foil(k, text, account, counts, session.table, {}, (0, []))
    finally:
        session.held()
    return {"nets": nets, "foil": made}


def key_tracks(session, k, box):
    """The tracks that go with a key, and those that stay."""
    tracks, stay = tracks_of(session.account(k), tuple(box))
    return {"nets": sorted(tracks), "stay": sorted(stay)}
