"""Random calls, on states as they are and on spoilt ones, beside the plain router: every answer, and what every foil of
the sheet holds after it."""
import collections
import random
import unittest

from keyfoil import Refusal, Sheet
from tests import plain

# what the answer of an accepted call says, as the plain router says it; nothing else but its corners, if it has some
SAYS = {
    "look_up": lambda answer: answer.place,
    "save": lambda answer: answer.data,
    "slip": lambda answer: answer.data,
    "ohms": lambda answer: answer.ohms,
    "lay_list": lambda answer: [(way.refusal, way.corners) for way in answer.nets],
}


class Chance(random.Random):
    """Calls at random, the same on each run."""

    def point(self, board):
        past = self.random() < 0.1
        return self.randrange(max(1, board.width % 64) + past), self.randrange(max(1, board.height % 64) + past)

    def net(self):
        return self.choice((0, 1000, 65535)) if self.random() < 0.04 else self.choice((1, 2, 3, 4, 5, 6, 999))

    def area(self, board):
        (x, y), past = self.point(board), self.random() > 0.05
        return x, y, x + self.randrange(3) + past, y + self.randrange(3) + past

    def call(self, board):
        """A call: its name and what it is given."""
        often = {"lay": 9, "draw": 6, "lift": 4, "join": 5, "find": 2, "book": 4, "put_leg": 3, "look_up": 2,
                 "lay_list": 2, "save": 1, "slip": 1, "ohms": 2, "new": 2}
        name = self.choices(list(often), list(often.values()))[0]
        return name, getattr(self, "for_" + name)(board)

    def for_new(self, _):
        sizes = [0, 4097] if self.random() < 0.1 else range(3, 12)
        return self.choice(sizes), self.choice(sizes), self.choice((0, 0, 0, 1, 8)), self.choice((0, 0, 1, 1, 2, 16))

    def for_draw(self, board):
        return self.area(board)

    def for_lay(self, board):
        return self.net(), self.point(board), self.point(board)

    def for_lay_list(self, board):
        count = 41 if self.random() < 0.1 else self.randrange(5)
        return ([self.for_lay(board) for _ in range(count)],)

    def for_join(self, board):
        return self.net(), self.point(board)

    def for_find(self, board):
        return self.point(board), self.point(board)

    def for_book(self, board):
        corners, level = [self.point(board)], self.random() < 0.5
        for _ in range(self.randrange(4)):
            (x, y), (newx, newy) = corners[-1], self.point(board)
            corners.append((newx, y) if level != (self.random() < 0.1) else (x, newy))
            level = not level
        return self.net(), corners[self.random() < 0.05:]

    def for_lift(self, _):
        return (self.net(),)

    def for_put_leg(self, board):
        (x, y), long = self.point(board), self.randrange(1, 5)
        return (self.net(), x, y, x + 1, y + long) if self.random() < 0.5 else (self.net(), x, y, x + long, y + 1)

    def for_look_up(self, board):
        return (self.point(board),)

    def for_save(self, _):
        return ()

    for_slip = for_save

    def for_ohms(self, _):
        return self.net(), (self.choice((0.5, 0.1, 1000.0, 0.0, float("nan"))), self.choice((1.0, 3.0, 64.0, 65.0)),
                            self.choice((0.0, 0.7, 4.0, -1.0)))

    def spoil(self, lists, k):
        """Changes a number of the records, the table or the strips."""
        board = lists.records.boards[self.choice((k, k, k, self.randrange(8)))]
        number = self.choice((0, 1, 2, 3, 16, 999, 1000, 4097, 65535))
        kind = self.randrange(9)
        if kind < 4:
            setattr(board, ("width", "height", "half", "gap")[kind], number)
        elif kind == 4:
            board.entries = self.choice((0, 1, 2, 129, 1 << 40))
        elif kind == 5:
            board.strips = self.choice((0, 1, 4096, 4097, 1 << 40))
        elif kind < 8:
            used = sum(board.entries for board in lists.records.boards)
            setattr(lists.table[self.randrange(max(1, used))], self.choice(("net", "x0", "y0", "x1", "y1")), number)
        else:
            lists.strips[k][self.choice((0, 1, 2, 3, 4, 5, 16383))] = number


class RandomCalls(unittest.TestCase):
    def compared(self, sheet, k, name, given):
        """Makes a call by both, sees that they agree, and answers the refusal."""
        held = plain.Held(sheet)
        answer = getattr(sheet.foil(k), name)(*given)
        try:
            said, refusal = getattr(plain.Calls(held, k), name)(*given), Refusal.ACCEPTED
        except plain.Refused as refused:
            said, refusal = None, refused.number
        self.assertEqual(refusal, answer.refusal, (k, name, given))
        if answer.accepted:
            self.assertEqual(said, SAYS.get(name, lambda a: getattr(a, "corners", None))(answer), (k, name, given))
        self.assertTrue(held.same(sheet), (k, name, given))
        return refusal

    def test_calls(self):
        chance, met = Chance(34), collections.Counter()
        for _ in range(20):
            sheet = Sheet()
            for k in range(7):
                met[self.compared(sheet, k, "new", (chance.randrange(4, 11), chance.randrange(4, 11), 0, k % 2))] += 1
            for _ in range(250):
                k = chance.choice((0, 0, 0, 1, 2, 3, 4, 5, 6, 7, 8) if chance.random() < 0.3 else (0, 1, 2))
                name, given = chance.call(sheet.foil(min(k, 7)).board)
                if chance.random() < 0.08:
                    spoilt = sheet.copy()
                    chance.spoil(spoilt.lists, min(k, 7))
                    met[self.compared(spoilt, k, name, given)] += 1
                else:
                    met[self.compared(sheet, k, name, given)] += 1
        self.assertGreater(met[0], 1000)
        for number in (1, 3, 4, 5, 6, 7, 8, 9, 12, 13, 19, 20, 21, 22, 23):
            self.assertGreater(met[number], 0, "no call met %d" % number)
