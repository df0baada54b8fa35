"""Sheets in threads."""
import threading
import unittest

import keyfoil
from tests import given


def filled(sheet, k):
    """Foil k of a sheet with bars and as many tracks between them as can be laid: what it holds, and the answers."""
    foil = sheet.foil(k)
    foil.new(300, 300, k % 3, 1)
    for n in range(12):
        foil.draw(24 * n % 200, 20 * n + 12, 24 * n % 200 + 90, 20 * n + 15)
    ends = [(4 + 37 * n % 290, 4 + 53 * n % 290) for n in range(60)]
    ways = [foil.lay(net + 1, ends[2 * net], ends[2 * net + 1]) for net in range(30)]
    return given.held(foil), ways


class Threads(unittest.TestCase):
    def started(self, works):
        """What the works come to, each in a thread of its own with stack enough."""
        done, was = [None] * len(works), threading.stack_size(keyfoil.STACK)
        try:
            threads = [threading.Thread(target=lambda k=k: done.__setitem__(k, works[k]())) for k in range(len(works))]
            for thread in threads:
                thread.start()
        finally:
            threading.stack_size(was)
        for thread in threads:
            thread.join()
        return done

    def test_a_sheet_each(self):
        alone = [filled(keyfoil.Sheet(), k) for k in range(8)]
        self.assertTrue(any(way.accepted and way.bends > 1 for _, ways in alone for way in ways))
        library = keyfoil.load()
        self.assertEqual(alone, self.started([lambda k=k: filled(keyfoil.Sheet(library), k) for k in range(8)]))

    def test_foils_of_one_sheet(self):
        """Calls on one sheet wait for one another: the foils do not notice."""
        alone, sheet = [filled(keyfoil.Sheet(), k) for k in range(8)], keyfoil.Sheet()
        self.assertEqual([held for held, _ in alone[:4]],
                         [held for held, _ in self.started([lambda k=k: filled(sheet, k) for k in range(4)])])
