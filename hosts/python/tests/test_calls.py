"""Every call on a foil, accepted and refused."""
import unittest

from keyfoil import Entry, Ink, OldFoil, Point, Refusal, Sheet, Strip, Way
from tests import given


class Calls(unittest.TestCase):
    def setUp(self):
        self.sheet = Sheet()
        self.foil = self.sheet.foil(0)

    def refused(self, number, answer):
        """The answer has this number, and the foil is as it was."""
        self.assertEqual(number, int(answer.refusal))
        self.assertFalse(answer.accepted)

    def test_not_begun(self):
        self.assertFalse(self.foil.begun)
        self.assertEqual(((0,) * 6, (), ()), given.held(self.foil))
        self.refused(13, self.foil.draw(2, 0, 3, 3))
        self.refused(13, self.foil.look_up((0, 0)))

    def test_new(self):
        self.refused(1, self.foil.new(0, 4))
        self.refused(1, self.foil.new(4097, 4))
        self.refused(20, self.foil.new(6, 4, 8, 0))
        self.refused(20, self.foil.new(6, 4, 0, 16))
        self.assertFalse(self.foil.begun)
        self.assertTrue(self.foil.new(20, 16, 1, 1).accepted)
        self.assertEqual(((20, 16, 1, 1, 0, 1), (), ((2, 2, 18, 14),)), given.held(self.foil))
        self.assertTrue(self.foil.new(20, 16, 7, 15).accepted)
        self.assertEqual((), self.foil.strips)

    def test_a_foil(self):
        foil = given.begun(self.sheet)
        self.assertEqual(((6, 4, 0, 0, 4, 3), given.ENTRIES, given.STRIPS), given.held(foil))
        self.assertEqual((5,), foil.nets)
        self.assertIsInstance(foil.entries[0], Entry)
        self.assertIsInstance(foil.strips[0], Strip)

    def test_draw(self):
        foil = given.begun(self.sheet)
        before = given.held(foil)
        self.refused(3, foil.draw(3, 0, 2, 3))
        self.refused(3, foil.draw(0, 0, 7, 1))
        self.refused(21, foil.draw(0, 3, 6, 4))
        self.assertEqual(before, given.held(foil))
        self.assertTrue(foil.draw(5, 0, 6, 1).accepted)
        self.assertEqual((0, 5, 0, 6, 1), foil.entries[-1])

    def test_lay(self):
        foil = given.begun(self.sheet)
        before = given.held(foil)
        self.refused(4, foil.lay(0, (1, 0), (1, 2)))
        self.refused(5, foil.lay(5, (0, 0), (4, 0)))
        self.refused(7, foil.lay(6, (1, 0), (6, 0)))
        self.refused(8, foil.lay(6, (2, 0), (1, 0)))
        self.assertEqual(Way(Refusal.NO_PATH), foil.lay(6, (1, 0), (5, 0)))
        self.assertEqual(before, given.held(foil))
        self.assertEqual(Way(Refusal.ACCEPTED, (Point(1, 0), Point(1, 2)), 0), foil.lay(6, (1, 0), (1, 2)))

    def test_find_and_book(self):
        foil = self.foil
        foil.new(6, 4)
        foil.draw(2, 0, 3, 3)
        before = given.held(foil)
        way = foil.find((0, 0), (4, 0))
        self.assertEqual((given.CORNERS, 2), (way.corners, way.bends))
        self.refused(8, foil.find((0, 0), (2, 0)))
        for drawn in ((), ((0, 0), (0, 3), (6, 3), (6, 0)), ((0, 0), (1, 1)), ((0, 0), (0, 1), (0, 2))):
            self.refused(19, foil.book(9, drawn))
        self.assertEqual(before, given.held(foil))
        self.assertEqual(way, foil.book(5, way.corners))
        self.assertEqual(((6, 4, 0, 0, 4, 3), given.ENTRIES, given.STRIPS), given.held(foil))
        self.refused(5, foil.book(5, way.corners))

    def test_lift(self):
        foil = given.begun(self.sheet)
        self.refused(4, foil.lift(0))
        self.refused(6, foil.lift(6))
        self.assertTrue(foil.lift(5).accepted)
        self.assertEqual(((6, 4, 0, 0, 1, 3), ((0, 2, 0, 3, 3),), ((0, 0, 2, 3), (3, 0, 6, 3), (0, 3, 6, 4))),
                         given.held(foil))

    def test_join(self):
        foil = self.foil
        foil.new(9, 7)
        foil.lay(5, (1, 1), (7, 1))
        self.assertEqual(((4, 5), (4, 1)), foil.join(5, (4, 5)).corners)
        self.assertEqual(((4, 3),), foil.join(5, (4, 3)).corners)
        self.assertEqual(((5, 1, 1, 8, 2), (5, 4, 1, 5, 6), (5, 4, 3, 5, 4)), foil.entries)
        self.refused(7, foil.join(5, (0, 9)))
        self.refused(6, foil.join(6, (0, 0)))
        self.refused(4, foil.join(0, (0, 0)))
        self.assertEqual(10.0, foil.ohms(5, (1, 1, 0)).ohms)
        self.assertEqual(12.0, foil.ohms(5, (1, 1, 1)).ohms)
        self.assertEqual(b"  5    3      10     1     1    \n", foil.slip().data)

    def test_a_list(self):
        foil = self.foil
        foil.new(6, 4)
        foil.draw(2, 0, 3, 3)
        answer = foil.lay_list([(5, (0, 0), (4, 0)), (5, (1, 0), (1, 2)), (6, (1, 0), (1, 2)), (7, (5, 0), (5, 3))])
        self.assertTrue(answer.accepted)
        self.assertEqual([given.CORNERS, (), ((1, 0), (1, 2)), ((5, 0), (5, 3))], [way.corners for way in answer.nets])
        self.assertEqual([0, 5, 0, 0], [int(way.refusal) for way in answer.nets])
        self.assertEqual((5, 6, 7), foil.nets)
        self.assertEqual((), foil.lay_list([]).nets)
        self.refused(12, foil.lay_list([(10 + k, (0, 0), (0, 0)) for k in range(41)]))
        self.assertEqual(40, len(foil.lay_list([(5, (0, 0), (0, 0))] * 40).nets))

    def test_put_leg(self):
        foil = given.begun(self.sheet)
        self.refused(4, foil.put_leg(0, 0, 0, 1, 1))
        self.refused(3, foil.put_leg(7, 0, 0, 2, 2))
        self.refused(21, foil.put_leg(7, 2, 0, 3, 3))
        self.assertTrue(foil.put_leg(7, 5, 0, 6, 4).accepted)
        self.assertEqual((7, 5, 0, 6, 4), foil.entries[-1])

    def test_look_up(self):
        foil = given.begun(self.sheet)
        answer = foil.look_up((5, 3))
        self.assertEqual((2, (5, 0, 6, 4)), (answer.place, answer.strip))
        self.refused(8, foil.look_up((2, 2)))
        self.refused(7, foil.look_up((6, 0)))
        self.assertIsNone(foil.look_up((6, 0)).place)

    def test_ohms(self):
        foil = given.begun(self.sheet)
        self.assertEqual(3.0, foil.ohms(5, Ink(0.5, 2, 0.5)).ohms)
        self.assertEqual(0.47333333333333338, foil.ohms(5, Ink(0.1, 3, 0.7)).ohms)
        self.refused(22, foil.ohms(5, Ink(1000, 65, 4)))
        self.refused(22, foil.ohms(5, Ink(float("nan"), 1, 1)))
        self.refused(6, foil.ohms(6, Ink(1, 1, 1)))
        self.assertIsNone(foil.ohms(6, Ink(1, 1, 1)).ohms)

    def test_save_reads_back(self):
        foil = given.begun(self.sheet)
        saved = foil.save()
        self.assertTrue(saved.accepted)
        self.assertEqual(12 + 9 + 3 * 11, len(saved.data))
        other = self.sheet.foil(3)
        self.assertTrue(other.run_job(saved.data)[-1].end)
        self.assertEqual(given.held(foil), given.held(other))

    def test_records(self):
        records = self.foil.run_job(given.JOB)
        self.assertEqual([["board", "patch"], ["track"], []], [[s.word for s in r.steps] for r in records])
        self.assertEqual([15, 26, None], [r.next for r in records])
        self.assertTrue(records[2].end)
        self.assertEqual((given.CORNERS, 2), (records[1].steps[0].answer.corners, records[1].steps[0].answer.bends))
        self.assertEqual(((6, 4, 0, 0, 4, 3), given.ENTRIES, given.STRIPS), given.held(self.foil))
        self.refused(14, self.foil.run_job(given.JOB[:-1])[-1])
        self.refused(17, self.foil.run_job(given.JOB + b"\0")[-1])
        self.refused(16, self.foil.run_record(b"\0"))
        self.refused(15, self.foil.run_record(b"\xff"))
        self.refused(18, self.foil.run_record(bytes(60001)))
        self.refused(14, self.foil.run_record(given.JOB, 1 << 40))
        ended = self.foil.run_job(bytes.fromhex("01 0000 0400 0000 00"))
        self.assertEqual([1], [int(s.answer.refusal) for s in ended[0].steps])
        self.assertEqual((1, None), (len(ended), ended[0].next))


class Sheets(unittest.TestCase):
    def test_foils_share_a_table(self):
        sheet = Sheet()
        sheet.foil(1).new(6, 4)
        sheet.foil(0).new(3, 3)
        sheet.foil(1).draw(2, 0, 3, 3)
        sheet.foil(0).lay(9, (0, 0), (2, 2))
        sheet.foil(1).lay(5, (0, 0), (4, 0))
        self.assertEqual(((9, 0, 0, 3, 1), (9, 2, 0, 3, 3)), sheet.foil(0).entries)
        self.assertEqual(given.ENTRIES, sheet.foil(1).entries)
        sheet.foil(0).lift(9)
        self.assertEqual(given.ENTRIES, sheet.foil(1).entries)
        self.assertEqual(13, int(sheet.foil(7).look_up((0, 0)).refusal))
        self.assertEqual([True, True] + 6 * [False], [foil.begun for foil in sheet.foils])

    def test_no_such_foil(self):
        foil = Sheet().foil(8)
        answers = [foil.new(6, 4), foil.draw(0, 0, 1, 1), foil.lay(1, (0, 0), (1, 1)), foil.lay_list([]),
                   foil.join(1, (0, 0)), foil.find((0, 0), (1, 1)), foil.book(1, ()), foil.lift(1),
                   foil.put_leg(1, 0, 0, 1, 1), foil.look_up((0, 0)), foil.save(), foil.slip(),
                   foil.ohms(1, (1, 1, 1)), foil.run_record(given.JOB)]
        self.assertEqual(14 * [Refusal.NO_SUCH_FOIL], [answer.refusal for answer in answers])
        self.assertEqual(((0,) * 6, (), ()), given.held(foil))

    def test_what_each_is_sure_of(self):
        sheet = Sheet()
        for foil in sheet.foils:
            foil.new(64, 64)
        drawn = [sum(sheet.foil(k).draw(n % 64, n // 64, n % 64 + 1, n // 64 + 1).accepted for n in range(128))
                 for k in range(5)]
        self.assertEqual([128, 128, 96, 32, 32], drawn)
        self.assertEqual(10, int(sheet.foil(4).draw(0, 0, 1, 1).refusal))

    def test_a_copy_is_apart(self):
        sheet = Sheet()
        foil = given.begun(sheet)
        before = given.held(foil)
        other = sheet.copy().foil(0)
        self.assertEqual(before, given.held(other))
        self.assertTrue(other.lift(5).accepted)
        self.assertEqual(before, given.held(foil))

    def test_damaged_lists(self):
        """Lists that something has changed are no foil's state."""
        for damage in (lambda lists: setattr(lists.records.boards[0], "width", 7),
                       lambda lists: setattr(lists.records.boards[0], "entries", 1 << 40),
                       lambda lists: setattr(lists.records.boards[7], "entries", 129),
                       lambda lists: setattr(lists.table[1], "net", 1000),
                       lambda lists: lists.strips[0].__setitem__(0, 9)):
            sheet = Sheet()
            foil = given.begun(sheet)
            damage(sheet.lists)
            before = sheet.copy()
            for answer in (foil.lift(5), foil.lay(6, (1, 0), (1, 2)), foil.look_up((1, 0)), foil.save()):
                self.assertEqual(Refusal.BROKEN_STATE, answer.refusal)
            self.assertEqual(bytes(before.lists.records), bytes(sheet.lists.records))
            self.assertEqual(bytes(before.lists.table), bytes(sheet.lists.table))
            foil.entries, foil.strips  # these read no more than there is

    def test_numbers_that_do_not_fit(self):
        foil = given.begun(Sheet())
        for call in (lambda: foil.draw(0, 0, 65536, 1), lambda: foil.draw(-1, 0, 1, 1), lambda: foil.lift(1 << 32),
                     lambda: foil.book(1, [(0, 65537)]), lambda: foil.put_leg(65541, 0, 0, 1, 1),
                     lambda: foil.lay_list([(1, (0, 0), (0, -5))]), lambda: foil.run_record(b"", -1),
                     lambda: foil.sheet.foil(-1)):
            self.assertRaises(ValueError, call)
        self.assertRaises(TypeError, lambda: foil.draw(0.5, 0, 1, 1))

    def test_points_of_another_shape(self):
        foil = given.begun(Sheet())
        for call in (lambda: foil.lay(6, (1, 0, 1), (1, 2)), lambda: foil.lay(6, (1,), (0, 1, 2)),
                     lambda: foil.join(5, (1, 0, 1)), lambda: foil.find((1, 0), (1, 2, 3)),
                     lambda: foil.lay_list([(6, (1, 0, 1), (1,))]), lambda: foil.look_up((1,)),
                     lambda: foil.book(6, [(1, 0, 1)])):
            self.assertRaises(ValueError, call)


class Carrying(unittest.TestCase):
    def test_carried(self):
        old = OldFoil(6, 4, 0, given.ENTRIES, given.STRIPS)
        sheet, answer = Sheet.carried(old)
        self.assertEqual((Refusal.ACCEPTED, ()), (answer.refusal, answer.lifted))
        foil = sheet.foil(0)
        self.assertEqual(((6, 4, 0, 0, 4, 3), given.ENTRIES, given.STRIPS), given.held(foil))
        self.assertEqual(((3, 1), (4, 1)), foil.join(5, (3, 1)).corners)
        self.assertRaises(ValueError, lambda: old.carry_to(sheet))

    def test_nets_under_patches_are_lifted(self):
        """A patch over tracks 5 and 9 of document 01's foil: both are lifted whole."""
        entries = ((0, 2, 0, 3, 3), (9, 5, 0, 6, 1), (5, 0, 3, 5, 4), (9, 0, 0, 1, 1), (5, 2, 2, 3, 4), (9, 2, 1, 3, 2))
        strips = ((1, 0, 2, 1), (3, 0, 5, 1), (0, 1, 2, 3), (3, 1, 6, 3), (5, 3, 6, 4))
        sheet, answer = Sheet.carried(OldFoil(6, 4, 0, entries, strips))
        self.assertEqual((Refusal.ACCEPTED, (5, 9)), (answer.refusal, answer.lifted))
        self.assertEqual(((0, 2, 0, 3, 3),), sheet.foil(0).entries)

    def test_refused(self):
        for old, number in ((OldFoil(6, 4, 0, given.ENTRIES, given.STRIPS[:2]), 13),
                            (OldFoil(0, 4, 0, (), ()), 13), (OldFoil(6, 4, 16, (), ((0, 0, 6, 4),)), 13),
                            (OldFoil(6, 4, 0, 129 * ((0, 0, 0, 6, 4),), ()), 13)):
            sheet, answer = Sheet.carried(old)
            self.assertEqual(number, int(answer.refusal))
            self.assertFalse(any(foil.begun for foil in sheet.foils))
