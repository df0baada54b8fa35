"""Programs are built anew whenever they are not those of the sources as they stand, and only then."""
import os
import unittest

from desk.tests.scratch import Scratch


class Building(unittest.TestCase):
    def setUp(self):
        self.begin(5)

    def begin(self, proofs):
        """A repository with so many proofs in it, in which the job program is built."""
        self.scratch = Scratch(proofs)
        self.addCleanup(self.scratch.remove)
        self.proofs = sorted(self.scratch.root.joinpath("crates", "laws", "proofs").rglob("*.antt"))
        self.built()
        self.scratch.calls()

    def built(self, **how):
        """Asks for the job program, which must then be that of the sources as they stand; what was checked for it."""
        status, out, err = self.scratch.run("tools/built", "job_main", **how)
        self.assertEqual((status, out), (0, "%s\n" % (self.scratch.root / "target" / "bin" / "job_main")), err)
        self.assertEqual(self.scratch.built_from("job_main"), self.scratch.sum())
        return self.scratch.calls()

    def test_nothing_is_built_twice(self):
        self.assertEqual(self.built(), [])

    def test_200_changed_files(self):
        self.begin(210)
        for turn in range(5):
            for path in self.proofs[:200]:
                path.write_text("-- as it is in turn %d\n" % turn)
            self.assertEqual(self.built(), ["check job_main"])

    def test_content_counts_and_time_does_not(self):
        self.proofs[0].write_text("-- another law\n")
        os.utime(self.proofs[0], (0, 0))
        self.assertEqual(self.built(), ["check job_main"])
        os.utime(self.proofs[0])
        self.assertEqual(self.built(), [])

    def test_files_that_are_deleted_renamed_or_new(self):
        self.proofs[0].unlink()
        self.assertEqual(self.built(), ["check job_main"])
        self.proofs[1].rename(self.proofs[1].with_name("Z.antt"))
        self.assertEqual(self.built(), ["check job_main"])
        self.scratch.write("crates/foil/specs/New.antt", "")
        self.assertEqual(self.built(), ["check job_main"])

    def test_the_end_of_a_file_moved_into_the_next(self):
        first, second = self.proofs[:2]
        joined = first.read_text() + second.read_text()
        first.write_text(joined[:-3])
        second.write_text(joined[-3:])
        self.assertEqual(self.built(), ["check job_main"])

    def test_what_a_crate_depends_on(self):
        listed = self.scratch.root / "crates.txt"
        listed.write_text(listed.read_text().replace("foil: laws io", "foil: io laws"))
        self.assertEqual(self.built(), ["check job_main"])

    def test_crates_that_it_does_not_stand_on(self):
        self.assertEqual(self.scratch.run("tools/built", "slip_main")[0], 0)
        before = self.scratch.built_from("job_main")
        self.scratch.calls()
        self.scratch.write("crates/other/src/lib.rt", "// another\n")
        for name in ("job_main", "slip_main"):
            self.assertEqual(self.scratch.run("tools/built", name)[0], 0)
        self.assertEqual((self.scratch.calls(), self.scratch.built_from("job_main")), ([], before))

    def test_a_program_that_is_not_the_one_that_was_built(self):
        program = self.scratch.root / "target" / "bin" / "job_main"
        whole = program.read_bytes()
        for harm in (lambda: program.write_bytes(whole + b"\n# 0\n"), program.unlink, lambda: program.chmod(0o644),
                     lambda: program.write_bytes(b"")):
            harm()
            self.assertEqual(self.built(), ["check job_main"])

    def test_an_old_program_put_back_after_a_check(self):
        program = self.scratch.root / "target" / "bin" / "job_main"
        old = program.read_bytes()
        self.proofs[0].write_text("-- another law\n")
        self.built()
        program.write_bytes(old)
        self.assertEqual(self.built(), ["check job_main"])

    def test_a_program_without_a_good_record(self):
        record = self.scratch.root / "target" / "built" / "job_main"
        for harm in (record.unlink, lambda: record.write_bytes(b"\xff\n"), lambda: record.write_text("")):
            harm()
            self.assertEqual(self.built(), ["check job_main"])

    def test_another_toolchain(self):
        self.scratch.write("../tools/version", "a kit 2\n")
        self.assertEqual(self.built(), ["check job_main"])

    def test_a_program_that_fits_needs_no_toolchain(self):
        self.assertEqual(self.built(with_rt=False), [])

    def test_a_check_that_fails(self):
        self.proofs[0].write_text("-- no law\n")
        self.scratch.write("../tools/fails", "rt: laws NOT PROVED\n")
        for _ in range(2):
            status, out, err = self.scratch.run("tools/built", "job_main")
            self.assertEqual((status != 0, out, self.scratch.calls()), (True, "", ["check job_main"]))
            self.assertIn("rt: laws NOT PROVED\njob_main is not built: something is not proved (`rt check ", err)
            self.assertNotIn("PATH", err)
        self.scratch.tools.joinpath("fails").unlink()
        self.assertEqual(self.built(), ["check job_main"])

    def test_the_path_is_blamed_where_rt_is_not_in_it(self):
        self.proofs[0].write_text("-- another law\n")
        status, out, err = self.scratch.run("tools/built", "job_main", with_rt=False)
        self.assertEqual((status != 0, out, err.count("\n")), (True, "", 1))
        self.assertIn("job_main has to be proved and built first", err)
        self.assertIn("`rt` is not in the PATH", err)

    def test_a_toolchain_that_leaves_no_program(self):
        self.scratch.write("../tools/rt", "#!/bin/sh\necho a kit 3\n")
        status, out, err = self.scratch.run("tools/built", "job_main")
        self.assertEqual((status != 0, out), (True, ""))
        self.assertIn("`rt check job_main` was content, and left no program", err)
        self.assertNotIn("PATH", err)

    def test_no_such_program(self):
        status, out, err = self.scratch.run("tools/built", "foil_jop")
        self.assertEqual((status != 0, out, err), (True, "", "crates.txt has no foil_jop\n"))


if __name__ == "__main__":
    unittest.main()
