#!/usr/bin/env python3
"""Tests of `commands.py`, `cases.py` and `images.py`, over small cases and programs of a few lines, which store what they read."""

import doctest
import os
import tempfile
import unittest

import cases
import commands
import images

# Stores the file of its first word under that of its second one.
PROGRAM = """\
#!/bin/sh
[ -f "$1" ] || exit 3
cat "$1" 2> /dev/null > "$2" || exit 4
echo stored "$2"
"""
# The same, but where there is nothing to read it says so, as `pace` does.
TELLING = PROGRAM.replace("exit 3", '{ echo "pace: $1 can\'t be read" >&2; exit 3; }')
LINES = """\
file given
    one
    two two
$ pace given out
stored out
=> 0
    out is
        one
        two two
"""
GIVEN = 'file given = "text"\n'
GOOD = "$ scale given out\nstored out\n=> 0\n    out is given\n"


def laid(folder, text, program, names=("a.txt",)):
    """The path of a program and the folder of its cases; each of the names has them."""
    path = os.path.join(folder, "program")
    with open(path, "w") as file:
        file.write(program)
    os.chmod(path, 0o755)
    os.mkdir(os.path.join(folder, "cases"))
    for name in names:
        with open(os.path.join(folder, "cases", name), "w") as file:
            file.write(text)
    return path, os.path.join(folder, "cases")


def wrong_of(text, program=PROGRAM, names=("a.txt",), tool="scale"):
    """What is told of a case file."""
    with tempfile.TemporaryDirectory() as folder:
        path, place = laid(folder, text, program, names)
        count, wrong = commands.check_all([path], tool, place)
        return "".join(wrong)


def written(text, program=TELLING):
    """The case file after what the program prints and stores was written into it, and how many cases were changed."""
    with tempfile.TemporaryDirectory() as folder:
        path, place = laid(folder, text, program)
        count = commands.write(path, "pace", place)
        with open(os.path.join(place, "a.txt")) as file:
            return file.read(), count


def paced(text, program=TELLING):
    """What is told of a case file of `pace`."""
    return wrong_of(text, program, tool="pace")


class Tests(unittest.TestCase):
    """What is right is passed, and what is wrong told with both values."""

    def test_right(self):
        self.assertEqual(wrong_of(GIVEN + GOOD), "")

    def test_status(self):
        self.assertIn("status: wanted 1, got 0", wrong_of(GIVEN + GOOD.replace("=> 0", "=> 1")))

    def test_text(self):
        self.assertIn("wanted\n    stored it\n  got\n    stored out\n", wrong_of(GIVEN + GOOD.replace("stored out", "stored it")))

    def test_bytes(self):
        wrong = wrong_of(GIVEN + GOOD.replace("is given", 'is "tezt"'))
        self.assertIn("4 bytes wanted, 4 got; from byte 2 on: wanted 7a 74, got 78 74", wrong)

    def test_missing_file(self):
        self.assertIn("files: wanted ['given', 'more', 'out'], got ['given', 'out']", wrong_of(GIVEN + GOOD + "    more is given\n"))

    def test_more_files(self):
        self.assertIn("files: wanted ['given'], got ['given', 'out']", wrong_of(GIVEN + GOOD.replace("    out is given\n", "")))

    def test_changed_file(self):
        self.assertIn("given: 4 bytes wanted, 0 got", wrong_of(GIVEN + GOOD, PROGRAM + ': > "$1"\n'))

    def test_standard_error(self):
        self.assertIn("standard error: wanted\n    (nothing)\n  got\n    oh\n", wrong_of(GIVEN + GOOD, PROGRAM + "echo oh >&2\n"))

    def test_a_limit_and_a_folder(self):
        self.assertEqual(wrong_of(GIVEN + "limit 400\n" + GOOD), "")
        self.assertEqual(wrong_of(GIVEN + "limit 3\n$ scale given out\n=> 4\n    out is anything\n"), "")
        self.assertEqual(wrong_of("folder given\n$ scale given out\n=> 3\n"), "")

    def test_where_the_text_goes(self):
        self.assertEqual(wrong_of(GIVEN + '$ scale given out > text\n=> 0\n    out is given\n    text is "stored out\\n"\n'), "")

    def test_a_file_that_nothing_uses(self):
        self.assertIn("a.txt:2: nothing uses more", wrong_of(GIVEN + "file more = nothing\n" + GOOD))
        with self.assertRaisesRegex(cases.Wrong, "b.md: no file of cases"):
            wrong_of(GIVEN + GOOD, names=("a.txt", "b.md"))

    def test_stored_lines(self):
        self.assertEqual(paced(LINES), "")
        self.assertIn("out: from line 2 on wanted\n    two too\n  got\n    two two\n", paced(LINES.replace("        two two", "        two too")))
        self.assertIn("out: from line 3 on wanted\n    three\n  got\n    (nothing)\n", paced(LINES + "        three\n"))
        self.assertIn("status: wanted 1, got 0", paced(LINES.replace("=> 0", "=> 1")))
        self.assertIn("wanted\n    stored it\n", paced(LINES.replace("stored out", "stored it")))
        self.assertIn("files: wanted ['given', 'more', 'out'], got ['given', 'out']", paced(LINES + "    more is\n        one\n"))

    def test_empty_lines_within(self):
        apart = 'file given = "one\\n\\ntwo\\n"\n' + LINES[LINES.index("$") :].replace("        two two", "\n        two")
        self.assertEqual(paced(apart), "")
        self.assertIn("out: from line 3 on wanted", paced(apart.replace("one\n\n", "one\n\n\n")))

    def test_parts(self):
        def stored(lines):
            return paced(LINES[: LINES.index("    out is")] + lines)

        self.assertEqual(stored('    out has 2 times "two"\n    out has\n        two t\n        one\n'), "")
        self.assertIn("out, how often two: wanted 1, got 2", stored('    out has 1 times "two"\n'))
        self.assertIn("out, how often three: wanted 1, got 0", stored('    out has 1 times "three"\n'))
        self.assertIn("out: this isn't there\n    one two\n", stored("    out has\n        one two\n"))

    def test_errors_that_are_told(self):
        missing = "$ pace none out\n! pace: none can't be read\n=> 3\n"
        self.assertEqual(paced(missing), "")
        self.assertEqual(paced(missing.replace("! pace: none can't be read", "! ..")), "")
        self.assertIn("standard error: wanted\n    pace: x can't be read\n", paced(missing.replace(": none", ": x")))
        self.assertIn("standard error: wanted\n    (nothing)\n  got\n    pace: none", paced(missing.replace("! pace: none can't be read\n", "")))
        self.assertIn("standard error: nothing", paced(LINES.replace("stored out", "! ..\nstored out")))

    def test_names_in_quotes_and_bytes(self):
        text = 'file "a<b>\\tc" = "x" then 00ff\n$ pace "a<b>\\x09c" out\nstored out\n=> 0\n    out is "x" then 00ff\n'
        self.assertEqual(paced(text), "")
        self.assertIn("3 bytes wanted, 3 got; from byte 2 on: wanted fe, got ff", paced(text.replace("00ff\n    ", "").replace('is "x" then 00ff', 'is "x" then 00fe')))

    def test_what_another_crate_shares(self):
        self.assertEqual(paced("see scale_tool\n$ pace one out\nstored out\n=> 0\n    out is one\n"), "")

    def test_write(self):
        self.assertEqual(written(LINES), (LINES, 0))
        wrong = LINES.replace("stored out\n=> 0", "! oh\nstored it\n=> 7").replace("        two two\n", "\n        two\n        three\n")
        self.assertEqual(written(wrong), (LINES, 1))
        missing = "$ pace none out\n! ..\n=> 3\n"
        self.assertEqual(written(missing.replace("3", "4")), (missing, 1))
        self.assertEqual(written(missing.replace("! ..\n", "")), (missing.replace("..", "pace: none can't be read"), 1))
        twice = wrong + "\n# Another one.\n" + wrong[wrong.index("$") :].replace("out", "other")
        self.assertEqual(written(twice)[1], 2)
        self.assertEqual(paced(written(twice)[0]), "")

    def test_lines_that_can_not_be_read(self):
        for line, why in [
            ("what\n", "what is this"),
            ("file given = nothing\n", "two of the name given"),
            ("$ given\n", "don't begin by `scale`"),
            ("$ pace given out\n=> 0\n", "don't begin by `scale`"),
            ("$ scale given out\nstored out\n=> 0\n    out was given\n", "what does it hold"),
            ("$ scale given out\nstored out\n=> 0\n    out is\n", "no lines follow"),
            ("$ scale given out\nstored out\n", "no status follows"),
            ("limit 3\n", "no command line follows"),
            ("image x\n    addi x5, x0, 2048\n$ scale x out\n=> 0\n", "more than 12 bits"),
            ("image x\n    jal x0, nowhere\n$ scale x out\n=> 0\n", "no such label"),
            ("file x = given with key = 1\n$ scale x out\n=> 0\n", "doesn't stand once"),
        ]:
            with self.assertRaisesRegex((cases.Wrong, images.Wrong), why):
                wrong_of(GIVEN + GOOD + line)


def load_tests(loader, tests, pattern):
    """The examples in the texts of the functions are tests too."""
    tests.addTests(doctest.DocTestSuite(cases))
    tests.addTests(doctest.DocTestSuite(images))
    return tests


if __name__ == "__main__":
    unittest.main()
