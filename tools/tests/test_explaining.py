"""Tests of `records.py explain`: a fault is shown at its place, with what would be right there."""

import os
import unittest

from surbeldoi.script.explaining import explained
from surbeldoi.script.grammar import LINES, SECOND, STEPS, WORDS, form_text, place_in
from tests.test_records import RED_SCRIPT, WHOLE, Case, record, run

HEAD, SECOND_HEAD = "scene 1 64 48 16666667\n", "scene 2 64 48 16666667\n"
# Scripts with the place and cause of their fault, and lines that have to be among what is shown.
FAULTS = (
    (HEAD + "picture 1 64 48\nfill 0 0 64 48 10204ff\nend\n", (3, 6, 3),
     ("a.sf:3:16: bad word: the word is not of its form and range", "   = it has 7 digits, and a colour has 8", " 3 | fill 0 0 64 48 10204ff",
      "   |                ^^^^^^^", "   = COLOUR: eight hexadecimal digits: red, green, blue, alpha")),
    (HEAD + "actor 1\n\tqueue  s 1 tiem 5\nend\n", (3, 4, 2),
     (" 3 |  queue  s 1 tiem 5", "   |             ^^^^", "   = one of the words: time, crop, fence")),
    (HEAD + "actor 1\nqueue s 1 fence 1 2 fence 99 2\nend\n", (3, 8, 3),
     ("   = TIMELINE: a timeline that is declared above, 1 to 64",)),
    (HEAD + "actor 1\ndequeue 1 as\nend\n", (3, 4, 4),
     ("   |              ^", "   = the form is: dequeue QUEUE as NAME [size WIDTH HEIGHT]")),
    (HEAD + "actor 1\nset 1 1 crop 1 2 3\nend\n", (3, 8, 4),
     ("   = the form is: set TX LAYER crop X Y WIDTH HEIGHT", "   = HEIGHT: 0 to 16384, in pixels")),
    (HEAD + "actor 1\nset 1 1 colr\nend\n", (3, 4, 2),
     ("   = the form is: set TX LAYER CHANGE", "   = one of the words: create, destroy, reparent, z, relative, position, crop, alpha, hidden,"
      " opaque, colour, backpressure, orient")),
    (HEAD + "actor 1\nset 1 1 create window 0\nend\n", (3, 5, 2), ("   = one of the words: container, colour, buffer",)),
    (HEAD + "actor 1\nset 1 1 crop nine\nend\n", (3, 5, 3), ("   = X: -16384 to 16384, in pixels",)),
    (HEAD + "actor 1\nconnect\nend\n", (3, 2, 4), (" 3 | connect", "   |         ^", "   = QUEUE: a queue that is declared above, 1 to 16")),
    (HEAD + "queue 1 2 2\nqueue 01 3 3\nend\n", (3, 2, 8),
     ("   = QUEUE: a number that no queue line above has, 1 to 16", "   = queue 01 is declared in line 2")),
    # What is declared above, and the names that this actor has given.
    (HEAD + "queue 3 2 2\nqueue 2 2 2\nactor 1\nconnect 1\nend\n", (5, 2, 7), ("   = declared above: queue 3, 2",)),
    (HEAD + "actor 1\nwait 1 5\nend\n", (3, 2, 7), ("   = no timeline is declared above",)),
    (HEAD + "queue 1 2 2\nactor 1\ndequeue 1 as a\ndequeue 1 as b\nrequest c\nend\n", (6, 2, 7), ("   = names given above: a, b",)),
    (HEAD + "queue 1 2 2\nactor 1\ndequeue 1 as a\nactor 2\nrequest a\nend\n", (6, 2, 7),
     ("   = this actor has given no name yet: `as NAME` in a step gives one",)),
    (HEAD + "actor 2\norder 2*3 1\nend\n", (3, 3, 7), ("   = declared above: actor 2",)),
    # A line that stands where it may not.
    ("actor 1\n", (1, 1, 6), ("   = the first line is: scene VERSION WIDTH HEIGHT PERIOD",)),
    (HEAD + "end\n# more\nactor 1\n", (4, 1, 6), ("   = nothing stands behind the line end, which is line 2",)),
    (HEAD + "fill 0 0 1 1 ffffffff\n", (2, 1, 6), ("   = a fill stands behind its picture, and there is no picture above",)),
    (HEAD + "tx 1\n", (2, 1, 6), ("   = a step stands behind its actor, and there is no actor above",)),
    (HEAD + "actor 1\ntimeline 1\n", (3, 1, 6), ("   = line 2 stands above: actor 1",)),
    # Too many of something.
    (HEAD + "actor 1\ntx 1\n", (3, 1, 9), ("   = an actor has at most 4096 steps",)),
    (HEAD + "actor 1\nacquire 1 as a\n", (3, 4, 9), ("   = an actor has at most 32 names",)),
    (HEAD + "picture 1 2 2\nfill 0 0 1 1 ffffffff\n", (3, 1, 9), ("   = a picture has at most 1024 fills",)),
    # Version 2.
    ("scene 3 64 48 16666667\n", (1, 2, 11), ("a.sf:1:7: wrong version: there is no such version",)),
    (HEAD + "display 2 1 1 0\n", (2, 1, 2), ("   = display is a form of version 2",)),
    (SECOND_HEAD + "display 1 1 1 0\n", (2, 2, 3), ("   = DISPLAY: a number that no display line above has, 2 to 8",)),
    (SECOND_HEAD + "picture 1 1 1 format rgb\n", (2, 6, 3), ("   = FORMAT: rgba, rgbx or rgb565",)),
    (SECOND_HEAD.replace("2", "02", 1) + "hit 0 0 0\n", (2, 2, 3), ("   = HIT: a number that no hit line above has, 1 to 64",)),
    (SECOND_HEAD + "mirror 1 2\n", (2, 1, 9), ("   = a scene has at most 8 mirrors",)),
    (HEAD + "picture 1 1 1 format rgbx\n", (2, 5, 5), ("   = the form is: picture PICTURE WIDTH HEIGHT",)),
    (HEAD + "queue 1 2 2 2\nend\n", (2, 5, 5), ("   |             ^", "   = the form is: queue QUEUE WIDTH HEIGHT")),
    (HEAD + "order 1*9 v*300\nend\n", (2, 3, 3), ("   |           ^^^^^",)),
    (HEAD + HEAD, (2, 1, 6), ("   = lines stand in this order: scene; timeline; queue; picture and its fills; actor and its steps; order; end",)),
    (HEAD, (2, 0, 10), ("a.sf:2: unended: the script ends without the line end", "   = the last line is: end")),
    ("x", (0, 0, 9), ("a.sf: limit: the script has 1 bytes, and may have 1048576",)),
    (HEAD + "actor 1\ntx 1\nset 1 1 alpha 0\nset 1 1 orient 8\nend\n", (5, 5, 3),
     (" 5 | set 1 1 orient 8", "   = ORIENT: 0 to 7: the quarter turns clockwise, and 4 more where it is mirrored before")),
    # A fault without a place and without a cause that has a name.
    (HEAD + "end\n", (0, 0, 0), ("a.sf: the cause has no name here",)),
)


# Words that are wrong: a line behind `actor 1` and a queue, a timeline and a picture, the word and the cause, and what is told of it.
WORDS_TOLD = (
    ("aquire 1 as i", 1, 2, "is acquire meant?"),
    ("END", 1, 2, "is end meant?"),
    ("set 1 1 color ff0000ff", 4, 2, "is colour meant?"),
    ("set 1 1 create bufer 0", 5, 2, "is buffer meant?"),
    ("dequeue 1 ass s", 3, 2, "is as meant?"),
    ("set 1 1 alpha 1920", 5, 3, "too large: at most 255"),
    ("set 1 1 alpha -1", 5, 3, "too small: at least 0"),
    ("set 1 1 alpha -0", 5, 3, "a number has no sign here"),
    ("set 1 1 position -20000 0", 5, 3, "too small: at least -16384"),
    ("set 1 1 alpha 0.5", 5, 3, "no whole number"),
    ("set 1 1 position 64, 48", 5, 3, ", is no part of a number: words stand apart by blanks alone"),
    ("set 1 1 alpha 0x1", 5, 3, "numbers are decimal"),
    ("set 1 1 alpha +1", 5, 3, "a number has no + in front"),
    ("wait 1 123456789012345678901234", 3, 3, "too many digits: 24, and a number has at most 20"),
    ("apply token 1 1", 2, 3, "no number"),
    ("set 1 1 colour #ff0000", 5, 3, "a colour has no # in front"),
    ("set 1 1 colour ff0000", 5, 3, "it has 6 digits, and a colour has 8: the last two are alpha, ff where it is opaque"),
    ("set 1 1 colour ff0000fg", 5, 3, "a letter in it is no hexadecimal digit"),
    ("dequeue 1 as a-b", 4, 3, "- is no ASCII letter, digit or _"),
    ("dequeue 1 as 1a", 4, 3, "a name begins with a letter"),
    ("dequeue 1 as " + "a" * 17, 4, 3, "it has 17 letters, and a name has at most 16"),
    ("order 1*300", 2, 3, "300 times: 1 to 256"),
    ("request b # ask", 3, 5, "a comment has a line of its own, which begins with #"),
    ("queue 2 8 8", 2, 3, "queues are declared above the first actor: behind one, queue is a step on a buffer"),
    ("tx\u00a01", 1, 2, "\\xa0 stands in it: no-break space; words stand apart by blanks and tabs alone"),
    ("set 1 1 alpha 2\u202e55", 5, 3, "\\u202e stands in it: right-to-left override; words stand apart by blanks and tabs alone"),
    ("set 1 1 alpha 5\x1b", 5, 3, "\\x1b stands in it: a control; words stand apart by blanks and tabs alone"),
)


class Explained(unittest.TestCase):
    def test_what_is_wrong_with_a_word_is_told(self):
        above = HEAD + "timeline 1\nqueue 1 2 2\npicture 1 2 2\nactor 1\ndequeue 1 as b\n"
        for line, word, cause, told in WORDS_TOLD:
            with self.subTest(line=line):
                shown = explained("a.sf", (above + line + "\nend\n").encode(), {"line": 7, "word": word, "cause": cause})
                self.assertEqual(shown[3], "   = " + told)

    def test_what_a_script_begins_with_may_be_hidden(self):
        shown = explained("a.sf", ("\ufeff" + HEAD + "end\n").encode(), {"line": 1, "word": 1, "cause": 2})
        self.assertEqual(shown[1:6], [" 1 | \\ufeffscene 1 64 48 16666667", "   | ^^^^^^^^^^^", "   = a byte order mark stands here, which is no part of a script: save it without one",
                                      "   = is scene meant?", "   = a line begins with one of: scene"])

    def test_only_words_that_may_stand_there_are_listed_and_each_once(self):
        def listed(*above):
            script = "\n".join([*above, "foo", ""])
            (told,) = [rule for rule in explained("a.sf", script.encode(), {"line": len(above) + 1, "word": 1, "cause": 2}) if "begins with" in rule]
            return told.partition(": ")[2].split(", ")

        scene = HEAD.strip()
        self.assertEqual(listed(), ["scene"])
        self.assertEqual(listed(scene), ["timeline", "queue", "picture", "actor", "order", "end"])
        self.assertEqual(listed(scene, "queue 1 2 2", "picture 1 2 2"), ["picture", "fill", "actor", "order", "end"])
        self.assertEqual(listed(scene, "actor 1", "order v"), ["order", "end"])
        steps = listed(scene, "actor 1", "tx 1")
        self.assertEqual((len(steps), len(set(steps)), steps[-3:], "timeline" in steps), (len(set(steps)), len(steps), ["actor", "order", "end"], False))

    def test_a_form_of_version_2_is_told(self):
        for line, word, cause in (("picture 1 1 1 format rgbx", 5, 5), ("hit 1 0 0", 1, 2)):
            shown = explained("a.sf", (HEAD + line + "\nend\n").encode(), {"line": 2, "word": word, "cause": cause})
            self.assertIn(f"   = {line.split()[0 if word == 1 else 4]} is a form of version 2", shown)

    def test_further_lines_that_are_wrong_are_told(self):
        script = HEAD + "actor 1\nfoo\ntx 1\nset 1 1 alpha 999\nbar\nend\n"
        shown = explained("a.sf", script.encode(), {"line": 3, "word": 1, "cause": 2})
        self.assertEqual(shown[-1], "   = where this line is left out, these are wrong at their places, too: line 5, 6")
        shown = explained("a.sf", (HEAD + "foo\n" * 14 + "end\n").encode(), {"line": 2, "word": 1, "cause": 2})
        self.assertEqual(shown[-1], "   = where this line is left out, these are wrong at their places, too: line " + ", ".join(map(str, range(3, 13))) + " and 3 more")

    def test_controls_and_marks_of_direction_are_shown_and_not_sent(self):
        script = (HEAD + "actor 1\ntx \x1b]0;title\x07 \u202e1\nend\n").encode()
        shown = explained("a.sf", script, {"line": 3, "word": 2, "cause": 3})
        self.assertEqual(shown[:3], ["a.sf:3:4: bad word: the word is not of its form and range", " 3 | tx \\x1b]0;title\\x07 \\u202e1", "   |    ^^^^^^^^^^^^^^^^"])
        for line in shown:
            self.assertTrue(line.isprintable(), line)

    def test_wide_letters_take_two_columns(self):
        shown = explained("a.sf", (HEAD + "\u6f22\u5b57 x\n").encode(), {"line": 2, "word": 2, "cause": 5})
        self.assertEqual((shown[0][:9], shown[2]), ("a.sf:2:4:", "   |      ^"))

    def test_faults(self):
        for script, (line, word, cause), wanted in FAULTS:
            with self.subTest(script=script):
                shown = explained("a.sf", script.encode(), {"line": line, "word": word, "cause": cause})
                for text in wanted:
                    self.assertIn(text, shown)

    def test_of_a_long_line_what_is_near_the_word_is_shown(self):
        script = HEAD + "order " + "v " * 400 + "w " + "v " * 400 + "\n"
        shown = explained("a.sf", script.encode(), {"line": 2, "word": 402, "cause": 3})
        self.assertLess(max(map(len, shown)), 140)
        line, carets = shown[1:3]
        self.assertEqual((line[carets.index("^")], carets.count("^")), ("w", 1))
        self.assertTrue(line.startswith(" 2 | .. v") and line.endswith("v .."), line)

    def test_of_a_long_word_its_beginning_is_marked(self):
        shown = explained("a.sf", (HEAD + "order " + "v" * 4000 + "\n").encode(), {"line": 2, "word": 2, "cause": 3})
        self.assertEqual((shown[1][:13], shown[2].count("^")), (" 2 | order vv", 114))

    def test_what_is_no_utf8_is_shown(self):
        shown = explained("a.sf", b"scene \xff\n", {"line": 1, "word": 0, "cause": 1})
        self.assertIn(" 1 | scene \\xff", shown)
        self.assertEqual((shown[0][:9], shown[2]), ("a.sf:1:7:", "   |       ^^^^"))

    def test_each_word_of_each_form_is_known(self):
        for form in LINES + SECOND + STEPS:
            for word in form.split():
                kind = word.strip("[]*")
                self.assertTrue(kind in WORDS or kind == "CHANGE" or kind.islower(), kind)
            self.assertEqual(place_in(form, form.split(), 0), [form.split()[0]])
            self.assertNotIn("BWIDTH", form_text(form))


class Command(Case):
    def setUp(self):
        super().setUp()
        self.script, self.whole = self.path("a.sf"), self.path("whole.sf")
        with open(self.script, "w", encoding="utf-8") as file:
            file.write(HEAD + "actor 1\nfoo\n")
        with open(self.whole, "wb") as file:
            file.write(RED_SCRIPT)

    def test_a_fault(self):
        status, out, err = run("explain", self.script, self.file(record("SFLT", 3, 1, 2)))
        self.assertEqual((status, err), (3, ""))
        self.assertIn("a.sf:3:1: unknown word", out)
        self.assertIn("a line begins with one of: connect, disconnect", out)

    def test_a_played_script(self):
        status, out, err = run("explain", self.whole, self.file(WHOLE))
        self.assertEqual((status, err), (0, ""))
        self.assertEqual(out, f"{self.whole}: no fault: the script is a scene, and it was played to its end\n")

    def test_a_run_that_was_cut_off(self):
        status, out, err = run("explain", self.whole, self.file(WHOLE[:28]))
        self.assertEqual((status, out), (1, f"{self.whole}: no fault is told, but the stream was cut off\n"))
        self.assertIn("the stream ends without DONE", err)

    def test_records_of_another_script_are_told(self):
        for script, records, why in (
            (self.script, WHOLE, "it is no scene: line 3 is none of a scene at its place: foo"),
            (self.file(os.urandom(64), "random"), WHOLE, "it is no scene: "),
            (self.whole, record("SFLT", 3, 1, 2), "by them it is no scene, and it is one"),
            (self.whole, WHOLE.replace(WHOLE[:28], record("SCEN", 1, 3, 1, (16666667,))), "SCEN says [1, 3, 1, 16666667], and the script [1, 2, 1, 16666667]"),
            (self.whole, WHOLE.replace(record("REPL", 1, 2, 0, 0), record("REPL", 1, 2, 15, 0)), "actor 1 step 2 (line 4: set 1 1 create colour 0): it was told Empty [], where"),
        ):
            status, out, err = run("explain", script, self.file(records))
            self.assertEqual((status, out), (1, ""))
            self.assertTrue(err.startswith(f"records.py: the records are not those of {script}: {why}"), err)
        self.assertEqual(run("explain", self.path("nofile.sf"), self.file(WHOLE)), (2, "", f"records.py: No such file or directory: {self.path('nofile.sf')}\n"))

    def test_wrong_words(self):
        self.assertEqual(run("explain")[0], 2)
        self.assertEqual(run("explain", os.path.join(self.folder, "none"), self.file(record("SFLT", 1, 1, 2)))[0], 2)


if __name__ == "__main__":
    unittest.main()
