"""Tests of the documents: their links lead somewhere, and RECORDS.md's stream is what it says."""

import glob
import os
import re
import textwrap
import unittest

from surbeldoi import TOP
from surbeldoi.build.rooms import lists_of, read_rooms
from surbeldoi.commands.run import LEFT
from surbeldoi.judging.suite import worked_scenes
from surbeldoi.model.playing import Play
from surbeldoi.records.stream import FORMS, OUTPUTS, faults, read
from surbeldoi.records.wording import CALLS, HOLDS, REJECTS, STATUSES, field_text, plain
from surbeldoi.script.grammar import CHANGES, LINES, SECOND, STEPS, form_text
from surbeldoi.script.scenes import read_scene
from tests.test_scenes import of_some_form

# How many words a sentence has at most; a piece of code counts as one.
MOST_WORDS = 34
# A screen, in lines and columns.
SCREEN_LINES, SCREEN_COLUMNS = 50, 100
# How many words the pages have at most, and the cells of tables on pages that are read aloud.
MOST_WORDS_OF_A_PAGE = {"README.md": 900, "docs/ARCHITECTURE.md": 1500, "docs/PROVED.md": 8000}
MOST_WORDS_OF_A_CELL = {"README.md": 30, "CONTRIBUTING.md": 30, "docs/MEANING.md": 30, "docs/PERFORMANCE.md": 30, "docs/PROVED.md": 45}
# What is not written on a page, each with what is written there.
PLAIN = {
    r"tells?|telling|told": "say, report, imply, return",
    r"want of memory": "out of memory",
    r"whoever": "the caller, the reader, or who it is",
    r"what is due|what is to be done": "a noun, as the outputs due",
    r"in place of": "instead of",
    r"but for": "except",
    r"as ever": "as before",
    r"no longer|any more|since then|formerly|used to|not measured yet|by now": "what stands; what changed is for CHANGELOG",
}
DOCUMENTS = ["README.md", "CONTRIBUTING.md", "CHANGELOG.md"] + sorted(os.path.relpath(path, TOP) for path in glob.glob(os.path.join(TOP, "docs", "**", "*.md"), recursive=True))


def text(path):
    with open(os.path.join(TOP, path), encoding="utf-8") as file:
        return file.read()


def data(path):
    with open(os.path.join(TOP, path), "rb") as file:
        return file.read()


def prose(page):
    """The text of a page that is read as sentences, paragraph by paragraph: no pictures, code, tables and headings, and no targets of links."""
    page = re.sub(r"```.*?```", "", page, flags=re.S)
    kept = "\n".join("" if line.startswith(("|", "    ", "#")) else re.sub(r"^\s*([-*]|\d+\.) ", "\n", line) for line in page.splitlines())
    return [re.sub(r"`[^`]*`", "`", re.sub(r"\[([^\]]*)\]\([^)]*\)", r"\1", block)) for block in re.split(r"\n\s*\n", kept)]


def sentences(page):
    """The sentences of a page: each ends with a full stop, a mark or its paragraph, and not with a colon."""
    return [sentence for block in prose(page) for sentence in re.split(r"(?<=[.!?])(?:\*\*|\))*\s+", block.strip()) if sentence]


def words(page):
    """The words of a page, those of its tables too; no pictures, and no rules and bars of tables."""
    return re.sub(r"```.*?```|^\|[-|]+$", "", page, flags=re.S | re.M).replace("|", " ").split()


def cells(page):
    """The cells of a page's tables, heads included."""
    return [cell.strip() for row in re.findall(r"^\|(.*)\|$", page, re.M) for cell in row.split(" | ")]


def rows_of(page):
    """The rows of a page's tables, each as its cells, without heads and rules."""
    return [[cell.strip() for cell in row.split("|")] for row in re.findall(r"^\| (.*) \|$", re.sub(r"^.*\n\|[-|]+\|$", "", page, flags=re.M), re.M)]


def section(page, heading):
    """What stands under a heading of a page, up to the next one."""
    return re.split(r"^#+ ", page.split(f"## {heading}\n", 1)[1], flags=re.M)[0]


def lines_of_a_screen(page):
    """How many lines of a screen a page takes, as it reads: without the targets of its links."""
    return sum(max(1, -(-len(line) // SCREEN_COLUMNS)) for line in re.sub(r"\]\([^)]*\)", "]", page).splitlines())


def anchors(path):
    """The anchors of a page's headings, as the usual viewers make them."""
    return {re.sub(r"[^a-z0-9_ -]", "", heading.lower()).replace(" ", "-") for heading in re.findall(r"^#+ (.*)$", text(path), re.M)}


def indented(path, heading):
    """The indented blocks under a heading, each as its lines."""
    return [re.findall(r"^    (.*)$", block, re.M) for block in section(text(path), heading).strip("\n").split("\n\n") if block.startswith("    ")]


def without_comments(path):
    """The lines of a script, which may have any bytes."""
    with open(path, encoding="latin-1") as file:
        return [line for line in file.read().splitlines() if not line.startswith("#")]


def names_in(crate):
    """The names in the code and the definitions of a crate, comments left out."""
    files = glob.glob(os.path.join(TOP, "crates", crate, "src", "**", "*.rt"), recursive=True)
    files += glob.glob(os.path.join(TOP, "crates", crate, "specs", "**", "*.antt"), recursive=True)
    return {name for file in files for name in re.findall(r"[A-Za-z]\w*", re.sub(r"^\s*(//|--).*$", "", text(file), flags=re.M))}


def named(cells):
    """The names in these cells of a table, part by part: of `Fence::add` two."""
    return [part for cell in cells for code in re.findall(r"`([^`]*)`", cell) for part in re.split(r"::|\.", code) if re.fullmatch(r"[A-Za-z]\w*", part)]


class Documents(unittest.TestCase):
    def test_each_decision_says_what_was_open(self):
        entries = 0
        for path in DOCUMENTS:
            for entry in re.findall(r"^- .*$", text(path), re.M) if path.startswith("docs/decisions/") else ():
                self.assertTrue(re.match(r"- \*\*.*\bOpen[:.] ", entry), f"{path}: what else was open: {entry[:100]}")
                entries += 1
        self.assertGreater(entries, 100)

    def test_links_lead_to_files_and_headings(self):
        for path in DOCUMENTS:
            for target in re.findall(r"\]\(([^)]*)\)", text(path)):
                if target.startswith("http"):
                    continue
                name, _, anchor = target.partition("#")
                page = os.path.normpath(os.path.join(os.path.dirname(path), name)) if name else path
                self.assertTrue(os.path.exists(os.path.join(TOP, page)), f"{path}: {target}")
                if anchor:
                    self.assertIn(anchor, anchors(page), f"{path}: {target}")

    def test_pages_are_short(self):
        for path, most in MOST_WORDS_OF_A_PAGE.items():
            with self.subTest(path=path):
                found = len(words(text(path)))
                self.assertLessEqual(found, most, f"{path} has {found} words, and may have {most}")

    def test_cells_of_tables_are_short(self):
        for path, most in MOST_WORDS_OF_A_CELL.items():
            for cell in cells(text(path)):
                self.assertLessEqual(len(cell.split()), most, f"{path}: a section or a list is read more easily than this cell: {cell[:100]}")

    def test_words_are_plain(self):
        for path in DOCUMENTS:
            page = " ".join(re.sub(r"`[^`]*`", "`", re.sub(r"```.*?```|^    .*$", "", text(path), flags=re.S | re.M)).split())
            for worse, better in PLAIN.items() if path != "CHANGELOG.md" else ():
                found = re.search(rf"\b(?:{worse})\b", page, re.I)
                self.assertIsNone(found, f"{path}: {better}, instead of: {found and page[max(0, found.start() - 40):found.end() + 40]}")

    def test_the_first_screen_says_what_it_is_for_and_shows_it(self):
        page = text("README.md")
        first = page.split("\n\n")[1]
        self.assertEqual(len(sentences(first)), 3, f"README.md: what trouble this ends, for whom, and what one does with it, in three sentences: {first}")
        screen = "\n".join(page.splitlines()[:SCREEN_LINES])
        for what in ("Rattle's kit", "Python 3.8", "python3 tools/run.py", "docs/pictures/switch.png"):
            self.assertIn(what, screen, f"README.md: {what} stands on the first screen")
        self.assertIn(b"acTL", data("docs/pictures/switch.png"), "docs/pictures/switch.png has to move")

    def test_a_body_is_changed_by_two_commands_that_fit(self):
        (commands,) = indented("README.md", "Change a body")
        self.assertEqual(len(commands), 2, "README.md: two commands, the second of which changes a body")
        old, new = re.search(r"'s/([^/]*)/([^/]*)/'", commands[1]).groups()
        (crate,) = set(re.findall(r"crates/(\w+)", " ".join(commands)))
        source = text(os.path.join("crates", crate, re.search(r"src/\S+", commands[1]).group(0)))
        self.assertEqual(source.count(old), 1, f"the second command of README.md has to change one place of {crate}: {old}")
        self.assertIn(f"`{new}` instead of `{old}`", text("CONTRIBUTING.md"), "README.md and CONTRIBUTING.md change the same body")

    def test_figures_of_two_pages_agree(self):
        figures = {path: {int(minutes) for minutes in re.findall(r"some (\d+) processor minutes from nothing", text(path))} for path in ("README.md", "CONTRIBUTING.md", "docs/GATE.md")}
        (gate,) = figures["docs/GATE.md"]
        for path, found in figures.items():
            self.assertEqual(found, {gate}, f"{path}: what the gate takes, as docs/GATE.md has it")
        build = int(re.search(r"The first time takes some (\d+) processor minutes", text("README.md")).group(1))
        self.assertLess(build, gate, "README.md: to build the program takes less than the gate, which contains it")
        seconds = {row[0]: int(row[1]) + int(row[2]) for row in rows_of(text("docs/GATE.md")) if len(row) == 3 and row[1].isdigit()}
        self.assertLessEqual(sum(seconds.values()) / 60, gate * 1.1, "docs/GATE.md: the sentence on the gate and the rows of its table")
        for path in ("README.md", "CONTRIBUTING.md"):
            self.assertIn("three minutes", text(path), f"{path}: what the quick test takes")
            self.assertIn("half a minute", text(path), f"{path}: what sf_base takes")

    def test_where_it_is_behind_comes_first(self):
        page = text("docs/PERFORMANCE.md")
        self.assertEqual(re.search(r"^## (.*)$", page, re.M).group(1), "Where it is behind", "docs/PERFORMANCE.md: first where others are faster")
        behind = [cell for row in rows_of(section(page, "Where it is behind")) for cell in row]
        self.assertGreater(len(behind), 0)
        calls = {row[0]: row[1] for row in rows_of(section(page, "A queue call"))}
        whole = [cost for what, cost in calls.items() if "lock" in what]
        self.assertEqual(len(whole), 1, "docs/PERFORMANCE.md: one row has a cycle with its lock")
        self.assertTrue(any(cell.startswith(whole[0]) for cell in behind), f"docs/PERFORMANCE.md: {whole[0]} for a queue call, in both tables")

    def test_the_page_for_contributors_is_two_screens(self):
        self.assertLessEqual(lines_of_a_screen(text("CONTRIBUTING.md")), 2 * SCREEN_LINES)

    def test_sentences_are_short(self):
        for path in DOCUMENTS:
            for sentence in sentences(text(path)):
                self.assertLessEqual(len(sentence.split()), MOST_WORDS, f"{path}: {sentence[:100]}")

    def test_the_page_on_proofs_names_functions_and_clauses_that_stand(self):
        lists = lists_of(read_rooms())
        for section in re.split(r"^## ", text("docs/PROVED.md"), flags=re.M)[1:]:
            crates = [crate for crate in lists if re.search(rf"\b{crate}\b", section.splitlines()[0])]
            names = set().union(*(names_in(crate) for crate in crates + [library for crate in crates for library in lists[crate] if library in lists]))
            for row in re.findall(r"^\| (.*) \|$", section, re.M):
                for name in named(row.split(" | ")[1:]):
                    self.assertTrue(name in names, f"{section.splitlines()[0]}: {name} in {row[:100]}")
            for name in named(re.findall(r"\[((?:`\w+`(?:, )?)+)\]", section)):
                self.assertTrue(name in names, f"{section.splitlines()[0]}: {name} of what a caller owes")

    def test_the_page_on_meaning_names_definitions_that_stand(self):
        names = set().union(*map(names_in, lists_of(read_rooms())))
        for cited in re.findall(r"Definitions?: ([^\n]*)", text("docs/MEANING.md")):
            for name in named([cited]):
                self.assertTrue(name in names, f"{name} in {cited[:100]}")

    def test_the_recipes_name_files_that_stand(self):
        rows = re.findall(r"^\| (.*) \| (.*) \|$", text("docs/RECIPES.md"), re.M)
        named_files = 0
        for where, what in rows:
            folders = [os.path.join(TOP, "crates", name) for name in re.findall(r"`(\w+)`", where)] + [os.path.join(TOP, name) for name in re.findall(r"`(tools/[\w/]+)`", where)]
            files = [path for folder in folders for path in glob.glob(os.path.join(folder, "**", "*.*"), recursive=True)]
            for name in re.findall(r"`([\w/]+\.(?:rt|antt|py))`", what) if folders else ():
                self.assertTrue(any(path.endswith(os.sep + name) for path in files), f"{where}: {name}")
                named_files += 1
        self.assertGreater(named_files, 50)

    def test_the_recipes_name_definitions_that_stand(self):
        silent = 0
        for where, what in re.findall(r"^\| (.*) \| (.*) \|$", text("docs/RECIPES.md"), re.M):
            names = set().union(*(names_in(crate) for crate in re.findall(r"`(\w+)`", where)))
            for name in named(re.findall(r"\[([^\]]*)\](?!\()", what)):
                self.assertTrue(name in names, f"{where}: {name}, on which the checker is silent")
                silent += 1
        self.assertGreater(silent, 15)

    def test_the_recipes_look_for_words_that_stand(self):
        proofs = "\n".join(map(text, glob.glob(os.path.join(TOP, "crates", "*", "proofs", "**", "*.antt"), recursive=True)))
        asked = re.findall(r"`grep -rlw? ([^`]*) crates/\*/proofs`", text("docs/RECIPES.md"))
        self.assertEqual(len(asked), 3)
        for word in " ".join(asked).replace("-e ", "").split():
            self.assertRegex(proofs, rf"\b{re.escape(word)}\b", f"{word}, which a recipe looks for")

    def test_counts_of_scenes_and_stored_runs_are_today_s(self):
        stored = text("crates/test_program/stdout")
        self.assertIn(f"- {len(re.findall(r'^== .* status 0$', stored, re.M))} runs end with 0", text("docs/PROVED.md"))
        names = [name for name, _ in worked_scenes()]
        here = sum(name.startswith("scenes" + os.sep) for name in names)
        self.assertIn(f"the {here} in `scenes/` and the {len(names) - here} in `crates/test_program/data/`", text("docs/JUDGING.md"))

    def test_the_program_says_the_newest_version_that_changed_something(self):
        newest = re.search(r"^## (\d+\.\d+\.\d+)", text("CHANGELOG.md"), re.M).group(1)
        version = re.search(r'"(sf_main \d.*)"', text("crates/sf_main/src/help.rt")).group(1)
        self.assertEqual(version, f"sf_main {newest} (scripts 1 and 2, records 1)", "the version of the program, of scripts and of records")
        self.assertIn("scripts 1 and 2 ([SCRIPT](docs/SCRIPT.md)), records 1 ([RECORDS](docs/RECORDS.md))", text("CHANGELOG.md"))

    def test_the_page_on_viewing_names_what_a_run_leaves(self):
        page = text("docs/VIEWING.md")
        for name in LEFT + ("frame-N.png",):
            self.assertIn(f"| `{name}` |", page)

    def test_the_stream_of_the_page_is_what_its_lines_say(self):
        script, data, lines = indented("docs/RECORDS.md", "A whole stream")
        records, of_stream = read(bytes.fromhex("".join(data)))
        self.assertEqual(faults(records, of_stream), [])
        self.assertEqual(sum(len(record.raw) for record in records), 260)
        self.assertEqual([plain(record) for record in records], lines)
        self.assertEqual([line for line in text("scenes/red.sf").splitlines() if not line.startswith("#")], script)

    def test_whole_scripts_on_the_page_beside_android_are_cases(self):
        blocks = [re.findall(r"^    (.*)$", block, re.M) for block in text("docs/ANDROID.md").split("\n\n") if block.startswith("    scene ")]
        cases = [without_comments(path) for path in glob.glob(os.path.join(TOP, "crates", "test_program", "data", "*.sf"))]
        self.assertEqual(len(blocks), 2)
        for block in blocks:
            self.assertIn([line for line in block if not line.startswith("#")], cases)

    def test_the_page_on_scripts_has_each_form(self):
        page = text("docs/SCRIPT.md")
        for form in LINES + SECOND + STEPS[:-1] + CHANGES:
            shown = form_text(form) + (" PICK .." if form == "order PICK" else "")
            self.assertIn(f"`{shown}`", page)

    def test_the_examples_of_the_page_on_scripts_have_lines_of_its_forms(self):
        blocks = [block.splitlines() for block in text("docs/SCRIPT.md").split("\n\n") if block.startswith("    ")]
        self.assertEqual(len(blocks), 4)
        for block in blocks:
            in_steps, version = False, 2 if any(line.split()[:2] == ["scene", "2"] for line in block) else 1
            for line in block:
                words = line.split()
                in_steps = in_steps or words[0] == "actor"
                self.assertTrue(words[0] == "#" or of_some_form(words, in_steps, version), line)

    def test_the_example_of_version_2_shows_what_the_page_says(self):
        (script,) = [block for block in text("docs/SCRIPT.md").split("\n\n") if block.startswith("    scene 2 ")]
        told = Play(read_scene(textwrap.dedent(script).encode())).records()
        red, black = "ff0000ff", "000000ff"
        self.assertEqual([tag + "".join(field_text(*field) for field in list(fields.items())[-1:]) for tag, fields in told if tag in OUTPUTS],
                         [f"FRAM 2*{black} 1*{red} 5*{black}", f"FRAD 1*{red} 7*{black}", f"CAPT 1*{red} 3*{black}", "HITS 0"])

    def test_the_page_on_records_has_each_tag_and_each_name(self):
        page = text("docs/RECORDS.md")
        for tag in FORMS:
            self.assertRegex(page, rf"\| {tag} \||the record {tag},")
        for names in (STATUSES, REJECTS, HOLDS, CALLS):
            for number, name in names.items():
                self.assertIn(f"| {number} | {name} |", page)


if __name__ == "__main__":
    unittest.main()
