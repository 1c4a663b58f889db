"""Wrong bodies beside the gate: edits that a crate's contracts have to refuse.

The gate tries crates/NAME/must-fail/*.edit, a few that tell most; all others lie in crates/NAME/wrong/. They are tried
on a copy, which begins with what `rt check` kept in the crate's out/: those of different functions in one check, since
a function is proved by its own body and the contracts of others; what that leaves open one by one, by `rt must-fail`.
What was refused is noted in docs/edits.tsv with a sum of the text that it was refused at.
"""

import glob
import hashlib
import os
import re
import shutil
import subprocess
import tempfile

from surbeldoi import TOP
from surbeldoi.build import bodies
from surbeldoi.commands import words
from surbeldoi.commands.words import Command, WrongWords

STAMPS = os.path.join(TOP, "docs", "edits.tsv")
HEAD = "crate\tsum of its text\trefused\n"
COMMENTS = {".rt": b"//", ".antt": b"--"}


class BadEdit(Exception):
    """An edit that does not fit its file."""


def read(path):
    with open(path, encoding="utf-8") as file:
        return file.read()


def crates(top=TOP):
    """The libraries that each crate names in crates.txt."""
    named = {}
    for line in read(os.path.join(top, "crates.txt")).splitlines():
        head, _, libraries = line.partition("#")[0].partition(":")
        if head.strip():
            named[head.split()[0]] = libraries.split()
    return named


def below(name, named):
    """A crate's own libraries and those below them, by name."""
    found, todo = set(), list(named[name])
    while todo:
        library = todo.pop()
        if library in named and library not in found:
            found.add(library)
            todo += named[library]
    return sorted(found)


def edits_of(name, folder="wrong", top=TOP):
    return sorted(glob.glob(os.path.join(top, "crates", name, folder, "*.edit")))


def steps_of(edit):
    """The steps of an edit: the file that each changes, its old text and its new one."""
    file, old, steps = None, None, []
    for line in read(edit).splitlines():
        if line.startswith("file: ") and old is None:
            file = line[len("file: "):]
        elif line.startswith("old: ") and file and old is None:
            old = line[len("old: "):]
        elif line.startswith("new:") and old is not None:
            steps.append((file, old, line[len("new: "):]))
            old = None
        elif line.strip():
            raise BadEdit(f"a line is no step: {line[:60]}")
    if not steps or old is not None:
        raise BadEdit("it has no pair of an old and a new text")
    return steps


def applied(edit):
    """The texts of the files that an edit changes, once it is applied."""
    folder, texts = os.path.dirname(os.path.dirname(edit)), {}
    for file, old, new in steps_of(edit):
        path = os.path.join(folder, file)
        if not file.startswith("src/"):
            raise BadEdit(f"it changes {file}: only a change of src/ is a wrong body")
        if not os.path.isfile(path):
            raise BadEdit(f"there is no {file}")
        text = texts[file] if file in texts else read(path)
        if text.count(old) != 1:
            raise BadEdit(f"stands {text.count(old)} times in {file}, not once: {old[:60]}")
        if old == new:
            raise BadEdit(f"changes nothing: {old[:60]}")
        texts[file] = text.replace(old, new)
    return texts


def faults(top=TOP):
    """What is wrong with edits of any crate, and how many edits there are."""
    told, count = [], 0
    for name in sorted(crates(top)):
        for folder in ("must-fail", "wrong"):
            for edit in edits_of(name, folder, top):
                count += 1
                try:
                    applied(edit)
                except BadEdit as fault:
                    told.append(f"{os.path.relpath(edit, top)}: {fault}")
    return told, count


def files_below(folder, parts):
    """The files of some parts of a crate's folder, each part walked in order."""
    for part in parts:
        for at, folders, names in os.walk(os.path.join(folder, part)):
            folders.sort()
            yield from (os.path.join(at, name) for name in sorted(names))


def told_in(path):
    """What a file says beside comments that have lines of their own, since these change no refusal."""
    mark = COMMENTS.get(os.path.splitext(path)[1])
    with open(path, "rb") as file:
        lines = file.read().split(b"\n")
    return b"\n".join(line for line in lines if not (mark and line.lstrip().startswith(mark)))


def sum_of(name, named, top=TOP):
    """A sum of what a refusal rests on: the crate's own text and edits, and the definitions that it can cite, without comments."""
    total = hashlib.sha256()
    for crate, parts in [(name, ("src", "specs", "proofs", "wrong"))] + [(it, ("specs",)) for it in below(name, named)]:
        for path in files_below(os.path.join(top, "crates", crate), parts):
            total.update(os.path.relpath(path, top).encode() + b"\0")
            total.update(told_in(path) + b"\0")
    return total.hexdigest()[:16]


def stamps(path=STAMPS):
    """What docs/edits.tsv says of each crate: the sum of its text, and how many edits were refused there."""
    if not os.path.exists(path):
        return {}
    rows = (line.split("\t") for line in read(path).splitlines()[1:])
    return {name: (total, int(refused)) for name, total, refused in rows}


def write_stamps(known, path=STAMPS):
    rows = (f"{name}\t{total}\t{refused}\n" for name, (total, refused) in sorted(known.items()))
    with open(path, "w", encoding="utf-8") as file:
        file.write(HEAD + "".join(rows))


def with_edits(named, top=TOP):
    return [name for name in named if edits_of(name, top=top)]


def stale(known=None, top=TOP):
    """The crates with edits whose text is another than when their edits were tried, or that were never tried."""
    known, named = stamps() if known is None else known, crates(top)
    return [name for name in with_edits(named, top) if known.get(name) != (sum_of(name, named, top), len(edits_of(name, top=top)))]


def changed_since(commit):
    """The crates with edits that changed since a commit, or that stand on changed definitions."""
    ran = subprocess.run(["git", "diff", "--name-only", commit], cwd=TOP, stdout=subprocess.PIPE, check=True, text=True)
    paths = [line.split("/") for line in ran.stdout.splitlines() if line.startswith("crates/")]
    own = {path[1] for path in paths if path[2] in ("src", "specs", "proofs", "wrong")}
    cited = {path[1] for path in paths if path[2] == "specs"}
    named = crates()
    return [name for name in with_edits(named) if name in own or cited & set(below(name, named))]


def linked(source, target):
    """Copies a folder whose files are never written again, by links where the disk has them."""

    def link(one, other):
        try:
            os.link(one, other)
        except OSError:
            shutil.copyfile(one, other)

    shutil.copytree(source, target, copy_function=link, symlinks=True)


def copy_for(name, named, room):
    """Lays a crate and those below it into a folder, with what checks kept."""
    for crate in [name, *below(name, named)]:
        source, target = (os.path.join(top, "crates", crate) for top in (TOP, room))
        for part in ("src", "specs", "proofs"):
            if os.path.isdir(os.path.join(source, part)):
                shutil.copytree(os.path.join(source, part), os.path.join(target, part))
        for kept in ("rlib", "incremental"):
            if os.path.isdir(os.path.join(source, "out", kept)):
                linked(os.path.join(source, "out", kept), os.path.join(target, "out", kept))
    lines = [line for line in read(os.path.join(TOP, "crates.txt")).splitlines() if re.split(r"[\s:]", line)[0] in [name, *below(name, named)]]
    with open(os.path.join(room, "crates.txt"), "w", encoding="utf-8") as file:
        file.write("\n".join(lines) + "\n")
    shutil.copyfile(os.path.join(TOP, "HANDLES"), os.path.join(room, "HANDLES"))
    os.mkdir(os.path.join(room, ".git"))


def name_of(edit):
    return os.path.basename(edit)[: -len(".edit")]


def refused_in(said, name):
    """The edits that `rt must-fail` says were refused."""
    return re.findall(rf"^rt: must-fail {name}/(\S+)\.edit: refused", said, re.M)


def rounds_of(edits):
    """Edits that change one function each, by rounds with no function twice: of each edit, by its name, the steps and the function."""
    rounds = []
    for edit in edits:
        steps = steps_of(edit)
        texts = {file: read(os.path.join(os.path.dirname(os.path.dirname(edit)), file)) for file, _, _ in steps}
        function = bodies.changed(texts, steps)
        if function:
            free = next((it for it in rounds if all(function != taken for _, taken in it.values())), None)
            if free is None:
                free = {}
                rounds.append(free)
            free[name_of(edit)] = steps, function
    return rounds


def apply_to(folder, steps):
    """Changes a crate's files by the steps of an edit."""
    for file, old, new in steps:
        path = os.path.join(folder, file)
        text = read(path).replace(old, new, 1)
        with open(path, "w", encoding="utf-8") as out:
            out.write(text)


def try_together(name, named, chosen, jobs):
    """Tries edits of different functions in one check; those that were refused, each with a cause in its own function."""
    with tempfile.TemporaryDirectory(prefix=f"edits-{name}-") as room:
        copy_for(name, named, room)
        folder = os.path.join(room, "crates", name)
        for steps, _ in chosen.values():
            apply_to(folder, steps)
        functions, strange = {edit: function for edit, (_, function) in chosen.items()}, ""
        while functions and strange is not None:
            asked = [word for function in functions.values() for word in ("--only", function.path)]
            said = said_by(["rt", "check", *jobs, *asked], folder)
            strange = bodies.unknown(said)
            functions = {edit: function for edit, function in functions.items() if function.path != strange}
    return bodies.refused(said, name, functions)


def try_alone(name, named, edits):
    """Tries edits one by one; the names of those that were refused."""
    with tempfile.TemporaryDirectory(prefix=f"edits-{name}-") as room:
        copy_for(name, named, room)
        folder = os.path.join(room, "crates", name, "must-fail")
        os.makedirs(folder)
        for edit in edits:
            shutil.copy(edit, folder)
        said = said_by(["rt", "must-fail", name], room)
    print(said, end="", flush=True)
    return refused_in(said, name)


def said_by(command, folder):
    return subprocess.run(command, cwd=folder, stdout=subprocess.PIPE, stderr=subprocess.STDOUT, text=True).stdout


def try_edits(name, named, jobs):
    """Tries the edits of a crate; how many there are, and how many were refused."""
    edits, refused = edits_of(name), {}
    for chosen in rounds_of(edits):
        refused.update(try_together(name, named, chosen, jobs))
    for edit, cause in refused.items():
        print(f"{name}/{edit}: refused: {cause}", flush=True)
    left = [edit for edit in edits if name_of(edit) not in refused]
    return len(edits), len(refused) + (len(try_alone(name, named, left)) if left else 0)


def try_all(names, jobs):
    """Tries the edits of crates, one after another, and notes what was refused; the status."""
    named, status = crates(), 0
    for name in names:
        if not edits_of(name):
            print(f"{name} has no edits in wrong/")
            continue
        total = sum_of(name, named)
        many, refused = try_edits(name, named, jobs)
        print(f"{name}: {refused} of {many} refused", flush=True)
        if refused < many:
            status = 1
        else:
            write_stamps({**stamps(), name: (total, refused)})
    return status


def tell_faults():
    """Tells which edits do not fit their files; the status."""
    told, count = faults()
    print("\n".join([*told, f"{count} edits, {len(told)} do not fit"]))
    return 1 if told else 0


def tell_stale():
    print("\n".join(stale()) or "each crate's edits were tried at its text")
    return 0


def take(parser):
    parser.add_argument("names", metavar="NAME", nargs="*", type=words.path, help="tries the edits of these crates")
    ways = parser.add_mutually_exclusive_group()
    ways.add_argument("--apply", action="store_true", help="does each edit fit its file? No prover is needed")
    ways.add_argument("--stale", action="store_true", help="which crates changed since their edits were tried")
    ways.add_argument("--since", metavar="COMMIT", help="tries those of each crate that changed since, or that cites one that did")
    ways.add_argument("--all", action="store_true", help="tries those of each crate")
    parser.add_argument("--jobs", metavar="N", type=words.number(1, 64), help="how many jobs a check of several edits may have; rt chooses if not given")


def check_names(options):
    """The words have to ask for one thing, of crates that there are."""
    asked = options.apply or options.stale or options.all or options.since is not None
    if bool(options.names) == bool(asked):
        raise WrongWords("a crate's name or one option says what is asked for (edits.py --help tells which there are)")
    unknown = [name for name in options.names if name not in crates()]
    if unknown:
        raise WrongWords(f"there is no crate {unknown[0]}")


def run(options):
    check_names(options)
    if options.apply:
        return tell_faults()
    if options.stale:
        return tell_stale()
    jobs = ["--jobs", str(options.jobs)] if options.jobs else []
    if options.all:
        return try_all(with_edits(crates()), jobs)
    return try_all(options.names if options.since is None else changed_since(options.since), jobs)


def main(given):
    about, more = __doc__.strip().split("\n\n", 1)
    return words.called("edits.py", Command(about, take, run, more=more), given)
