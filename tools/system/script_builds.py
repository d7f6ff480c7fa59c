"""Cases of check-script: what builds and what doesn't, whether a program is of the sources as they stand, drafts, Ctrl-C."""
import os
import re
import shutil

from script_copy import STANDS_IN, SYSTEM, later, stand_in
from support import TOP

NOTE = "draft: not proved\n"


def three_lines(copy, what, done, first, in_second="./kmsrest --draft"):
    lines = done.stderr.splitlines()
    is_so = done.returncode == 70 and len(lines) == 3 and first in lines[0] and in_second in lines[1] and "./kmsrest --build" in lines[1]
    copy.tell(
        f"{what}: three lines, what to do, and 70",
        is_so and all(line.startswith("kmsrest: ") for line in lines),
        (done.returncode, lines),
    )


def unbuilt(copy):
    """Words where nothing is built, also on a terminal and with a kit on the path."""
    path = copy.fake_kit("kit")
    for words in (["check", "--config", "x"], ["nope"], ["--config", "x"]):
        three_lines(copy, f"{words} without a program", copy.run(*words), "the program isn't built here")
        three_lines(copy, f"{words} with a kit", copy.run(*words, path=path), "the program isn't built here")
        three_lines(copy, f"{words} with a kit, on a terminal", copy.on_terminal(*words, path=path), "the program isn't built here")
        three_lines(copy, f"{words} with KMSREST_BUILD", copy.run(*words, path=path, KMSREST_BUILD="1"), "the program isn't built here")
    copy.expect("it tells whether rt is there", copy.run("check"), 70, "", "which is not there")
    copy.expect("and where it is", copy.run("check", path=path), 70, "", "on the path; help")
    three_lines(copy, "KMSREST_DRAFT without a draft", copy.run("check", path=path, KMSREST_DRAFT="1"), "the draft isn't built here")
    copy.tell(
        "none of them called the kit or built anything",
        not (copy.room / "kit" / "calls").exists() and not (copy.top / "out").exists(),
        "it did",
    )
    for word in ("--build", "--draft"):
        copy.expect(f"{word} without rt", copy.run(word), 70, "", "there is no `rt` on the path")
        copy.expect(
            f"{word} where nothing can be made", copy.run(word, path=path, TMPDIR="/nonexistent"), 70, "", "set TMPDIR to another folder"
        )
    copy.expect("demo without rt", copy.run("demo"), 70, "", "there is no `rt` on the path")
    copy.expect("explain of it", copy.run("explain", "kmsrest: the program isn't built here"), 0, "means:  ", "")


def failed_builds(copy):
    failed = copy.run("--build", "check", path=copy.fake_kit("kit", "fails"))
    copy.expect("--build where rt fails", failed, 70, "", "it could not be built")
    copy.expect("an rt of other parts is run as it is", failed, 70, "", "rt ci\n")
    logs = re.findall(r"the whole log is (\S+)", failed.stderr)
    copy.tell("its log stays, and nothing else", [os.path.basename(one) for one in logs] == copy.left(), (logs, copy.left()))
    for path in copy.scratch.iterdir():
        path.unlink()
    copy.expect(
        "--draft where rt fails",
        copy.run("--draft", "check", path=f"{copy.room / 'kit' / 'bin'}:{SYSTEM}"),
        70,
        "",
        "kmsrest could not be drafted",
    )
    lacking = copy.run("--draft", path=copy.fake_kit("lacking", without="bin/rattle-link"))
    copy.expect("--draft by a kit without a part", lacking, 70, "", f"the kit at {copy.room}/lacking has no bin/rattle-link")
    other = copy.run("--draft", path=copy.fake_kit("other", "other"))
    copy.expect(
        "--draft by a kit that makes no module",
        other,
        70,
        "",
        "draft: `rt try` made no module of kmsrest for clang: what it says stands above",
    )
    copy.tell("no draft is left of these", not (copy.top / "out").exists(), "there is one")


def built(copy):
    copy.build()
    copy.expect("the program's words", copy.run("check", "--config", "a b"), 6, "words check --config a b\n", "")
    copy.expect("--build of a built one", copy.run("--build"), 0, "", "")
    copy.expect("--build with words", copy.run("--build", "list"), 6, "words list\n", "")
    lines = copy.run("limits").stdout.split("\n")
    # (signal 25, a file that grows past its limit, is ignored)
    is_so = lines[0] == "0" and int(lines[1].split()[1], 16) >> 24 & 1
    copy.tell("no core files, and a write beyond a limit is a failed write", bool(is_so), lines)
    plugin = copy.room / "kubectl-kmsrest"
    plugin.symlink_to(copy.top / "kmsrest")
    copy.expect("as kubectl's plugin", copy.run("list", "--store", "s", script=plugin), 6, "words list --store s\n", "")


def installed(copy):
    """A tree without sources, as a release lays it."""
    for name in ("crates", "tools", "front/building"):
        shutil.rmtree(copy.top / name)
    (copy.top / "crates.txt").unlink()
    (copy.top / "libexec").mkdir()
    stand_in(copy.top / "libexec" / "kmsrest")
    copy.expect("an installed program", copy.run("check", "--config", "x"), 6, "words check --config x\n", "")
    copy.expect("whatever draft is wanted", copy.run("check", KMSREST_DRAFT="1"), 6, "words check\n", "")
    for word in ("--build", "--draft"):
        copy.expect(
            f"{word} of an installed one",
            copy.run(word, path=copy.fake_kit(f"kit{word}")),
            70,
            "",
            "this is an installed kmsrest, which builds nothing",
        )


def contents(copy):
    """Sources against the program: by contents where their sums lie beside it, else by times, as the gate leaves it."""
    program = copy.build()
    source, record = copy.top / "crates" / "kr_base" / "src" / "lib.rt", program.with_name("kmsrest.sources")
    source.write_text("a")
    copy.expect("a program without sums is taken by its time", copy.run("check"), 6, "words check\n", "")
    copy.tell("and its sums are left beside it", record.exists(), "no record")
    later(source, 100)
    for _ in range(2):
        copy.expect("times that are newer, and the same contents", copy.run("check"), 6, "words check\n", "")
    source.write_text("b")
    os.utime(source, (1, 1))
    os.utime(program, (2, 2))
    three_lines(
        copy,
        "other contents, and a time that is older",
        copy.run("check"),
        "older than its sources: crates/kr_base/src/lib.rt was changed since",
    )
    copy.expect("--build of it without rt", copy.run("--build"), 70, "", "there is no `rt` on the path")
    source.write_text("a")
    copy.expect("the same contents again", copy.run("check"), 6, "words check\n", "")
    more = source.with_name("more.rt")
    more.write_text("")
    three_lines(copy, "a source more", copy.run("check"), "crates/kr_base/src/more.rt was changed")
    more.unlink()
    copy.expect("and gone again", copy.run("check"), 6, "words check\n", "")
    with open(copy.top / "crates.txt", "a") as file:
        file.write("test_more: kr_base\n")
    copy.expect("a crate more that isn't the program's", copy.run("check"), 6, "words check\n", "")
    source.write_text("c")
    later(program)
    copy.expect("the same program, built of what is here now", copy.run("check"), 6, "words check\n", "")


def by_times(copy):
    program = copy.build()
    source, record = copy.top / "crates" / "kr_base" / "src" / "lib.rt", program.with_name("kmsrest.sources")
    source.write_text("a")
    copy.run("check")
    program.write_text(STANDS_IN + "# another\n")
    os.utime(program, (1, 1))
    copy.expect("another program beside these sums", copy.run("check"), 70, "", "older than its sources")
    record.unlink()
    three_lines(copy, "times alone", copy.run("check"), "or only its time, and then: touch clone/crates/kmsrest/out/kmsrest")
    later(program)
    copy.expect("as the advice says", copy.run("check"), 6, "words check\n", "")
    copy.expect(
        "explain of it", copy.run("explain", "kmsrest: the program is older than its sources: x was changed since"), 0, "means:  ", ""
    )


def drafts(copy):
    """Drafts by a kit of stand-ins: where they lie, when they are made anew, and what each call says."""
    path, draft = copy.fake_kit("kit"), copy.top / "out" / "draft" / "kmsrest"
    calls = copy.room / "kit" / "calls"
    copy.expect(
        "--draft with words",
        copy.run("--draft", "check", "--config", "x", path=path),
        6,
        "words check --config x\n",
        "which proves nothing",
    )
    copy.tell("it lies under a name of its own", draft.exists() and not copy.program.exists(), "elsewhere")
    by_clang = [line for line in calls.read_text().splitlines() if line.startswith("clang")]
    is_so = (
        len(by_clang) == 3
        and "-O0" in by_clang[0]
        and "-fsanitize" not in calls.read_text()
        and "-O2" in by_clang[1]
        and "note.c" in by_clang[2]
    )
    copy.tell("clang got the kit's trial, the module without its sanitizer, and the note", is_so, by_clang)
    copy.expect("a second time nothing is drafted", copy.run("--draft", "check"), 6, "words check\n", "")
    copy.expect("--draft alone then does nothing", copy.run("--draft"), 0, "", "")
    three_lines(copy, "other calls never take it", copy.run("check"), "the program isn't built here")
    copy.expect("but with KMSREST_DRAFT", copy.run("check", KMSREST_DRAFT="1"), 6, "words check\n", "")
    done = copy.on_terminal("--draft", "check")
    copy.tell("on a terminal it says what it is", done.stderr.startswith(NOTE) and done.stderr.count(NOTE) == 1, done)
    copy.tell("--version too", copy.on_terminal("--draft", "--version").stderr == NOTE, "another")
    copy.tell("and nothing elsewhere", copy.run("--draft", "--version").stderr == "", "something")
    source = copy.top / "crates" / "kr_base" / "src" / "lib.rt"
    source.write_text("a")
    three_lines(
        copy,
        "a draft of other sources",
        copy.run("check", KMSREST_DRAFT="1"),
        "the draft is older than its sources: crates/kr_base/src/lib.rt",
    )
    copy.expect("--draft of other sources without rt", copy.run("--draft", "check"), 70, "", "there is no `rt` on the path")
    copy.expect("is made anew", copy.run("--draft", "check", path=path), 6, "words check\n", "which proves nothing")
    later(source, 100)
    copy.expect("but not for times alone", copy.run("--draft", "check"), 6, "words check\n", "")
    copy.expect("kmsplug", copy.run("--draft", "kmsplug", "a", path=path), 6, "words a\n", "drafting kmsplug")
    copy.tell(
        "nothing else is left",
        (copy.left(), sorted(each.name for each in draft.parent.iterdir()))
        == ([], ["kmsplug", "kmsplug.sources", "kmsrest", "kmsrest.sources"]),
        copy.left(),
    )
    os.utime(source, (1, 1))
    copy.expect(
        "by a kit whose `rt try` knows no steps",
        copy.run("--draft", "test_judge", path=copy.fake_kit("older", "older")),
        6,
        "words \n",
        "drafting test_judge",
    )
    copy.build()
    copy.expect("a proved one is taken without --draft", copy.run("check"), 6, "words check\n", "")


def demo(copy):
    """Where nothing is built, `demo` drafts; else it takes the program. The stand-in's first step isn't as it must be."""
    shutil.copytree(TOP / "examples" / "rotation", copy.top / "examples" / "rotation")
    path = copy.fake_kit("kit")
    copy.expect("demo where nothing is built", copy.run("demo", path=path), 1, "$ printf hunter2 | kmsrest put", "drafting kmsrest")
    done = copy.on_terminal("demo")
    copy.tell(
        "a second time it takes that draft, and says what it is",
        (done.returncode, done.stderr.count(NOTE), "drafting" in done.stderr) == (1, 1, False),
        done,
    )
    copy.build()
    done = copy.on_terminal("demo")
    copy.tell("and the program where that is built", (done.returncode, done.stderr.count(NOTE)) == (1, 0), done)
    copy.tell("nothing is left of them", copy.left() == [], copy.left())


def ended(copy):
    """Ctrl-C in the midst of a build or a draft leaves no file and no process."""
    path = copy.fake_kit("kit", "sleeps")
    tried = (("--draft", "scratch", "a draft"), ("--build", "crates", "a build"))
    for word, folder, what in tried:
        begun = lambda folder=folder: any(each.is_dir() and (each / folder).is_dir() for each in copy.scratch.iterdir())
        found = copy.interrupted(word, "check", path=path, until=begun)
        copy.tell(f"Ctrl-C ends {what}, and leaves nothing", found == (130, []), found)
    copy.tell("nor in the checkout", not copy.program.parent.exists() and not (copy.top / "out").exists(), "something is there")


def cut_short(copy):
    """A record whose writing is ended leaves no draft of it."""
    copy.build()
    (copy.top / "crates" / "kr_base" / "src" / "lib.rt").write_text("a")
    tools, begun = copy.room / "tools", copy.room / "begun"
    tools.mkdir()
    (tools / "touch").write_text(f"#!/bin/sh\necho >{begun}\nexec sleep 9999\n")
    (tools / "touch").chmod(0o755)
    folder = copy.program.parent
    found = copy.interrupted("check", path=f"{tools}:{SYSTEM}", until=begun.exists)
    copy.tell(
        "Ctrl-C while the sums are left",
        (found, [each.name for each in folder.iterdir()]) == ((130, []), ["kmsrest"]),
        (found, [*folder.iterdir()]),
    )


BUILDS = (unbuilt, failed_builds, built, installed, contents, by_times, drafts, demo, ended, cut_short)
