"""Files that are replaced together: all or none, whatever happens at whichever moment."""
import contextlib
import itertools
import json
import os
import random
import signal
import sys
import unittest.mock
from typing import Any, Callable, Dict, Iterator, List, Set

from sokotool import system, texts, transaction

from . import disk
from .ending import Killed
from .helping import LACKING, Case, not_on_windows

OLD = {"a": b"old a\n", "b": b"old b\n", "gone": b"old\n"}
NEW = {"a": b"new a\n", "b": b"new b\n", "fresh": b"new\n"}
# the same files, with lines that move from one to another: each is in one file at both times
BEFORE = {"a": b"1\n2\n3\n", "b": b"4\n5\n6\n", "gone": b"7\n"}
AFTER = {"fresh": b"3\n", "a": b"1\n5\n7\n", "b": b"4\n6\n2\n"}
NAMES = "fresh", "a", "gone", "b"
Files = Dict[str, bytes]
CALLS = "replace", "rename", "link", "unlink"
real_replace, real_rename = os.replace, os.rename


@contextlib.contextmanager
def at_calls(act: Callable[[int], None]) -> Iterator[List[str]]:
    """Acts before each call that moves or removes a file, and yields the calls so far."""
    seen: List[str] = []

    def patched(name: str) -> Any:
        real = getattr(os, name)

        def called(*words: Any, **named: Any) -> Any:
            seen.append(name)
            act(len(seen))
            return real(*words, **named)
        return unittest.mock.patch.object(os, name, called)
    with contextlib.ExitStack() as stack:
        for name in CALLS:
            stack.enter_context(patched(name))
        yield seen


def kill_at(moment: int, goes_on: bool) -> Callable[[int], None]:
    """Returns what ends a run at a call; after a kill nothing more is done."""
    def kill(now: int) -> None:
        if now == moment or now > moment and not goes_on:
            raise Killed
    return kill


def rename_as_windows(made: str, path: str) -> None:
    if os.path.exists(path):
        raise FileExistsError
    real_rename(made, path)


class Transactions(Case):
    def setUp(self) -> None:
        super().setUp()
        self.put(unittest.mock.patch.object(os, "fsync"))
        self.start()

    def put(self, patch: Any) -> None:
        patch.start()
        self.addCleanup(patch.stop)

    def start(self, old: Files = OLD) -> None:
        for name in os.listdir():
            os.remove(name)
        for name, data in old.items():
            self.write(name, data)

    def files(self) -> Files:
        return {name: self.read(name) for name in os.listdir()}

    def commit(self, old: Files = OLD, new: Files = NEW) -> bool:
        """Returns whether the files were replaced."""
        try:
            transaction.commit([(it, old.get(it), new.get(it)) for it in NAMES], "journal")
            return True
        except transaction.Changed:
            return False

    def calls(self) -> List[str]:
        with at_calls(lambda _: None) as seen:
            self.assertTrue(self.commit())
        self.start()
        return seen

    def moments(self) -> range:
        return range(1, len(self.calls()) + 1)

    def save(self, name: str, way: str, data: bytes) -> None:
        """Saves as an editor does: in place, or by a new file that is renamed."""
        self.write(name if way == "in place" else "editor", data)
        if way != "in place":
            real_replace("editor", name)

    # ---- what is there at the end

    def test_all_or_none(self) -> None:
        self.assertTrue(self.commit())
        self.assertEqual(self.files(), NEW)
        for name in (*OLD, "fresh"):
            self.start()
            self.write(name, b"typed\n")
            self.assertFalse(self.commit())
            self.assertEqual(self.files(), {**OLD, name: b"typed\n"})

    def test_saved_at_any_moment(self) -> None:
        """What was saved is there, and the others are all old or all new."""
        for moment, name, way in itertools.product(self.moments(), ("a", "b"),
                                                   ("in place", "by rename")):
            self.saves({moment: name}, way)

    def test_saved_over_a_new_file(self) -> None:
        """An editor that read a file before it was moved, and saves after that, has the last word,
        and the others are as they were."""
        journal_goes = len(self.calls()) - 2 * len(NAMES)
        for moment, name in itertools.product(range(1, journal_goes + 1), ("a", "b")):
            self.assertFalse(self.saves({moment: name}, "in place"), moment)

    def test_saved_again_and_again(self) -> None:
        """The last save of a file is there, also while an earlier one has the files put back."""
        last = max(self.moments())
        for first, second in itertools.combinations(range(1, last + 12), 2):
            if first <= last:  # a second one may come when files are put back
                names = ("aa", "bb", "ab", "ba")[(first + second) % 4]
                self.saves({first: names[0], second: names[1]},
                           "in place" if second % 3 else "by rename")

    def saves(self, names: Dict[int, str], way: str) -> bool:
        """Saves files at moments. Returns whether the files were replaced although one was saved.
        """
        self.start()
        typed: Files = {}

        def act(now: int) -> None:
            if now in names:
                typed[names[now]] = b"typed at %d\n" % now
                self.save(names[now], way, typed[names[now]])
        with at_calls(act):
            is_done = self.commit()
        found = self.files()
        for name in [] if is_done else [it for it in found if it.endswith(".conflict-1")]:
            self.assertIn(found.pop(name), (OLD[name[0]], b"typed at %d\n" % min(names)))
        self.assertEqual(found, {**(NEW if is_done else OLD), **typed}, f"{names} {way}")
        return is_done

    def test_written_by_who_has_it_open(self) -> None:
        """What is written into a file that is moved aside comes back with it."""
        calls = self.calls()
        last = max(at for at, call in enumerate(calls, 1) if call in ("link", "rename"))
        for moment, name in itertools.product(range(1, last + 1), ("a", "b")):
            self.start()
            with open(name, "ab") as late:
                def act(now: int) -> None:
                    if now == moment:
                        late.write(b"typed\n")
                        late.flush()
                with at_calls(act):
                    is_done = self.commit()
            found = self.files()
            said = f"moment {moment}, {name}: {is_done} {found}"
            self.assertIn(b"typed", found.pop(name), said)
            whole = dict(NEW if is_done else OLD)
            whole.pop(name)
            self.assertEqual(found, whole, said)

    def test_ended_at_any_moment(self) -> None:
        """The next run ends it, also if a file was edited in between: that is kept, and the others
        are all old or all new."""
        for moment, name, goes_on in itertools.product(
                self.moments(), ("", "a", "b"), (False, True)):
            self.start()
            with at_calls(kill_at(moment, goes_on)):
                self.assertRaises(Killed, self.commit)
            there = name and os.path.exists(name)
            if there:
                self.write(name, self.read(name) + b"typed\n")
            transaction.finish("journal")
            found = {it: data for it, data in self.files().items() if it[0] != "."}
            said = f"moment {moment}, {name}: {found}"
            beside = found.pop(f"{name}.conflict-1", OLD.get(name))
            self.assertEqual(beside, OLD.get(name), said)
            if there:
                self.assertIn(b"typed", found.pop(name), said)
            self.assertIn(found, [{it: data for it, data in state.items()
                                   if it != name or not there} for state in (OLD, NEW)], said)

    @not_on_windows
    def test_interrupted_at_any_moment(self) -> None:
        """The interrupt waits, and nothing is left."""
        for moment in self.moments():
            def act(now: int) -> None:
                if now == moment:
                    os.kill(os.getpid(), signal.SIGINT)
            self.start()
            with at_calls(act):
                self.assertRaises(KeyboardInterrupt, self.commit)
            self.assertEqual(self.files(), NEW)

    @not_on_windows
    def test_interrupted_while_a_write_is_ended(self) -> None:
        """The run that ends a write which was cut off lets an interrupt wait too."""
        for moment in range(1, 9):
            self.start()
            with at_calls(kill_at(1, goes_on=False)):
                self.assertRaises(Killed, self.commit)

            def act(now: int) -> None:
                if now == moment:
                    os.kill(os.getpid(), signal.SIGINT)
            with at_calls(act):
                self.assertRaises(KeyboardInterrupt, transaction.finish, "journal")
            self.assertEqual(self.files(), NEW)

    def test_ended_before_the_journal(self) -> None:
        """The next run removes the new files, and none of other writes."""
        with unittest.mock.patch.object(system, "keep_names", side_effect=Killed), \
                at_calls(kill_at(1, goes_on=False)):
            self.assertRaises(Killed, self.commit)
        left = self.files()
        self.assertEqual(len(left), len(OLD) + 3)
        self.write(".sokotool-1f", b"of another program\n")
        transaction.finish("other")
        self.assertEqual(self.files(), {**left, ".sokotool-1f": b"of another program\n"})
        transaction.finish("journal")
        self.assertEqual(self.files(), {**OLD, ".sokotool-1f": b"of another program\n"})

    def test_taking_back_is_ended_too(self) -> None:
        """A run is killed while it takes files back, and the next one goes on."""
        for moment in range(1, 40):
            self.start()

            def act(now: int) -> None:
                if now == 1:
                    self.write("b", b"typed\n")
                kill_at(moment, goes_on=False)(now)
            with at_calls(act), contextlib.suppress(Killed):
                self.assertFalse(self.commit())
            transaction.finish("journal")
            found = {it: data for it, data in self.files().items() if it[0] != "."}
            self.assertEqual(found, {**OLD, "b": b"typed\n"}, f"moment {moment}")

    # ---- lines that move from one file to another

    def assert_has(self, lines: Set[bytes], where: object) -> None:
        """These lines are in files that aren't hidden, and no hidden file is left."""
        found = self.files()
        self.assertFalse([name for name in found if name[0] == "."], where)
        self.assertFalse(lines.difference(*(it.split() for it in found.values())), where)

    def test_no_line_is_lost(self) -> None:
        """An editor has read a file before the write or since its move, and saves it with a line
        more or as it was, or removes it. Perhaps another one saves another file, so that the write
        is taken back."""
        decided = len(self.calls()) - 2 * len(NAMES)
        for (name, other), second, base, more in itertools.product(
                (("a", "b"), ("b", "a"), ("gone", "b"), ("fresh", "a")), (0, 1, decided),
                (BEFORE, AFTER), (b"typed\n", b"", None)):
            for moment in itertools.count(1):
                self.start(BEFORE)
                lines, states = {*b"".join(BEFORE.values()).split()}, []

                def act(now: int) -> None:
                    found = {it: self.read(it) for it in (name, other) if os.path.exists(it)}
                    way = "in place" if moment % 2 else "by rename"
                    states.append(found.get(name))
                    if now == second:
                        self.save(other, way, found.get(other, BEFORE[other]) + b"other\n")
                        lines.add(b"other")
                    is_back = base is AFTER and found.get(name) == BEFORE.get(name)
                    if now != moment or is_back or base.get(name) not in states:
                        return
                    if more is not None:
                        self.save(name, way, base.get(name, b"") + more)
                        lines.update(more.split())
                    else:
                        lines.difference_update(base.get(name, b"").split())
                        if name in found:
                            os.remove(name)
                with at_calls(act) as calls:
                    is_done = self.commit(BEFORE, AFTER)
                if moment > len(calls):
                    break
                # Later nobody can know that the editor has read another file.
                if not is_done or base is AFTER or moment <= decided:
                    self.assert_has(lines, (name, second, base is AFTER, more, moment))

    def test_kept_files_stay(self) -> None:
        """A former file that can't be put back gets a name that no file has."""
        decided = len(self.calls()) - 2 * len(NAMES)
        self.write("a.conflict-1", b"kept\n")

        def act(now: int) -> None:
            if now == decided:
                self.write("a", b"typed\n")
        with at_calls(act):
            self.assertFalse(self.commit())
        self.assertEqual(self.files(), {**OLD, "a": b"typed\n", "a.conflict-1": b"kept\n",
                                        "a.conflict-2": OLD["a"]})

    def test_no_line_is_lost_after_a_kill(self) -> None:
        """Files are saved before the next run ends the write: new ones and others, and some that
        were moved aside. What was saved is in its place."""
        for moment, edited, goes_on in itertools.product(
                self.moments(), itertools.product((False, True), repeat=len(NAMES)),
                (False, True)):
            self.start(BEFORE)
            with at_calls(kill_at(moment, goes_on)):
                self.assertRaises(Killed, self.commit, BEFORE, AFTER)
            saved: Files = {}
            for name in itertools.compress(NAMES, edited):
                there = self.read(name) if os.path.exists(name) else BEFORE.get(name, b"")
                saved[name] = there + b"typed in %b\n" % name.encode()
                self.write(name, saved[name])
            transaction.finish("journal")
            self.assertEqual(saved, {name: self.read(name) for name in saved})
            self.assert_has({*b"".join(BEFORE.values()).split()}, (moment, edited, goes_on))

    def test_no_line_is_lost_if_a_save_is_followed_by_a_kill(self) -> None:
        """An editor that has read a former file saves over the new one, and the run is killed after
        that: before it ends the write, or while it takes it back."""
        decided = len(self.calls()) - 2 * len(NAMES)
        for moment, name, goes_on in itertools.product(
                range(1, decided + 1), ("a", "b"), (False, True)):
            for killed in itertools.count(moment):
                self.start(BEFORE)

                def act(now: int) -> None:
                    if now == moment:
                        way = "in place" if killed % 2 else "by rename"
                        self.save(name, way, BEFORE[name] + b"typed\n")
                    kill_at(killed, goes_on)(now)
                with at_calls(act) as calls, contextlib.suppress(Killed):
                    self.commit(BEFORE, AFTER)
                transaction.finish("journal")
                self.assert_has({*b"".join(BEFORE.values()).split(), b"typed"},
                                (moment, name, goes_on, killed))
                if killed > len(calls):
                    break

    # ---- the journal, and the disk

    def test_journal(self) -> None:
        """One that is cut off itself counts for nothing. If one can't be written, or is there,
        nothing is."""
        self.write("journal", b"[[")
        self.assertEqual(transaction.finish("journal"), "")
        self.assertEqual(self.files(), OLD)
        full = OSError(28, "No space left on device")
        with unittest.mock.patch.object(json, "dump", side_effect=full):
            self.assertRaisesRegex(texts.Stop, "cannot write journal", self.commit)
        self.assertEqual(self.files(), OLD)
        self.write("journal", b"[]")
        self.assertRaisesRegex(texts.Stop, "cannot write journal", self.commit)
        self.assertEqual(self.files(), {**OLD, "journal": b"[]"})

    def test_power_cut(self) -> None:
        """After a power cut at any moment, and one more while the write is ended, the files are all
        old or all new, and no other is left."""
        with disk.followed() as cuts:
            self.assertTrue(self.commit())
        found = []
        for left in sorted(cuts):
            disk.put(left)
            with disk.followed() as more:
                self.assertEqual(transaction.finish("journal"), "", left)
            found.append(self.files())
            self.assertIn(found[-1], (OLD, NEW), left)
            for again in random.Random(5).sample(sorted(more), min(3, len(more))):
                disk.put(again)
                transaction.finish("journal")
                self.assertIn(self.files(), (OLD, NEW), (left, again))
        self.assertIn(OLD, found)
        self.assertIn(NEW, found)

    # ---- what stays, and other systems

    @not_on_windows
    def test_modes_and_links(self) -> None:
        os.chmod("a", 0o640)
        os.rename("b", "elsewhere")
        os.symlink("elsewhere", "b")
        mask = os.umask(0o027)
        self.addCleanup(os.umask, mask)
        self.assertTrue(self.commit())
        self.assertEqual([os.stat(name).st_mode & 0o777 for name in ("a", "fresh")], [0o640] * 2)
        self.assertEqual((os.readlink("b"), self.read("elsewhere")), ("elsewhere", NEW["b"]))

    @not_on_windows
    def test_owner_and_group(self) -> None:
        """Of a group that shares a folder, each may go on writing."""
        owner = (os.geteuid() or 7, os.getgroups()[-1] if os.geteuid() else 8)
        os.chown("a", *owner)
        self.assertTrue(self.commit())
        known = os.stat("a")
        self.assertEqual((known.st_uid, known.st_gid), owner)

    @not_on_windows
    def test_attributes(self) -> None:
        """Access lists are attributes of a file: user 7 may read, and nobody else."""
        listed = bytes.fromhex("02000000" "01000600ffffffff" "0200040007000000"
                               "04000000ffffffff" "10000400ffffffff" "20000000ffffffff")
        given = {"system.posix_acl_access": listed, "user.tag": b"mine"}
        for name, value in list(given.items()):
            try:
                os.setxattr("a", name, value)
            except (AttributeError, OSError):
                given.pop(name)
        if not given:
            self.skipTest("files have no attributes here")
        self.assertTrue(self.commit())
        self.assertEqual({name: os.getxattr("a", name) for name in given}, given)

    def test_new_files_are_private_until_they_are_whole(self) -> None:
        modes = []
        real = os.chmod

        def chmod(name: str, mode: int) -> None:
            modes.append(os.stat(name).st_mode & 0o777)
            real(name, mode)
        with unittest.mock.patch.object(os, "chmod", chmod):
            self.commit()
        self.assertEqual(modes, [0o600] * 3)


@unittest.skipIf(LACKING or sys.platform != "linux", "only Linux renames without replacing there")
class WithoutLinks(Transactions):
    """A file system without hard links, as FAT."""

    def setUp(self) -> None:
        super().setUp()
        self.put(unittest.mock.patch.object(os, "link", side_effect=OSError(1, "Not permitted")))


class ByRename(Transactions):
    """Windows, where a rename replaces no file."""

    def setUp(self) -> None:
        super().setUp()
        self.put(unittest.mock.patch.object(system, "IS_WINDOWS", True))
        self.put(unittest.mock.patch.object(os, "rename", rename_as_windows))
