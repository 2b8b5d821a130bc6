"""Compares a directory with what was told of it, and tells what differs."""
from __future__ import annotations

import hashlib
import os
import stat
import time
from typing import (Callable, Dict, Iterable, Iterator, List, Optional, Set, Tuple, TypeVar,
                    Union)

from .inotify import Inotify
from .lines import Lines, Parking
from .links import Links, Node
from .model import (MOST_BYTES, NOT_THERE, YOUNG, Failure, File, Folder, Model, Seen, folders_of,
                    is_short, joined, kind_of, shown)
from .names import Texts
from .places import Places, entries
from .sayings import Sayings

Item = Union[File, Folder, None]
Value = TypeVar("Value")
Key = Tuple[bytes, bytes]
"""A kind and an id: what a file of the mount has to be that is put elsewhere."""
MOST_FOUND = 2000
"""How many files are found before they are told, when a directory is looked at first."""
COPY = b".railburnet"
"""What a directory holds that `railburnet follow --into` keeps equal to a mount."""


class Feeder:
    """Compares the directory with what was told, and tells what differs."""

    def __init__(self, top: bytes, skip: Set[bytes], watches: Optional[Inotify], lines: Lines,
                 each_file: bool = False, texts: Optional[Texts] = None) -> None:
        self.model = Model()
        self.again: Dict[bytes, float] = {}
        """Files that changed while they were read, and since when."""
        self.sayings = Sayings()
        self.parking = Parking(lines)
        self.meanwhile: Callable[[], None] = lambda: None
        """What is done again and again while a turn takes long."""
        self.reads = texts is None
        """Whether it reads files, and doesn't only look at them."""
        self._top, self._watches, self._lines = top, watches, lines
        self._skip = {COPY, *skip}
        self._each_file, self._texts = each_file, texts
        self._places = Places(top)
        self._links = Links(self.model)
        self._gone: Dict[bytes, File] = {}
        self._found: Dict[bytes, Seen] = {}
        self._nodes: Set[Node] = set()
        self._own: Dict[bytes, Key] = {}
        self._elsewhere: Optional[Dict[Key, List[bytes]]] = None

    def mounted(self, files: Dict[bytes, File]) -> None:
        """Notes the files of the commit that is mounted."""
        for path, file in files.items():
            self.model.put(path, file)
        self._note_own(files)

    def _note_own(self, files: Dict[bytes, File]) -> None:
        self._own = {path: (file.kind, file.id) for path, file in files.items()
                     if self._is_parked(file)}

    def turn(self, paths: Optional[Iterable[bytes]]) -> None:
        """Looks at some paths, or at everything, and tells what differs from what was told."""
        if not os.path.isdir(self._top):
            raise Failure(f"{shown(self._top)} is gone")
        try:
            for old, new in self._watches.moves() if self._watches is not None else ():
                if self._moves_whole(old, new):
                    self._tell_moved(old, new)
            if paths is None or b"" in paths:
                self._scan(b"")
                self._nodes.clear()
            else:
                self._look_at(paths)
                self._look_at_links()
            self._tell()
        finally:
            self._places.close()
        self.sayings.end_turn()
        self._lines.flush()

    def unwatch(self) -> None:
        """Does without notices."""
        self._watches = None

    # Whole directories. Both paths of a move are looked at afterwards, so nothing is taken for
    # granted of what is there now.

    def _moves_whole(self, old: bytes, new: bytes) -> bool:
        """Whether a directory that was told can be told to have moved.

        Some file below it is in the mount, no file is at the new path, above it or below it, and
        each file has a path there.
        """
        item, target = self.model.get(old), self.model.get(new)
        if self._each_file or not isinstance(item, Folder):
            return False
        below = self.model.below(item, old)
        files = [(path, file) for path, file in below if isinstance(file, File)]
        return (
            any(file.told for _, file in files)
            and not any(isinstance(other, File) for _, other in self.model.below(target, new))
            and not any(isinstance(self.model.get(above), File) for above in folders_of(new))
            and new != old
            and not new.startswith(old + b"/")
            and not self._told(new)[1]
            and all(is_short(new + path[len(old) :]) for path, _ in files)
        )

    def _tell_moved(self, old: bytes, new: bytes) -> None:
        """Tells that a directory moved; of files that the mount doesn't have, that they went and
        came."""
        below = self.model.below(self.model.get(old), old)
        files = [(path, file) for path, file in below if isinstance(file, File)]
        for path, file in files:
            if not file.told:
                self._lines.name(path)
        self._lines.change(b"renamedir", old, new)
        self._vanish(new)
        folder = self.model.take(old)
        above, _, name = new.rpartition(b"/")
        if folder is not None:
            self.model.folder(above).items[name] = folder
        for path, file in files:
            to = new + path[len(old) :]
            if file.seen is not None:
                self._links.note(to, file.seen)
            if not file.told:
                self._lines.name(to)
            if path in self.sayings.left_out:
                self.sayings.say(to, self.sayings.left_out.pop(path))

    def _told(self, path: bytes) -> Tuple[Item, bool]:
        """Returns what was told of a path, and whether nothing is told of it: by its name, or since
        it is in another program's copy."""
        item: Item = self.model.top
        for name in path.split(b"/") if path else ():
            if name in self._skip or isinstance(item, Folder) and item.is_copy:
                return None, True
            item = item.items.get(name) if isinstance(item, Folder) else None
        return item, False

    # What differs.

    def _look_at(self, paths: Iterable[bytes]) -> None:
        """Looks at paths at which something happened, each directory's with that directory open."""
        last: Optional[bytes] = None
        folder: Item = None
        at, now = -1, time.time_ns()
        for path in self._served(sorted(paths)):
            if path in self._found:
                continue
            above, _, name = path.rpartition(b"/")
            if name == COPY and above:
                # What begins to be a copy, or is none any more, is looked at as a whole.
                above, _, name = above.rpartition(b"/")
                path = joined(above, name)
            try:
                if above != last:
                    # If this one is gone, the next path asks for its own again.
                    last = None
                    folder, left_out = self._told(above)
                    is_copy = isinstance(folder, Folder) and folder.is_copy
                    at = -1 if left_out or is_copy else self._places.at(above)
                    last = above
                if at < 0:
                    continue
                if name in self._skip:
                    self._name_passed_over(above, name)
                    continue
                status = self._places.status(at, name)
            except OSError as error:
                self._look_in_vain(path, error)
                continue
            if isinstance(folder, Folder) and self._tells_at_once(folder, name, path, status, now):
                continue
            item = folder.items.get(name) if isinstance(folder, Folder) else None
            if stat.S_ISDIR(status.st_mode):
                self.again.pop(path, None)
                if isinstance(item, File):
                    self._vanish(path)
                self._scan(path)
                last = None
            else:
                self._look_at_file(path, item, status, trust=False)

    def _served(self, items: Iterable[Value]) -> Iterator[Value]:
        """Yields items, and serves others now and then."""
        for count, item in enumerate(items, 1):
            yield item
            if not count % 512:
                self.meanwhile()

    def _tells_at_once(self, folder: Folder, name: bytes, path: bytes, status: os.stat_result,
                       now: int) -> bool:
        """Tells a file at once that the mount has by its name alone, and has at this path already,
        so that nothing is in its way; says whether it did."""
        item = folder.items.get(name)
        if (
            self._texts is None
            or not isinstance(item, File)
            or status.st_nlink != 1
            or not stat.S_ISREG(status.st_mode)
        ):
            return False
        folder.items[name] = self._tell_name(path, item, Seen.of(status), self._texts, now)
        return True

    def _look_in_vain(self, path: bytes, error: OSError) -> None:
        """Notes that a path can't be looked at."""
        self._vanish(path)
        if error.errno not in NOT_THERE:
            self.sayings.say(path, f"can't be looked at: {error.strerror}")

    def _look_at_links(self) -> None:
        """Looks at the other names of files of several links that changed."""
        nodes, self._nodes = self._nodes, set()
        if nodes:
            self._look_at(path for path in self._links.names(nodes) if path not in self._gone)
            self._nodes.clear()

    def _look_at_file(self, path: bytes, item: Item, status: os.stat_result, trust: bool) -> None:
        """Looks at what is no directory: with `trust` a file that looks as it did is as it was."""
        mode = status.st_mode
        if not stat.S_ISREG(mode) and not stat.S_ISLNK(mode):
            self._vanish(path)
            self.sayings.say(path, "is no file, link or directory; it is left out")
            return
        seen = Seen.of(status)
        if isinstance(item, Folder):
            self._vanish(path)
        elif trust and item is not None and item.seen == seen and not item.young:
            return
        if not is_short(path):
            self.sayings.say(path, "a path above 1,024 bytes or 64 names; it is left out")
            return
        if status.st_nlink > 1:
            self._nodes.add((status.st_dev, status.st_ino))
        self._found[path] = seen

    def _scan(self, path: bytes) -> None:
        """Looks at all that is below a directory."""
        # Where nothing was told nothing is gone, so that what is found needn't be kept until the
        # end of the turn.
        is_first = not path and not self.model.top.items
        waiting = [path]
        while waiting:
            path = waiting.pop()
            folder = self.model.folder(path)
            found = self._entries(path, folder)
            for name in [name for name in folder.items if name not in found]:
                self._vanish(joined(path, name))
            for name, status in found.items():
                below = joined(path, name)
                if not stat.S_ISDIR(status.st_mode):
                    self._look_at_file(below, folder.items.get(name), status, trust=True)
                    continue
                if isinstance(folder.items.get(name), File):
                    self._vanish(below)
                waiting.append(below)
            if is_first and len(self._found) > MOST_FOUND and not self._gone:
                files, self._found = self._found, {}
                self._tell_all_found(files)
            self.meanwhile()

    def _entries(self, path: bytes, folder: Folder) -> Dict[bytes, os.stat_result]:
        """Returns what a directory holds; nothing if it can't be read, or is another program's
        copy.

        It is watched before it is read, so that what comes later is told.
        
        """
        try:
            listed = self._places.listed(path)
            try:
                if self._watches is not None:
                    folder.watch = self._watches.add(listed, path)
                found = dict(entries(listed))
            finally:
                os.close(listed)
        except OSError as error:
            if error.errno not in NOT_THERE:
                self.sayings.say(path, f"a directory that can't be read: {error.strerror}; "
                                 "what it holds is left out")
            return {}
        folder.is_copy = path != b"" and COPY in found and stat.S_ISDIR(found[COPY].st_mode)
        if folder.is_copy:
            self.sayings.say(path, "a copy that `railburnet follow --into` keeps; "
                             "what it holds is left out")
            return {}
        self.sayings.forget(path)
        self._note_passed_over(path, folder, self._skip.intersection(found) if path else ())
        return {name: status for name, status in found.items() if name not in self._skip}

    def _name_passed_over(self, folder: bytes, name: bytes) -> None:
        """Tells that a name which is passed over came or went in a directory below the top.

        A `.git` there makes of the directory a repository of its own, which Git shows as one path.
        """
        item = self.model.get(folder)
        if folder and isinstance(item, Folder):
            try:
                self._places.status(self._places.at(folder), name)
                names = item.passed_over | {name}
            except OSError:
                names = item.passed_over - {name}
            self._note_passed_over(folder, item, names)

    def _note_passed_over(self, path: bytes, folder: Folder, names: Iterable[bytes]) -> None:
        """Notes which names are passed over in a directory, and tells those that came or went."""
        now = frozenset(names)
        for name in sorted(folder.passed_over ^ now):
            self._lines.name(joined(path, name))
        folder.passed_over = now

    def _vanish(self, path: bytes) -> None:
        """Notes that nothing is at a path any more."""
        for below, item in self.model.below(self.model.take(path), path):
            if isinstance(item, File):
                self._gone[below] = item
                if item.seen is not None and item.seen.links > 1:
                    # It may have been written before it went, and its other names have no notice.
                    self._nodes.add(item.seen.node)
            else:
                self._note_passed_over(below, item, ())
                self.sayings.forget(below)
                if self._watches is not None:
                    self._watches.remove(item.watch, below)
        self.again.pop(path, None)
        self.sayings.forget(path)

    # Lines.

    def _tell(self) -> None:
        """Tells what is gone, then what was moved, then what was written: so no line finds a
        file in its way."""
        gone, self._gone = self._gone, {}
        found, self._found = self._found, {}
        for path in [path for path in gone if path in found]:
            self.model.put(path, gone.pop(path))
        moved = self._moved(gone, found)
        for path, file in gone.items():
            if path not in moved:
                self._tell_gone(path, file)
        for old, new in moved.items():
            self._lines.change(b"rename", old, new)
            self._keep(new, gone[old]._replace(seen=found[new]))
            if not gone[old].young:
                del found[new]
        self._tell_all_found(found)
        self._tell_wanted()
        self._elsewhere = None

    def _moved(self, gone: Dict[bytes, File], found: Dict[bytes, Seen]) -> Dict[bytes, bytes]:
        """Returns of each file that was moved the old and the new path.

        No other file that is gone was above or below the new one.
        """
        sources = {file.seen.moved: path for path, file in gone.items()
                   if file.told and file.seen is not None}
        above_gone = {above for path in gone for above in folders_of(path)} if sources else set()
        moved = {}
        for new, seen in found.items() if sources else ():
            old = sources.get(seen.moved)
            if old is None or new in above_gone or self._in_way(new):
                continue
            if not any(above in gone for above in folders_of(new)):
                moved[sources.pop(seen.moved)] = new
        return moved

    def _in_way(self, path: bytes) -> bool:
        """Whether something that was told is in the way of a file: the directory has changed
        since."""
        above = map(self.model.get, folders_of(path))
        return (isinstance(self.model.get(path), Folder)
                or any(isinstance(item, File) for item in above))

    def _tell_gone(self, path: bytes, file: File) -> None:
        self.sayings.forget(path)
        if self._is_parked(file):
            self.parking.park(path, file.kind, file.id)
        elif file.told:
            self._lines.change(b"remove", path)
        else:
            self._lines.name(path)

    def _is_parked(self, file: File) -> bool:
        """Whether a file is kept elsewhere in the mount when it goes, since nothing can write it
        again."""
        return file.told and file.large and not self._lines.writes_all

    def _keep(self, path: bytes, file: File) -> None:
        """Notes what was told of a path."""
        self.model.put(path, file)
        if file.seen is not None:
            self._links.note(path, file.seen)

    def _tell_all_found(self, found: Dict[bytes, Seen]) -> None:
        """Tells files by what they hold; those in one directory with that directory open."""
        last: Optional[bytes] = None
        folder: Optional[Folder] = None
        now = time.time_ns()
        for path, seen in self._served(found.items()):
            above, _, name = path.rpartition(b"/")
            if above != last:
                last, folder = above, self.model.folder_for(above)
            item = folder.items.get(name) if folder is not None else None
            if folder is None or isinstance(item, Folder):
                self.again.setdefault(path, time.monotonic())
            elif self._texts is not None:
                folder.items[name] = self._tell_name(path, item, seen, self._texts, now)
            else:
                self._tell_found(path, folder, name, seen)

    def _tell_name(self, path: bytes, before: Optional[File], seen: Seen, texts: Texts,
                   now: int) -> File:
        """Tells a file by what is seen of it, and returns it as it was told."""
        self.again.pop(path, None)
        if before is None:
            id = texts.take_id(path, seen)
        else:
            id = before.id if before.seen == seen and not before.young else b""
        numbers = seen.numbers()
        _, _, _, modified, changed, mode, _ = numbers
        self._lines.change(b"write", path, kind_of(mode), texts.text(id, numbers))
        self._links.note(path, seen)
        self.sayings.forget(path)
        return File(kind_of(mode), id, seen, True, _is_young(modified, changed, now))

    def _tell_found(self, path: bytes, folder: Folder, name: bytes, seen: Seen) -> None:
        """Tells a file of a directory by what it holds."""
        item = folder.items.get(name)
        file = item if isinstance(item, File) else None
        if file is None and self._lines.defers(seen.size):
            self.again.setdefault(path, time.monotonic())
            return
        try:
            at = self._places.at(path[: -len(name) - 1])
            before, data, rested = self._places.read(at, name, seen)
        except OSError as error:
            if error.errno in NOT_THERE:
                self.again.setdefault(path, time.monotonic())
            else:
                self.again.pop(path, None)
                unread = File(seen.kind, b"", seen, False)
                self._leave_out(path, file, unread, f"can't be read: {error.strerror}")
            return
        if rested:
            self.again.pop(path, None)
        # What changes while it is read is read again, but for what never rests.
        elif time.monotonic() - self.again.setdefault(path, time.monotonic()) < 1:
            return
        new = self._tell_content(path, file, before, data)
        if new is not None:
            folder.items[name] = new
            self._links.note(path, before)
            self.sayings.forget(path)

    def _tell_content(self, path: bytes, file: Optional[File], seen: Seen,
                      data: Optional[bytes]) -> Optional[File]:
        """Tells what a file holds, and returns it as the mount has it; None if the mount can't, or
        can't yet."""
        kind, id, text = seen.kind, b"", None
        if data is not None:
            id = hashlib.sha1(b"blob %d\0" % len(data) + data).digest()
            text = data if self._lines.fits(path, kind, data) else None
        young = _is_young(seen.modified, seen.changed, time.time_ns())
        new = File(kind, id, seen, True, young, text is None)
        there = file if file is not None and file.told else None
        same = there is not None and data is not None and there.kind == kind and there.id == id
        if text is not None:
            before = file.seen if file is not None else None
            touched = before is not None and before.modified != seen.modified
            if not same:
                self._make_way(path, file)
            if touched or not same:
                self._lines.change(b"write", path, kind, text)
        elif not same:
            if data is not None and self._lines.writes_all:
                # It is written once the mount is served, which shows nothing older until then.
                self.again.setdefault(path, time.monotonic())
                if there is not None:
                    self._lines.change(b"remove", path)
                    self._keep(path, new._replace(told=False))
                return None
            if data is not None and self._own.get(path) == (kind, id):
                self._take_back(kind, id)
            if not self.parking.has(kind, id):
                self._leave_out(path, file, new._replace(told=False), _too_large(seen))
                return None
            if not self._make_way(path, file) and file is not None and file.told:
                self._lines.change(b"remove", path)
            self.parking.restore(path, kind, id)
        return new

    def _make_way(self, path: bytes, file: Optional[File]) -> bool:
        """Parks a file of the mount that no line can write again, and says whether it was one."""
        if file is None or not self._is_parked(file):
            return False
        self.parking.park(path, file.kind, file.id)
        return True

    def _leave_out(self, path: bytes, file: Optional[File], new: File, why: str) -> None:
        """Tells a file that the mount can't have: as gone, or as come and gone if it wasn't
        there."""
        if file is None or not file.told:
            if file is not None and file.seen == new.seen:
                return
            self._lines.name(path)
        elif not self._make_way(path, file):
            self._lines.change(b"remove", path)
        self._keep(path, new)
        self.sayings.say(path, why)

    def _tell_wanted(self) -> None:
        """Puts files that this turn parked where they are wanted, at the commit's own paths
        first."""
        if not self.parking.takes_news():
            return
        for path in sorted(self.sayings.left_out, key=lambda path: path not in self._own):
            file = self.model.get(path)
            if not isinstance(file, File) or file.told or not file.id:
                continue
            if self.parking.restore(path, file.kind, file.id):
                self._keep(path, file._replace(told=True))
                self.sayings.forget(path)

    def _take_back(self, kind: bytes, id: bytes) -> None:
        """Parks a file that the mount has at another path than the commit, so that its own gets
        it."""
        if self.parking.has(kind, id):
            return
        for path in self._where_else().pop((kind, id), ()):
            file = self.model.get(path)
            if not isinstance(file, File) or not file.told or file.seen is None:
                continue
            if (file.kind, file.id) == (kind, id):
                self.parking.park(path, kind, id)
                self._keep(path, file._replace(told=False))
                self.sayings.say(path, _too_large(file.seen))

    def _where_else(self) -> Dict[Key, List[bytes]]:
        """Returns the large files at paths where the commit has others, once for a turn."""
        if self._elsewhere is None:
            self._elsewhere = {}
            for path, item in self.model.below(self.model.top, b""):
                if isinstance(item, File) and self._is_parked(item):
                    key = item.kind, item.id
                    if self._own.get(path) != key:
                        self._elsewhere.setdefault(key, []).append(path)
        return self._elsewhere

    # Another commit.

    def go_over(self, commit: str, root: Dict[bytes, File],
                target: Dict[bytes, File]) -> Set[bytes]:
        """Has the mount go over from one commit to another, and returns the paths to look at."""
        self._lines.check_out(commit)
        above = {above for path in target for above in folders_of(path)}
        look = set()
        for path, file in self.model.files().items():
            stays = (path not in root and path not in above
                     and not any(folder in target for folder in folders_of(path)))
            if path not in target and not stays:
                self.model.take(path)
                look.add(path)
        for path, file in target.items():
            item = self.model.get(path)
            if not isinstance(item, File) or not item.told or item[:2] != file[:2]:
                self.model.put(path, file)
                look.add(path)
        self._note_own(target)
        return look


def _too_large(seen: Seen) -> str:
    what = "mount" if seen.size > MOST_BYTES else "line"
    return f"{seen.size:,} bytes are too many for a {what}; the mount has no file there"


def _is_young(modified: int, changed: int, now: int) -> bool:
    """Whether a file was written so lately that its time may stay if it is written once more."""
    return now - max(modified, changed) < YOUNG
