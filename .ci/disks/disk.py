"""What a disk holds after a power loss, page by page: a model of one under a file system, told what a program did with its files.

It is fed the lines that shim.c writes, and assumes no more than file systems promise:
- a write is in the page cache, where each read sees it. Its pages reach the disk in any order, each as it was at some moment since
  the last sync, or by sectors of several such moments; a page that was never written is zeros there, or anything (a stale block).
  The file's length may be on the disk before the bytes are;
- a sync that is done puts the file's dirty pages and its length on the disk. One that fails puts some of them there, and marks all
  of them clean: the cache goes on to show bytes that the disk hasn't, and later syncs don't write them (as Linux does it);
- names (a file or a folder that is made or removed, a rename) reach the disk in the order of their folder, and surely
  by a sync of their folder alone. A folder whose own name isn't on the disk is gone, with all that is in it.
"""

import copy
import itertools
import os

PAGE = 4096
SECTOR = 512


class File:
    """A file's bytes in the cache and on the disk."""

    def __init__(self, content=b""):
        self.cache = bytearray(content)
        self.disk = bytearray(content)
        # of each page that was written since the last sync: what it has been since then; and the lengths that there were
        self.dirty = {}
        self.lengths = set()
        # pages that were marked clean by a sync that failed
        self.lost = set()

    def page(self, at):
        return bytes(self.cache[at * PAGE : (at + 1) * PAGE])

    def on_disk(self, at):
        return bytes(self.disk[at * PAGE : (at + 1) * PAGE])

    def write(self, place, content):
        if not content:
            return
        end = place + len(content)
        if end > len(self.cache):
            self.cache.extend(bytes(end - len(self.cache)))
            self.lengths.add(end)
        self.cache[place:end] = content
        for at in range(place // PAGE, (end - 1) // PAGE + 1):
            self.dirty.setdefault(at, []).append(self.page(at))
            self.lost.discard(at)

    def cut(self, length):
        self.lengths.add(length)
        if length <= len(self.cache):
            del self.cache[length:]
            self.dirty = {at: pages for at, pages in self.dirty.items() if at * PAGE < length}
        else:
            self.cache.extend(bytes(length - len(self.cache)))

    def sync(self):
        if self.lengths:
            self.disk = self.disk[: len(self.cache)].ljust(len(self.cache), b"\0")
        for at in self.dirty:
            content = self.page(at)
            self.disk = self.disk.ljust(at * PAGE + len(content), b"\0")
            self.disk[at * PAGE : at * PAGE + len(content)] = content
        self.dirty.clear()
        self.lengths.clear()

    def fail_sync(self):
        self.lost.update(self.dirty)
        self.dirty.clear()
        self.lengths.clear()

    def sure(self):
        """How many bytes of the cache are on the disk for sure, from the first one on."""
        length = min([len(self.cache), len(self.disk), *self.lengths])
        for at in range((length + PAGE - 1) // PAGE):
            if at in self.dirty or at in self.lost:
                ways = [self.page(at), self.on_disk(at), *self.dirty.get(at, [])]
                same = len(os.path.commonprefix(ways))
                if at * PAGE + same < min(length, (at + 1) * PAGE):
                    return at * PAGE + same
        return length

    def left(self, chance):
        """What a power loss may leave of it."""
        ways = [len(self.disk), *self.lengths, *([len(self.cache)] if self.lengths or self.lost else [])]
        length = chance.choice([*ways, chance.randint(min(ways), max(ways))])
        left = bytearray(self.disk[:length].ljust(length, b"\0"))
        stale = chance.random() < 0.2
        for at in range((length + PAGE - 1) // PAGE):
            if at in self.dirty or at in self.lost:
                self.turn_page(left, at, length, stale, chance)
        return bytes(left)

    def turn_page(self, left, at, length, stale, chance):
        """Puts into a page what may be there."""
        old = self.on_disk(at)
        old = old + (chance.randbytes(PAGE - len(old)) if stale else bytes(PAGE - len(old)))
        ways = [old, self.page(at).ljust(PAGE, b"\0"), *(it.ljust(PAGE, b"\0") for it in self.dirty.get(at, []))]
        if chance.random() < 0.3:
            picked = b"".join(chance.choice(ways)[sector : sector + SECTOR] for sector in range(0, PAGE, SECTOR))
        else:
            picked = chance.choice(ways)
        end = min(length, (at + 1) * PAGE)
        left[at * PAGE : end] = picked[: end - at * PAGE]


class Folder:
    """What a name is of that is a folder's."""


class Disk:
    """The files at and below a folder."""

    def __init__(self):
        self.files = {}
        self.folders = {}
        # the names on the disk; and of each folder each change of names in it since then, in order, of some names at once
        self.names = {}
        self.changes = {}

    def put(self, path):
        """A file or a folder that is there from the beginning, on the disk."""
        if os.path.isdir(path):
            self.names[path] = Folder()
            return
        with open(path, "rb") as it:
            self.files[os.stat(path).st_ino] = self.names[path] = File(it.read())

    def change(self, change):
        """Some names of one folder changed."""
        self.changes.setdefault(os.path.dirname(next(iter(change))), []).append(change)

    def ways_in(self, folder):
        """The changed names of a folder that a power loss may leave, those of now last."""
        return list(itertools.accumulate(self.changes.get(folder, []), lambda names, change: {**names, **change}, initial={}))

    def current(self):
        names = dict(self.names)
        for folder in self.changes:
            names.update(self.ways_in(folder)[-1])
        return names

    def ways(self, path):
        """What a name may be of after a power loss: of None, where it, or one of the folders that it is in, isn't there."""
        ways = {id(it): it for names in self.ways_in(os.path.dirname(path)) for it in [names.get(path, self.names.get(path))]}
        folder = os.path.dirname(path)
        is_made_here = folder in self.names or any(folder in change for changes in self.changes.values() for change in changes)
        return [*ways.values(), *([None] if is_made_here and None in self.ways(folder) else [])]

    def sure(self, path):
        """The bytes of the file of this name that are on the disk for sure: as many as there are whatever name it is found under."""
        return min((b"" if it is None else bytes(it.cache[: it.sure()]) for it in self.ways(path)), key=len)

    def after_crash(self, chance=None):
        """The bytes of each file after a power loss, by its name, and None for each folder: the least that is on the disk, or what chance leaves."""
        names = dict(self.names)
        for folder in self.changes if chance else ():
            names.update(chance.choice(self.ways_in(folder)))
        made = {path for changes in self.changes.values() for change in changes for path in change}
        gone = [path for path in {*names, *made} if names.get(path) is None]
        left = {path: it for path, it in names.items() if it is not None and not any(path.startswith(f"{it}/") for it in gone)}
        return {path: None if isinstance(it, Folder) else bytes(it.disk) if chance is None else it.left(chance) for path, it in left.items()}

    def moved(self, root, to):
        """The same in other places: what is at and below `root` is at and below `to`, and made there as the cache has it."""
        it, place = copy.deepcopy(self), lambda path: to + path.removeprefix(root)
        moved = lambda names: {place(path): held for path, held in names.items()}
        it.names = moved(it.names)
        it.changes = {place(at): [moved(change) for change in changes] for at, changes in it.changes.items()}
        it.files, it.folders = {}, {}
        for path, held in sorted(it.current().items()):
            if isinstance(held, Folder):
                os.makedirs(path, exist_ok=True)
            elif held:
                with open(path, "wb") as file:
                    file.write(held.cache)
                it.files[os.stat(path).st_ino] = held
        return it

    def feed(self, line):
        """Takes a line of the shim's, of a call that is done."""
        kind, *words = line.split(" ")
        done = words[0] == "held" or int(words[0]) >= 0 if words else False
        if kind == "open" and done:
            self.opened(int(words[1]), words[2], words[3])
        elif kind == "write" and done:
            self.files[int(words[1])].write(int(words[2]), bytes.fromhex(words[3]))
        elif kind == "cut" and done:
            self.files[int(words[1])].cut(int(words[2]))
        elif kind in ("fsync", "fdatasync") and words[0] != "held":
            file = self.files[int(words[1])]
            file.sync() if done else file.fail_sync()
        elif kind == "folder" and words[0] == "0":
            self.sync_folder(self.folders[int(words[1])])
        elif kind == "rename" and done:
            self.change({words[2]: None, words[3]: self.current()[words[2]]})
        elif kind == "mkdir" and done:
            self.change({words[2]: Folder()})
        elif kind == "unlink" and done:
            self.change({words[2]: None})
        elif kind == "other":
            raise ValueError(f"a call that the model doesn't know: {line}")

    def opened(self, number, what, path):
        if what == "folder":
            self.folders[number] = path.rstrip("/")
        elif what == "made":
            self.files[number] = File()
            self.change({path: self.files[number]})
        else:
            file = self.current().get(path)
            if file is None:
                raise ValueError(f"{path} is opened, and the model has no such file")
            self.files[number] = file
            if what == "emptied":
                file.cut(0)

    def sync_folder(self, folder):
        """The names in this folder are on the disk, whatever is to become of the folder's own name."""
        for change in self.changes.pop(folder, []):
            self.names.update(change)
