"""Files of several links: a notice comes for one name, and the bytes are those of all."""
from __future__ import annotations

from typing import Dict, List, Set, Tuple

from .model import File, Model, Seen

Node = Tuple[int, int]


class Links:
    """The names of files that have several links and changed, as far as they are below the
    directory.

    Nothing tells the other names of a file when a link is added, so the names of a file are
    looked for in the model at its first change with several links, for all files of a turn at
    once. From then on each name at which it is seen is noted.
    """

    def __init__(self, model: Model) -> None:
        self._model = model
        self._names: Dict[Node, Set[bytes]] = {}

    def note(self, path: bytes, seen: Seen) -> None:
        """Notes a name of a file whose names are known."""
        # Of a file with one link too: it may have the inode number of a file that is gone.
        names = self._names.get(seen.node) if self._names else None
        if names is not None:
            names.add(path)

    def names(self, nodes: Set[Node]) -> List[bytes]:
        """Returns all names at which some files were seen last."""
        new = nodes - self._names.keys()
        if new:
            self._names.update((node, set()) for node in new)
            for path, item in self._model.below(self._model.top, b""):
                if isinstance(item, File) and item.seen is not None:
                    node = item.seen.node
                    if node in new:
                        self._names[node].add(path)
        return sorted(path for node in nodes for path in self._valid(node))

    def _valid(self, node: Node) -> Set[bytes]:
        """Returns the names of a file, without those at which another one was seen since."""
        names = self._names[node]
        for path in list(names):
            item = self._model.get(path)
            seen = item.seen if isinstance(item, File) else None
            if seen is None or seen.node != node:
                names.discard(path)
        return names
