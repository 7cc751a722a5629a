"""One row of the measurements, and the groups of rows."""
import dataclasses, pathlib

NAMES, ALONE, CELLS, OWNERS, LOCKED, SHARDS, FREE, FREE_MAP, FREE_SHARDS, OWNED, SHARED, SHARED_SHARDS, WORKERS = (
    "names",
    "one thread",
    "growing through `&self`",
    "typed arena",
    "locked map",
    "locked map of shards",
    "concurrent vector",
    "lock-free map",
    "lock-free map of shards",
    "values that own memory, without locks",
    "shared interner",
    "interner of shards",
    "workers",
)
NAMES_GROWTH, MAP_GROWTH = "growth of the names, time per new name", "growth of `FrozenMap`, time per new key"
APPEND_GROWTH, LONGEST = "growth of `FrozenAppendMap`, time per new key", "longest insertion"
CRAFTED = "crafted keys of `FrozenAppendMap`"

# The side that shows what is due to the hash alone: upstream's collection with the hash that our side has in this row.
OUR_HASH = "upstream with our hash"


@dataclasses.dataclass(eq=False)
class Job:
    """One row: its group and name; its goals compared with upstream and with the best peer, in time and in memory; and
    the commands of all sides. `by` is the clock that counts. If `compared_with` is given, the best peer is the fastest
    whose name begins with it. `references` are sides that are no peers, since they do less work or are upstream's; they
    are shown next to the name of the row."""

    group: str
    name: str
    sides: dict
    goal: str = ""
    peer_goal: str = ""
    stdin: pathlib.Path | None = None
    by: str = "wall"
    threads: int = 1
    often: float = 1.0
    entries: int | None = None
    references: tuple = ()
    compared_with: str | None = None
    memory_goal: str = ""
    runs: dict = dataclasses.field(default_factory=dict)
    times: dict = dataclasses.field(default_factory=dict)
    memory: dict = dataclasses.field(default_factory=dict)
    spread: float = 0.0
    noisy: bool = False

    def fastest(self, sides):
        return min(sides, key=lambda side: self.times[side], default=None)

    def best_peer(self):
        """The fastest of the peers; of those whose names begin with `compared_with`, if it is given."""
        peers = [side for side in self.times if side not in ("elsa", "upstream", *self.references)]
        return self.fastest([side for side in peers if side.startswith(self.compared_with or "")])

    def best_other(self):
        """The fastest of the peers whose names don't begin with `compared_with`; none if it isn't given."""
        others = [side for side in self.times if side not in ("elsa", "upstream", *self.references)]
        return self.fastest([side for side in others if self.compared_with and not side.startswith(self.compared_with)])

    def shown(self):
        sides = "elsa", "upstream", self.best_peer(), self.best_other(), *self.references
        return [side for side in sides if side in self.times]

    def ratio(self, side, of="times"):
        figures = getattr(self, of)
        return figures["elsa"] / figures[side] if side in figures and figures[side] else None

    def above(self):
        """The ratios that are above their goals."""
        best = self.best_peer()
        pairs = (
            (self.goal, self.ratio("upstream")),
            (self.peer_goal, self.ratio(best)),
            (self.memory_goal, self.ratio(best, "memory")),
        )
        return [ratio for goal, ratio in pairs if goal and ratio and round(ratio, 2) > float(goal)]
