"""What a host is told, and where its files stand."""

from __future__ import annotations

import json
from dataclasses import asdict, dataclass
from pathlib import Path


@dataclass(frozen=True)
class Settings:
    """The words of a host, each made absolute. The `manifests` are those of the packages in `repo`, with
    their shards.

    A manager is replaced where its history has `roll_entries` entries or `roll_bytes` bytes, by an estimate
    that errs to more, or its process `roll_memory` bytes in memory. The limits are 4,194,304 entries and 240
    MiB. A storage may have `storage_bytes` on the disk, in `storage_files` files and folders.
    """

    program: str
    repo: str
    manifests: str
    root: str
    run: str
    coarse_rights: bool = False
    quiet: bool = False
    roll_entries: int = 3_000_000
    roll_bytes: int = 180 << 20
    roll_memory: int = 3 << 30
    storage_bytes: int = 256 << 20
    storage_files: int = 65_536
    cgroup: str = ""
    plain: bool = False
    writes_journals: bool = False

    def to_text(self) -> str:
        """One line, from which `from_text` reads the same."""
        return json.dumps(asdict(self))

    @staticmethod
    def from_text(text: str) -> Settings:
        """The settings of such a line."""
        return Settings(**json.loads(text))


class Places:
    """The files of a host, below the folder that is kept."""

    def __init__(self, run: str | Path) -> None:
        self.run = Path(run)
        self.lock = self.run / "lock"
        self.console = self.run / "cm"
        self.control = self.run / "host"
        self.tree = self.run / "tree"
        self.log = self.run / "log"
        self.journals = self.run / "journals"
        self.manifests = self.run / "manifests"
        self.storage = self.run / "storage"
        # In memory: it is gone with the runner.
        self.live = self.run / "live"
        self.instances = self.live / "i"
        self.empty = self.live / "empty"
        self.layers = self.live / "layers"
