# SPDX-License-Identifier: MIT
"""Sources of other programs out of Debian's archive, by `apt-get` in a folder of its own.

It takes a network, and touches nothing of the system.
"""

import re
import shutil
import subprocess
from pathlib import Path

ARCHIVE = "http://deb.debian.org/debian"
KEYS = "/usr/share/keyrings/debian-archive-keyring.gpg"


class Archive:
    """A release of Debian, read by `apt-get` in the folder `room`."""

    def __init__(self, release: str, room: Path) -> None:
        self.room = room
        for part in ("lists/partial", "cache/archives/partial"):
            (room / part).mkdir(parents=True)
        kinds = ("deb", "deb-src")
        lines = [f"{kind} [signed-by={KEYS}] {ARCHIVE} {release} main\n" for kind in kinds]
        (room / "sources.list").write_text("".join(lines))
        settings = (
            f"Dir::Etc::sourcelist={room}/sources.list",
            "Dir::Etc::sourceparts=/dev/null",
            f"Dir::State::lists={room}/lists",
            f"Dir::Cache={room}/cache",
            "APT::Sandbox::User=root",
        )
        self.words = ["apt-get", "-q", *(word for it in settings for word in ("-o", it))]
        self.run("update")

    def run(self, *words: str) -> str:
        """Runs `apt-get`, and returns what it prints."""
        done = subprocess.run(
            [*self.words, *words], cwd=self.room, check=True, text=True, stdout=subprocess.PIPE
        )
        return done.stdout

    def with_needed(self, packages: list[str]) -> list[str]:
        """Returns packages of Rust's crates and those that they need on an empty system."""
        words = ("-o", "Dir::State::status=/dev/null", "-s", "--no-install-recommends")
        said = self.run(*words, "install", *packages)
        return re.findall(r"^Inst (librust-[^ ]+)", said, re.M)

    def unpack_crates(self, packages: list[str], folder: Path) -> None:
        """Unpacks the crates of packages into a folder, side by side."""
        self.run("download", *packages)
        for package in self.room.glob("*.deb"):
            subprocess.run(["dpkg", "-x", package, self.room / "unpacked"], check=True)
        for found in (self.room / "unpacked").glob("usr/share/cargo/registry/*"):
            shutil.copytree(
                found, folder / found.name, dirs_exist_ok=True, ignore_dangling_symlinks=True
            )

    def unpack_source(self, package: str, folder: Path) -> None:
        """Unpacks the source of a program into a folder."""
        self.run("source", "--download-only", "--tar-only", package)
        for archive in self.room.glob(f"{package}_*.orig.tar.[!.]*"):
            if archive.suffix != ".asc":
                subprocess.run(["tar", "-C", folder, "-xf", archive], check=True)
