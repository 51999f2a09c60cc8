"""A tree of files that becomes an archive or a package: with fixed owners, modes and times, in the order of names."""
from __future__ import annotations

import gzip
import hashlib
import io
import os
import tarfile
from dataclasses import dataclass, field
from pathlib import Path


@dataclass
class Tree:
    """Files and links by their paths. A file has its bytes, and whether it is a program."""

    files: dict[str, tuple[bytes, bool]] = field(default_factory=dict)
    links: dict[str, str] = field(default_factory=dict)

    def put(self, path: str, content: bytes | str, is_program: bool = False) -> None:
        """Adds a file. A path stands once."""
        if path in self.files or path in self.links:
            raise ValueError(f"{path} stands twice")
        self.files[path] = (content.encode() if isinstance(content, str) else content, is_program)

    def copy(self, path: str, source: Path, is_program: bool = False) -> None:
        """Adds a file with the bytes of another one."""
        self.put(path, source.read_bytes(), is_program)

    def link(self, path: str, target: str) -> None:
        """Adds a symbolic link."""
        self.links[path] = target

    def take(self, folder: Path, prefix: str, into: str) -> None:
        """Adds what an installed folder has below a prefix."""
        for path in sorted((folder / prefix).rglob("*")):
            name = into + str(path.relative_to(folder / prefix))
            if path.is_symlink():
                self.link(name, os.readlink(path))
            elif path.is_file():
                self.copy(name, path, bool(path.stat().st_mode & 0o100) and "/bin/" in f"/{name}")

    def folders(self) -> list[str]:
        """The folders above its files and links, in order."""
        names = [*self.files, *self.links]
        return sorted({"/".join(name.split("/")[:count]) for name in names for count in range(1, name.count("/") + 1)})

    def tar(self, root: str, epoch: int) -> bytes:
        """A tar of it below a folder of that name, packed by gzip without a name or a time."""
        packed = io.BytesIO()
        with tarfile.open(fileobj=packed, mode="w", format=tarfile.GNU_FORMAT) as archive:
            for name in sorted([*self.folders(), *self.files, *self.links, ""]):
                member = tarfile.TarInfo(f"{root}/{name}".rstrip("/"))
                member.mtime = epoch
                content = b""
                if name in self.files:
                    content, is_program = self.files[name]
                    member.mode, member.size = (0o755 if is_program else 0o644), len(content)
                elif name in self.links:
                    member.type, member.linkname, member.mode = tarfile.SYMTYPE, self.links[name], 0o777
                else:
                    member.type, member.mode = tarfile.DIRTYPE, 0o755
                archive.addfile(member, io.BytesIO(content))
        return gzip.compress(packed.getvalue(), 9, mtime=0)

    def write(self, folder: Path, epoch: int) -> None:
        """Writes it below a folder, each file and folder with that time."""
        for name in self.folders():
            (folder / name).mkdir(parents=True, exist_ok=True)
            (folder / name).chmod(0o755)
        for name, (content, is_program) in self.files.items():
            (folder / name).write_bytes(content)
            (folder / name).chmod(0o755 if is_program else 0o644)
        for name, target in self.links.items():
            (folder / name).symlink_to(target)
        for path in [*folder.rglob("*"), folder]:
            os.utime(path, (epoch, epoch), follow_symlinks=False)


def packed(text: str | bytes) -> bytes:
    """A text as `gzip -9n` packs it."""
    return gzip.compress(text.encode() if isinstance(text, str) else text, 9, mtime=0)


def sha256(content: bytes) -> str:
    """The checksum of a file, as sha256sum prints it."""
    return hashlib.sha256(content).hexdigest()
