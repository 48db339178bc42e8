"""Office files that are kept as data, with what a program said of them; ci/version1 has a folder for each.

| File in a folder | Content |
|---|---|
| `office.gz`, `office-wal.gz` | the office file, and its journal if one was left |
| `manifest.csv` | what `drop manifest` said of it |
| `asked.json.gz` | the arguments of the program's runs after that, in order, each with its input bytes and its result |

Texts in `asked.json.gz` have a letter for each byte (Latin-1). In the arguments, FILE stands for the office file, and STREAM
for a file with the bytes of one caller.
"""

import dataclasses
import gzip
import json
import shutil

import kit

VERSION_1 = kit.ROOT / "ci" / "version1"
FILES = ["office", "office-wal"]
# The smallest length that is too large for a body: in version 1, and today. It is sent in a field that nobody signs.
GREATER = (b"\r\nContent-Length: 1048577\r\n", b"\r\nContent-Length: 8388609\r\n")


@dataclasses.dataclass(frozen=True)
class Asked:
    """Arguments of the program, with a caller's bytes and standard input, and the result of the run."""

    words: list
    stream: bytes = b""
    given: bytes = b""
    came: kit.Run | None = None

    def run(self, program, file):
        """The result of running this program with them."""
        stream = file.with_name("stream")
        stream.write_bytes(self.stream)
        places = {"FILE": file, "STREAM": stream}
        found = kit.run([program, *(places.get(it, it) for it in self.words)], given=self.given, cwd=file.parent)
        stream.unlink()
        return found


def as_text(asked):
    came = asked.came
    texts = {"stream": asked.stream, "given": asked.given, "out": came.out, "err": came.err}
    return {"words": asked.words, "status": came.status} | {name: data.decode("latin-1") for name, data in texts.items()}


def as_asked(row):
    data = {name: row[name].encode("latin-1") for name in ["stream", "given", "out", "err"]}
    return Asked(row["words"], data["stream"], data["given"], kit.Run(row["status"], data["out"], data["err"]))


def packed(data):
    """The compressed data; the same bytes make the same file."""
    return gzip.compress(data, 9, mtime=0)


@dataclasses.dataclass(frozen=True)
class Kept:
    """A kept office."""

    folder: object

    @property
    def name(self):
        return self.folder.name

    @property
    def manifest(self):
        return (self.folder / "manifest.csv").read_bytes()

    @property
    def asked(self):
        """The recorded runs. A length that was one byte too large then is replaced by one that is so today."""
        rows = json.loads(gzip.decompress((self.folder / "asked.json.gz").read_bytes()))
        return [dataclasses.replace(it, stream=it.stream.replace(*GREATER)) for it in map(as_asked, rows)]

    def copied(self, folder):
        """Copies the office file, with its journal, into this folder, which it creates."""
        folder.mkdir()
        for name in FILES:
            kept = self.folder / f"{name}.gz"
            if kept.exists():
                (folder / name).write_bytes(gzip.decompress(kept.read_bytes()))
        return folder / "office"

    def keep(self, file, manifest, asked):
        """Keeps this office file, its manifest and these runs."""
        shutil.rmtree(self.folder, ignore_errors=True)
        self.folder.mkdir(parents=True)
        for name in FILES:
            kept = file.with_name(name)
            if kept.exists() and kept.stat().st_size:
                (self.folder / f"{name}.gz").write_bytes(packed(kept.read_bytes()))
        (self.folder / "manifest.csv").write_bytes(manifest)
        rows = ",\n".join(json.dumps(as_text(it)) for it in asked)
        (self.folder / "asked.json.gz").write_bytes(packed(f"[{rows}]\n".encode()))


def all_kept():
    return [Kept(it) for it in sorted(VERSION_1.iterdir()) if it.is_dir()]
