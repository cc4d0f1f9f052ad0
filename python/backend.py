"""Builds the package without a network and with nothing but Python and a C compiler: the archive of hayagriva_c, as ../dist has
it, or as TORKIZEU_ARCHIVE says, is linked into torkizeu/libtorkizeu.so. The wheel is for this platform and any Python 3.
These are the calls that pip makes (PEP 517)."""
import base64
import hashlib
import os
import re
import shlex
import subprocess
import sysconfig
import tarfile
import tempfile
import zipfile
from pathlib import Path
from typing import Any, Dict, Iterator, Optional, Tuple

HERE = Path(__file__).resolve().parent
DIST = HERE.parent / "dist"
ARCHIVE = Path(os.environ.get("TORKIZEU_ARCHIVE", DIST / "libhayagriva_c.a"))
START = Path(os.environ.get("TORKIZEU_START", DIST / "start.c"))
PROJECT = (HERE / "pyproject.toml").read_text(encoding="utf-8")
TAG = "py3-none-" + re.sub(r"[-.]", "_", sysconfig.get_platform())
Settings = Optional[Dict[str, Any]]


def said(name: str) -> str:
    """What the table [project] says of a name."""
    found = re.search(rf'^{name} = (?:{{ text = )?"([^"]*)"', PROJECT, re.MULTILINE)
    if found is None:
        raise SystemExit(f"pyproject.toml has no {name}")
    return found.group(1)


def stem() -> str:
    return f"{said('name')}-{said('version')}"


def link(shared: Path) -> None:
    """Links the shared object. Only the calls of the header are seen from outside."""
    cc = shlex.split(os.environ.get("CC", "cc"))
    with tempfile.TemporaryDirectory() as work:
        start, exports = Path(work, "start.o"), Path(work, "exports.map")
        exports.write_text("{ global: haya_*; local: *; };\n", encoding="utf-8")
        subprocess.run([*cc, "-O2", "-fPIC", "-fvisibility=hidden", "-c", "-o", str(start), str(START)], check=True)
        subprocess.run(
            [*cc, "-shared", "-s", "-o", str(shared), f"-Wl,--version-script={exports}"]
            + ["-Wl,-soname,libtorkizeu.so.2", "-Wl,-z,now,-z,relro", "-Wl,--gc-sections"]
            + ["-Wl,--whole-archive", str(ARCHIVE), "-Wl,--no-whole-archive", str(start)],
            check=True,
        )


def metadata() -> str:
    head = {
        "Metadata-Version": "2.1",
        "Name": said("name"),
        "Version": said("version"),
        "Summary": said("description"),
        "License": said("license"),
        "Requires-Python": said("requires-python"),
        "Description-Content-Type": "text/markdown",
    }
    lines = "".join(f"{name}: {text}\n" for name, text in head.items())
    return f"{lines}\n{(HERE / said('readme')).read_text(encoding='utf-8')}"


def contents() -> Iterator[Tuple[str, bytes]]:
    """The files of the wheel, but for the list of them."""
    for path in sorted((HERE / "src" / "torkizeu").iterdir()):
        if path.suffix in (".py", ".typed"):
            yield f"torkizeu/{path.name}", path.read_bytes()
    with tempfile.TemporaryDirectory() as work:
        shared = Path(work, "libtorkizeu.so")
        link(shared)
        yield "torkizeu/libtorkizeu.so", shared.read_bytes()
    yield f"{stem()}.dist-info/METADATA", metadata().encode()
    wheel = f"Wheel-Version: 1.0\nGenerator: torkizeu\nRoot-Is-Purelib: false\nTag: {TAG}\n"
    yield f"{stem()}.dist-info/WHEEL", wheel.encode()


def build_wheel(folder: str, settings: Settings = None, metadata_folder: Optional[str] = None) -> str:
    """Makes the wheel in a folder, and answers its name."""
    name, record = f"{stem()}-{TAG}.whl", f"{stem()}.dist-info/RECORD"
    listed = []
    with zipfile.ZipFile(Path(folder, name), "w", zipfile.ZIP_DEFLATED) as wheel:
        for path, data in contents():
            wheel.writestr(path, data)
            digest = base64.urlsafe_b64encode(hashlib.sha256(data).digest()).rstrip(b"=").decode()
            listed.append(f"{path},sha256={digest},{len(data)}\n")
        wheel.writestr(record, "".join(listed) + f"{record},,\n")
    return name


def build_sdist(folder: str, settings: Settings = None) -> str:
    """Packs this folder, and answers the archive's name. What is made of it needs TORKIZEU_ARCHIVE and TORKIZEU_START."""
    name = f"{stem()}.tar.gz"
    with tarfile.open(Path(folder, name), "w:gz") as packed:
        for each in ("pyproject.toml", "backend.py", "README.md", "src", "tests"):
            packed.add(HERE / each, f"{stem()}/{each}", filter=lambda item: None if "__pycache__" in item.name else item)
    return name
