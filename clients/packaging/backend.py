"""Builds the wheel of the clients, for pip (PEP 517), with the standard library alone.

The wheel holds the package, the command `railburnet`, a man page for it and for each subcommand,
completion for bash, and a user unit for systemd.
"""
from __future__ import annotations

import base64
import hashlib
import io
import os
import sys
import tarfile
import zipfile
from typing import Dict, Iterator, Optional, Tuple

HERE = os.path.dirname(os.path.realpath(__file__))
CLIENTS = os.path.dirname(HERE)
PYTHON = os.path.join(CLIENTS, "python")
sys.path[:0] = [PYTHON, HERE]

from railburnet import __version__ as VERSION  # noqa: E402

NAME = f"railburnet-{VERSION}"
METADATA = f"""Metadata-Version: 2.1
Name: railburnet
Version: {VERSION}
Summary: Follows the files of a directory: what changed, a command that runs on it, a copy
License: Apache-2.0 OR MIT
Requires-Python: >=3.9
"""
WHEEL = "Wheel-Version: 1.0\nGenerator: railburnet\nRoot-Is-Purelib: true\nTag: py3-none-any\n"
SCRIPTS = "[console_scripts]\nrailburnet = railburnet.cli:main\n"
SHARED = {
    "railburnet.bash": "bash-completion/completions/railburnet",
    "railburnet@.service": "systemd/user/railburnet@.service",
}


def _modules() -> Iterator[Tuple[str, bytes]]:
    """Yields the files of the package, by their names below `clients/python`."""
    for at, folders, names in os.walk(os.path.join(PYTHON, "railburnet")):
        folders[:] = sorted(name for name in folders if name != "__pycache__")
        for name in sorted(names):
            if name.endswith(".py"):
                yield os.path.relpath(os.path.join(at, name), PYTHON), _read(at, name)


def _read(*names: str) -> bytes:
    with open(os.path.join(*names), "rb") as file:
        return file.read()


def _shared() -> Iterator[Tuple[str, bytes]]:
    """Yields what is installed below `share`."""
    import man

    for source, name in SHARED.items():
        yield f"{NAME}.data/data/share/{name}", _read(HERE, source)
    for name, text in man.pages().items():
        yield f"{NAME}.data/data/share/man/man1/{name}", text.encode()


def _write_wheel(folder: str, files: Dict[str, bytes]) -> str:
    """Writes a wheel of files and of the metadata, with the record of all."""
    info = f"{NAME}.dist-info"
    licences = {
        f"{info}/{name}": _read(CLIENTS, "..", name)
        for name in ("LICENSE-APACHE", "LICENSE-MIT")
        if os.path.exists(os.path.join(CLIENTS, "..", name))
    }
    files = {
        **files,
        **licences,
        f"{info}/METADATA": METADATA.encode(),
        f"{info}/WHEEL": WHEEL.encode(),
        f"{info}/entry_points.txt": SCRIPTS.encode(),
    }
    record = ""
    with zipfile.ZipFile(
        os.path.join(folder, f"{NAME}-py3-none-any.whl"), "w", zipfile.ZIP_DEFLATED
    ) as wheel:
        for name, data in files.items():
            digest = base64.urlsafe_b64encode(hashlib.sha256(data).digest()).rstrip(b"=").decode()
            record += f"{name},sha256={digest},{len(data)}\n"
            # A fixed time, so that the same files make the same wheel.
            wheel.writestr(zipfile.ZipInfo(name, (1980, 1, 1, 0, 0, 0)), data, zipfile.ZIP_DEFLATED)
        wheel.writestr(
            zipfile.ZipInfo(f"{info}/RECORD", (1980, 1, 1, 0, 0, 0)), record + f"{info}/RECORD,,\n"
        )
    return f"{NAME}-py3-none-any.whl"


def build_wheel(
    wheel_directory: str,
    config_settings: Optional[dict] = None,
    metadata_directory: Optional[str] = None,
) -> str:
    """Builds the wheel."""
    return _write_wheel(wheel_directory, dict([*_modules(), *_shared()]))


def build_editable(
    wheel_directory: str,
    config_settings: Optional[dict] = None,
    metadata_directory: Optional[str] = None,
) -> str:
    """Builds a wheel that takes the package from where it is now."""
    return _write_wheel(
        wheel_directory, dict([("railburnet.pth", PYTHON.encode() + b"\n"), *_shared()])
    )


def build_sdist(sdist_directory: str, config_settings: Optional[dict] = None) -> str:
    """Builds an archive of what a wheel is built from."""
    sources = [
        ("pyproject.toml", _read(CLIENTS, "pyproject.toml")),
        ("PKG-INFO", METADATA.encode()),
    ]
    sources += [
        (f"packaging/{name}", _read(HERE, name))
        for name in sorted(os.listdir(HERE))
        if os.path.isfile(os.path.join(HERE, name))
    ]
    sources += [(f"python/{name}", data) for name, data in _modules()]
    with tarfile.open(os.path.join(sdist_directory, f"{NAME}.tar.gz"), "w:gz") as archive:
        for name, data in sources:
            item = tarfile.TarInfo(f"{NAME}/{name}")
            item.size = len(data)
            archive.addfile(item, io.BytesIO(data))
    return f"{NAME}.tar.gz"
