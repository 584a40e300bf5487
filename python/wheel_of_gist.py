"""Builds the wheel and the sources of the client, with nothing but Python.

pip and `python -m build` call the functions here, as pyproject.toml says. A
usual builder would have to be fetched first, and there may be no network.
"""

import base64
import hashlib
import io
import re
import tarfile
import zipfile
from pathlib import Path
from typing import Any, Dict

HERE = Path(__file__).resolve().parent
PROJECT = dict(re.findall(r'^([a-z-]+) = "(.*)"$',
                          (HERE / "pyproject.toml").read_text(), re.M))
STEM = f"{PROJECT['name'].replace('-', '_')}-{PROJECT['version']}"
METADATA = (f"Metadata-Version: 2.1\nName: {PROJECT['name']}\n"
            f"Version: {PROJECT['version']}\n"
            f"Summary: {PROJECT['description']}\n"
            f"Requires-Python: {PROJECT['requires-python']}\n").encode()


def build_wheel(wheel_directory: str, *_: Any, **__: Any) -> str:
    """Writes the wheel into a folder, and returns its name."""
    return _wheel(wheel_directory, _package())


def build_editable(wheel_directory: str, *_: Any, **__: Any) -> str:
    """Writes a wheel that only names this folder, and returns its name."""
    return _wheel(wheel_directory, {"gist_client.pth": f"{HERE}\n".encode()})


def build_sdist(sdist_directory: str, *_: Any, **__: Any) -> str:
    """Writes an archive of what build_wheel needs, and returns its name."""
    files = _package()
    for name in ("pyproject.toml", Path(__file__).name):
        files[name] = (HERE / name).read_bytes()
    files["PKG-INFO"] = METADATA
    archive = f"{STEM}.tar.gz"
    with tarfile.open(Path(sdist_directory) / archive, "w:gz",
                      format=tarfile.PAX_FORMAT) as to:
        for name, data in files.items():
            member = tarfile.TarInfo(f"{STEM}/{name}")
            member.size = len(data)
            to.addfile(member, io.BytesIO(data))
    return archive


def _package() -> Dict[str, bytes]:
    """The files of the package, each by its path from here."""
    return {f"gist/{path.name}": path.read_bytes()
            for path in sorted((HERE / "gist").iterdir())
            if path.suffix == ".py" or path.name == "py.typed"}


def _wheel(folder: str, files: Dict[str, bytes]) -> str:
    """Writes a wheel of these files, and returns its name."""
    info = f"{STEM}.dist-info"
    files[f"{info}/METADATA"] = METADATA
    files[f"{info}/WHEEL"] = (b"Wheel-Version: 1.0\nGenerator: wheel_of_gist\n"
                              b"Root-Is-Purelib: true\nTag: py3-none-any\n")
    record = "".join(f"{name},sha256={_sum_of(data)},{len(data)}\n"
                     for name, data in files.items())
    files[f"{info}/RECORD"] = f"{record}{info}/RECORD,,\n".encode()
    wheel = f"{STEM}-py3-none-any.whl"
    with zipfile.ZipFile(Path(folder) / wheel, "w",
                         zipfile.ZIP_DEFLATED) as to:
        for name, data in files.items():
            to.writestr(name, data)
    return wheel


def _sum_of(data: bytes) -> str:
    digest = hashlib.sha256(data).digest()
    return base64.urlsafe_b64encode(digest).rstrip(b"=").decode()
