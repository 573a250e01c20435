"""The build backend of pyproject.toml (PEP 517): a wheel is a zip file of the package and three files about it."""
from __future__ import annotations

import base64
import hashlib
import re
import zipfile
from pathlib import Path

HERE = Path(__file__).resolve().parent
VERSION = re.search(r'^version = "(.*)"$', (HERE / "pyproject.toml").read_text(), re.M)[1]  # type: ignore[index]
ABOUT = f"ntekuzino-{VERSION}.dist-info"
METADATA = f"Metadata-Version: 2.1\nName: ntekuzino\nVersion: {VERSION}\nSummary: One rule sheet from one recording\nLicense: MIT\nRequires-Python: >=3.9\n"
WHEEL = "Wheel-Version: 1.0\nGenerator: ntekuzino\nRoot-Is-Purelib: true\nTag: py3-none-any\n"
SCRIPTS = "[console_scripts]\nntekuzino = ntekuzino.command:main\n"


def _files() -> dict[str, bytes]:
    package = HERE / "ntekuzino"
    files = {f"ntekuzino/{path.name}": path.read_bytes() for path in [*sorted(package.glob("*.py")), package / "py.typed"]}
    about = {"METADATA": METADATA, "WHEEL": WHEEL, "entry_points.txt": SCRIPTS}
    return {**files, **{f"{ABOUT}/{name}": text.encode() for name, text in about.items()}}


def _record(files: dict[str, bytes]) -> str:
    def digest(contents: bytes) -> str:
        return base64.urlsafe_b64encode(hashlib.sha256(contents).digest()).rstrip(b"=").decode()

    lines = [f"{name},sha256={digest(contents)},{len(contents)}\n" for name, contents in files.items()]
    return "".join(lines) + f"{ABOUT}/RECORD,,\n"


def build_wheel(wheel_directory: str, config_settings: object = None, metadata_directory: object = None) -> str:
    """Writes the wheel, and gives its name."""
    name = f"ntekuzino-{VERSION}-py3-none-any.whl"
    files = _files()
    with zipfile.ZipFile(Path(wheel_directory) / name, "w", zipfile.ZIP_DEFLATED) as wheel:
        for path, contents in {**files, f"{ABOUT}/RECORD": _record(files).encode()}.items():
            wheel.writestr(path, contents)
    return name


def build_sdist(sdist_directory: str, config_settings: object = None) -> str:
    """There are no source archives: the repository is the source."""
    raise NotImplementedError("install from the folder")
