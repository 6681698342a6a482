"""Makes the wheel of the package for pip (PEP 517), with only the standard library.

The wheel keeps the folder of the libraries beside these sources, below a prefix or in a checkout.
"""

import base64
import hashlib
import re
import zipfile
from pathlib import Path

HERE = Path(__file__).resolve().parent
WHEEL = "Wheel-Version: 1.0\nGenerator: cindrolf\nRoot-Is-Purelib: true\nTag: py3-none-any\n"


def _version():
    text = (HERE / "cindrolf" / "__init__.py").read_text(encoding="utf-8")
    return re.search(r'^__version__ = "(.*)"$', text, re.MULTILINE).group(1)


def _metadata():
    project = (HERE / "pyproject.toml").read_text(encoding="utf-8")
    said = dict(re.findall(r'^([a-z-]+) = "(.*)"$', project, re.MULTILINE))
    return (
        f"Metadata-Version: 2.1\nName: {said['name']}\nVersion: {_version()}\n"
        f"Summary: {said['description']}\nRequires-Python: {said['requires-python']}\n"
    )


def _library_folder():
    """The folder of the libraries beside these sources, if there is one."""
    for folder in (HERE.parent.parent.parent / "lib", HERE.parent / "target" / "installed" / "lib"):
        if any(folder.glob("libcindrolf_store.so.*")):
            return str(folder)
    return None


def get_requires_for_build_wheel(config_settings=None):
    return []


def build_wheel(wheel_directory, config_settings=None, metadata_directory=None):
    info = f"cindrolf-{_version()}.dist-info"
    files = {
        f"cindrolf/{file.name}": file.read_bytes()
        for file in sorted((HERE / "cindrolf").iterdir())
        if file.suffix in (".py", ".typed")
    }
    files["cindrolf/_installed.py"] = (
        f'"""Where the libraries were when pip installed this package."""\n\nFOLDER = {_library_folder()!r}\n'.encode()
    )
    files[f"{info}/METADATA"] = _metadata().encode()
    files[f"{info}/WHEEL"] = WHEEL.encode()
    record = ""
    for name, content in files.items():
        digest = base64.urlsafe_b64encode(hashlib.sha256(content).digest()).rstrip(b"=").decode()
        record += f"{name},sha256={digest},{len(content)}\n"
    files[f"{info}/RECORD"] = f"{record}{info}/RECORD,,\n".encode()
    name = f"cindrolf-{_version()}-py3-none-any.whl"
    with zipfile.ZipFile(Path(wheel_directory) / name, "w", zipfile.ZIP_DEFLATED) as wheel:
        for path, content in files.items():
            wheel.writestr(path, content)
    return name
