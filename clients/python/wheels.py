"""Makes the wheel that pip installs: the files of modsched/ and what pyproject.toml says of them, with nothing but Python itself."""
from __future__ import annotations

import base64
import hashlib
import os
import re
import zipfile

HERE = os.path.dirname(os.path.realpath(__file__))


def read(path: str) -> bytes:
    with open(os.path.join(HERE, path), "rb") as it:
        return it.read()


def project() -> dict[str, str]:
    """The lines `key = "text"` of the last table of pyproject.toml. (Python has a reader of such files only from 3.11 on.)"""
    table = read("pyproject.toml").decode().partition("[project]")[2]
    return dict(re.findall(r'(?m)^([a-z-]+) = "(.*)"$', table))


def contents() -> dict[str, bytes]:
    """What a wheel holds, by paths."""
    told = project()
    about = f"{told['name']}-{told['version']}.dist-info"
    names = sorted(it for it in os.listdir(os.path.join(HERE, "modsched")) if it.endswith((".py", ".typed")))
    held = {f"modsched/{it}": read(f"modsched/{it}") for it in names}
    keys = {"Name": "name", "Version": "version", "Summary": "description", "Requires-Python": "requires-python"}
    lines = ["Metadata-Version: 2.1", *(f"{key}: {told[name]}" for key, name in keys.items())]
    held[f"{about}/METADATA"] = "".join(f"{it}\n" for it in lines).encode()
    held[f"{about}/WHEEL"] = b"Wheel-Version: 1.0\nGenerator: modsched\nRoot-Is-Purelib: true\nTag: py3-none-any\n"
    sums = {path: base64.urlsafe_b64encode(hashlib.sha256(it).digest()).rstrip(b"=").decode() for path, it in held.items()}
    record = [f"{path},sha256={sums[path]},{len(it)}\n" for path, it in held.items()]
    held[f"{about}/RECORD"] = "".join([*record, f"{about}/RECORD,,\n"]).encode()
    return held


def build_wheel(wheel_directory: str, config_settings: object = None, metadata_directory: str | None = None) -> str:
    """Writes the wheel into a folder and gives its name, as pip asks it to."""
    told = project()
    name = f"{told['name']}-{told['version']}-py3-none-any.whl"
    with zipfile.ZipFile(os.path.join(wheel_directory, name), "w", zipfile.ZIP_DEFLATED) as wheel:
        for path, held in contents().items():
            # (the same files give the same bytes)
            wheel.writestr(zipfile.ZipInfo(path, (1980, 1, 1, 0, 0, 0)), held)
    return name
