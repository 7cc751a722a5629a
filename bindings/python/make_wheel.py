"""Makes the wheel of elsa_proved with its shared object, by Python's standard library: a build backend for pip."""
import base64
import hashlib
import pathlib
import re
import zipfile

FOLDER = pathlib.Path(__file__).resolve().parent
PACKAGE = FOLDER / "elsa_proved"
TAG = "py3-none-linux_x86_64"
METADATA = """Metadata-Version: 2.1
Name: elsa-proved
Version: {version}
Summary: Numbers for texts, by proved code: factorize and an interner
License: MIT OR Apache-2.0
Requires-Python: >=3.8
"""
WHEEL = f"""Wheel-Version: 1.0
Generator: elsa make_wheel
Root-Is-Purelib: false
Tag: {TAG}
"""


def build_wheel(wheel_directory, config_settings=None, metadata_directory=None):
    """Writes the wheel to a folder and returns its name. It has the same bytes each time."""
    version = re.search(r'^__version__ = "([^"]+)"', (PACKAGE / "__init__.py").read_text(), re.M)[1]
    name, info = f"elsa_proved-{version}-{TAG}.whl", f"elsa_proved-{version}.dist-info"
    files = {f"elsa_proved/{it}": (PACKAGE / it).read_bytes() for it in ("__init__.py", "py.typed", "libelsa_c.so")}
    files[f"{info}/METADATA"] = METADATA.format(version=version).encode()
    files[f"{info}/WHEEL"] = WHEEL.encode()
    rows = []
    for path, data in files.items():
        digest = base64.urlsafe_b64encode(hashlib.sha256(data).digest()).decode().rstrip("=")
        rows.append(f"{path},sha256={digest},{len(data)}\n")
    files[f"{info}/RECORD"] = "".join([*rows, f"{info}/RECORD,,\n"]).encode()
    with zipfile.ZipFile(pathlib.Path(wheel_directory) / name, "w", zipfile.ZIP_DEFLATED) as wheel:
        for path, data in files.items():
            entry = zipfile.ZipInfo(path)
            entry.external_attr = (0o755 if path.endswith(".so") else 0o644) << 16
            wheel.writestr(entry, data, zipfile.ZIP_DEFLATED)
    return name
