"""Makes the package's wheel of its files as they are, so that `pip install` needs nothing but itself and no network."""

import base64
import hashlib
import pathlib
import re
import sysconfig
import tarfile
import zipfile

HERE = pathlib.Path(__file__).resolve().parent
ABOUT = dict(re.findall(r'^([a-z-]+) = "(.*)"$', (HERE / "pyproject.toml").read_text(encoding="utf-8"), re.MULTILINE))
STEM = f"{ABOUT['name']}-{ABOUT['version']}"
METADATA = f"""Metadata-Version: 2.1
Name: {ABOUT['name']}
Version: {ABOUT['version']}
Summary: {ABOUT['description']}
Requires-Python: {ABOUT['requires-python']}
"""


def _files():
    """Each file of the package, with its name in the wheel."""
    top = HERE / "src"
    for path in sorted(top.rglob("*")):
        if path.is_file() and "__pycache__" not in path.parts and not path.name.endswith(".pyc"):
            yield path.relative_to(top).as_posix(), path.read_bytes()


def build_wheel(wheel_directory, config_settings=None, metadata_directory=None):
    """Writes the wheel, and gives its name. With the library in it, it is one for this platform."""
    files = list(_files())
    has_library = any(name.endswith(".so") for name, _ in files)
    platform = re.sub(r"[^a-z0-9_]", "_", sysconfig.get_platform()) if has_library else "any"
    tag = f"py3-none-{platform}"
    about = (
        f"Wheel-Version: 1.0\nGenerator: wheel_of_files\nRoot-Is-Purelib: {str(not has_library).lower()}\nTag: {tag}\n"
    )
    files += [(f"{STEM}.dist-info/METADATA", METADATA.encode()), (f"{STEM}.dist-info/WHEEL", about.encode())]
    record = f"{STEM}.dist-info/RECORD"
    lines = []
    name = f"{STEM}-{tag}.whl"
    with zipfile.ZipFile(pathlib.Path(wheel_directory) / name, "w", zipfile.ZIP_DEFLATED) as wheel:
        for path, data in files:
            digest = base64.urlsafe_b64encode(hashlib.sha256(data).digest()).rstrip(b"=").decode()
            lines.append(f"{path},sha256={digest},{len(data)}\n")
            wheel.writestr(path, data)
        wheel.writestr(record, "".join(lines) + f"{record},,\n")
    return name


def build_sdist(sdist_directory, config_settings=None):
    """Writes the archive of the sources, and gives its name."""
    name = f"{STEM}.tar.gz"
    with tarfile.open(pathlib.Path(sdist_directory) / name, "w:gz") as archive:
        for path in ("pyproject.toml", "wheel_of_files.py", "README.md", "src"):
            archive.add(HERE / path, f"{STEM}/{path}", filter=lambda one: None if "__pycache__" in one.name else one)
    return name
