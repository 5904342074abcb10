"""Builds the Python package pb with no other package, as pip and build ask for it: pip install bindings/python.

For use without an installation, `python3 bindings/python/backend.py` makes the shared library in the folder of the module.

A wheel has libpb.a as a shared library, linked by the C compiler that CC names, or cc. PB_LIB_DIR names the folder of libpb.a. The
default is libpb.a in this folder, as an sdist has it, or else the one that the repository carries. The setting `platform` is the
platform of the wheel's name: `python3 -m build -C platform=manylinux_2_34_x86_64`. The default is that of this Python. The times in both
kinds of archive are SOURCE_DATE_EPOCH, so the same input gives the same bytes."""

import base64
import gzip
import hashlib
import io
import os
import pathlib
import re
import shlex
import subprocess
import sysconfig
import tarfile
import tempfile
import time
import zipfile

HERE = pathlib.Path(__file__).resolve().parent
TOP = HERE / "../.."
CARRIED = TOP / "dist/x86_64-linux-gnu"
LIBRARY = "pb/libpb.so"
LICENCES = ("LICENSE-APACHE", "LICENSE-MIT", "THIRD-PARTY.md")
EXAMPLES = (
    "refutation.opb", "refutation.pbp", "optimum.opb", "optimum.pbp", "solution.opb", "solution.pbp", "covering.opb", "consequence.pbp",
)

METADATA = """Metadata-Version: 2.1
Name: pb
Version: {version}
Summary: A verified checker of pseudo-Boolean instances (OPB) and proofs (VeriPB 2.0)
Author: the pb authors
License: MIT OR Apache-2.0
Keywords: pseudo-Boolean,OPB,VeriPB,proof,SAT,verified
Classifier: Development Status :: 4 - Beta
Classifier: Intended Audience :: Science/Research
Classifier: License :: OSI Approved :: Apache Software License
Classifier: License :: OSI Approved :: MIT License
Classifier: Operating System :: POSIX :: Linux
Classifier: Programming Language :: Python :: 3
Classifier: Topic :: Scientific/Engineering :: Mathematics
Classifier: Typing :: Typed
Requires-Python: >=3.8
Description-Content-Type: text/markdown

"""


def found(name):
    """A file that an sdist has in this folder, and the repository at its top."""
    return next((it for it in (HERE / name, TOP / name) if it.is_file()), None)


def archive():
    """Where libpb.a is."""
    named = os.environ.get("PB_LIB_DIR")
    beside = HERE / "libpb.a"
    folder = pathlib.Path(named) if named else HERE if beside.is_file() else CARRIED
    path = folder.resolve() / "libpb.a"
    if not path.is_file():
        raise SystemExit(f"{path} is not there: run ./build, and set PB_LIB_DIR to its folder out")
    return path


def make_library(to):
    """Links libpb.a into the shared library `to`."""
    words = shlex.split(os.environ.get("CC") or "cc")
    words += ["-shared", "-o", str(to), "-Wl,-soname,libpb.so", "-Wl,--whole-archive", str(archive()), "-Wl,--no-whole-archive"]
    try:
        subprocess.run(words, check=True)
    except FileNotFoundError:
        raise SystemExit(f"{words[0]} is not there: libpb.so needs a C compiler, which CC may name") from None


def version():
    """The version that the module names."""
    return re.search(r'^__version__ = "(.*)"$', (HERE / "pb/__init__.py").read_text(encoding="utf-8"), re.M)[1]


def modules():
    """The files of the module by their paths in an archive, with the mark that it has type hints."""
    return {f"pb/{it.name}": it.read_bytes() for it in sorted(HERE.glob("pb/*")) if it.suffix == ".py" or it.name == "py.typed"}


def metadata():
    return (METADATA.format(version=version()) + (HERE / "README.md").read_text(encoding="utf-8")).encode()


def licences():
    """The texts of the licences, by name."""
    return {it: found(it).read_bytes() for it in LICENCES if found(it)}


def seconds():
    """The time of each file in an archive: SOURCE_DATE_EPOCH, and not before 1980, where zip begins."""
    return max(int(os.environ.get("SOURCE_DATE_EPOCH") or 0), 315532800)


def write_zip(to, files):
    with zipfile.ZipFile(to, "w", zipfile.ZIP_DEFLATED) as wheel:
        for path, content in files.items():
            entry = zipfile.ZipInfo(path, time.gmtime(seconds())[:6])
            entry.compress_type, entry.external_attr, entry.create_system = zipfile.ZIP_DEFLATED, 0o100644 << 16, 3
            wheel.writestr(entry, content)


def build_wheel(folder, config_settings=None, metadata_directory=None):
    """Writes the wheel into a folder, and returns its name."""
    platform = (config_settings or {}).get("platform") or re.sub(r"[-.]", "_", sysconfig.get_platform())
    tag = f"py3-none-{platform}"
    name, info = f"pb-{version()}-{tag}.whl", f"pb-{version()}.dist-info"
    with tempfile.TemporaryDirectory() as made:
        make_library(f"{made}/libpb.so")
        files = {**modules(), LIBRARY: pathlib.Path(made, "libpb.so").read_bytes()}
    files[f"{info}/METADATA"] = metadata()
    files[f"{info}/WHEEL"] = f"Wheel-Version: 1.0\nGenerator: pb\nRoot-Is-Purelib: false\nTag: {tag}\n".encode()
    files.update({f"{info}/licenses/{it}": text for it, text in licences().items()})
    record = ""
    for path, content in files.items():
        digest = base64.urlsafe_b64encode(hashlib.sha256(content).digest()).rstrip(b"=").decode()
        record += f"{path},sha256={digest},{len(content)}\n"
    files[f"{info}/RECORD"] = f"{record}{info}/RECORD,,\n".encode()
    write_zip(pathlib.Path(folder, name), files)
    return name


def build_sdist(folder, config_settings=None):
    """Writes the sdist into a folder, and returns its name. It has libpb.a, as that needs the prover to be built."""
    top = f"pb-{version()}"
    names = ("README.md", "backend.py", "pyproject.toml", "test_pb.py")
    files = {it: (HERE / it).read_bytes() for it in names}
    files.update({**modules(), "PKG-INFO": metadata(), "libpb.a": archive().read_bytes(), **licences()})
    files.update({f"examples/{it}": found(f"examples/{it}").read_bytes() for it in EXAMPLES})
    written = io.BytesIO()
    with tarfile.open(fileobj=written, mode="w", format=tarfile.PAX_FORMAT) as tar:
        for path, content in sorted(files.items()):
            entry = tarfile.TarInfo(f"{top}/{path}")
            entry.size, entry.mtime, entry.mode = len(content), seconds(), 0o644
            tar.addfile(entry, io.BytesIO(content))
    with open(pathlib.Path(folder, f"{top}.tar.gz"), "wb") as to, gzip.GzipFile("", "wb", 9, to, mtime=0) as packed:
        packed.write(written.getvalue())
    return f"{top}.tar.gz"


if __name__ == "__main__":
    make_library(HERE / LIBRARY)
    print(HERE / LIBRARY)
