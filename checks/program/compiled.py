"""The programs and libraries that checks/program/bindings compiles."""
import os
import shutil
import subprocess
import sys

from running import TOP

WARNINGS = ["-Wall", "-Wextra", "-pedantic", "-Werror", f"-I{TOP}/include"]
C99 = ["cc", "-std=c99", "-D_DEFAULT_SOURCE", *WARNINGS]
C11 = ["cc", "-std=c11", "-D_DEFAULT_SOURCE", "-pthread", *WARNINGS]
CPP = ["c++", "-std=c++17", *WARNINGS]
ADDRESSES = "-fsanitize=address"


def is_there(command):
    """Whether a command is there: venv as a module that can install pip, and AddressSanitizer as one of cc."""
    how = {"stdout": subprocess.DEVNULL, "stderr": subprocess.DEVNULL}
    if command == "venv":
        words = ["python3", "-c", "import ensurepip, venv"]
    elif command == "AddressSanitizer":
        words = ["cc", ADDRESSES, "-xc", "-", "-o", "/dev/null"]
        how["input"] = b"int main(void) { return 0; }"
    else:
        return shutil.which(command) is not None
    return subprocess.run(words, **how).returncode == 0


def has_all(part, commands):
    """Whether all these commands are there; else it reports that the part was left out."""
    missing = next((it for it in commands if not is_there(it)), None)
    if missing:
        print(f"bindings: {part} was left out, as there is no {missing}", file=sys.stderr)
    return not missing


class Compiled:
    """Programs over an archive, each made once in a folder."""

    def __init__(self, folder, archive):
        self.folder = folder
        self.archive = archive
        self.sanitized = [ADDRESSES] if is_there("AddressSanitizer") else []

    def path(self, name):
        return os.path.join(self.folder, name)

    def made(self, compiler, source, *more):
        """The program of a source, named after it and the further words."""
        name = "-".join([os.path.basename(source), *more]).replace("=", "-").replace(".", "-")
        subprocess.run([*compiler, *more, "-o", self.path(name), TOP / source, self.archive], check=True)
        return self.path(name)

    def of_cpp(self):
        """The example in C++, with every warning, once pb.h was compiled as C++ alone."""
        words = ["c++", *WARNINGS, "-xc++", "-fsyntax-only"]
        subprocess.run([*words, TOP / "include/pb.h"], check=True)
        return self.made(CPP, "examples/cpp/stream.cpp")

    def of_rust(self):
        """The folder of the examples in Rust, once its tests have passed."""
        target = self.path("target")
        setting = {**os.environ, "CARGO_TARGET_DIR": target}
        how = {"cwd": TOP / "bindings/rust", "env": setting, "check": True, "stdout": subprocess.DEVNULL}
        subprocess.run(["cargo", "test", "--offline", "--quiet"], **how)
        subprocess.run(["cargo", "build", "--offline", "--quiet", "--examples"], **how)
        return os.path.join(target, "debug/examples")

    def of_python(self):
        """The shared library for Python, once the tests of the module have passed with it."""
        import backend

        library = self.path("libpb.so")
        backend.make_library(library)
        tests = [sys.executable, "-B", "-m", "unittest", "-q"]
        how = {"cwd": TOP / "bindings/python", "env": {**os.environ, "PB_LIBRARY": library}, "check": True, "stderr": subprocess.DEVNULL}
        subprocess.run(tests, **how)
        return library
