"""Compiles the extension with the library of lib/, and packs wheels and source distributions, which are equal byte for byte
however often they are built. Wheels need no package `wheel`, which setuptools before 70.1 would need. In a clone,
bin/build_python first writes the sources and the library into a temporary folder."""
import atexit
import base64
import glob
import gzip
import hashlib
import os
import pathlib
import re
import shutil
import subprocess
import sys
import sysconfig
import tarfile
import tempfile
import zipfile

import setuptools
from setuptools import Command, Extension, setup

if int(setuptools.__version__.partition(".")[0]) < 61:
    sys.exit(f"setuptools {setuptools.__version__} does not read pyproject.toml: it has to be 61 or later")
if {"develop", "editable_wheel"} & {*sys.argv}:
    sys.exit("pip install -e is not supported, because the extension is compiled in a temporary folder: install without -e")
SCRIPT = pathlib.Path(__file__).resolve().parent.parent / "bin/build_python"
if not os.path.exists("lib"):
    if not SCRIPT.exists():
        sys.exit(f"there is no {SCRIPT}: pip builds a clone from version 21.3 on, which copies no folder")
    folder = tempfile.mkdtemp()
    atexit.register(shutil.rmtree, folder, ignore_errors=True)
    if subprocess.run([sys.executable, SCRIPT, "--sources", folder]).returncode != 0:
        sys.exit(3)
    os.chdir(folder)

MACHINE = sysconfig.get_platform().rpartition("-")[2]
LIBRARY = f"lib/{MACHINE}/libspeedate.a"
VERSION = ".".join(re.findall(r"^#define SPEEDATE_VERSION_(?:MAJOR|MINOR|PATCH) (\d+)$", pathlib.Path("extension/speedate.h").read_text("utf-8"), re.M))
GLIBC = (2, 17)  # the oldest that a wheel may be tagged for


def platform_of(extension):
    """manylinux, if the extension needs no later glibc and no other library."""
    data = pathlib.Path(extension).read_bytes()
    versions = [tuple(map(int, it.split(b"."))) for it in re.findall(rb"\0GLIBC_([\d.]+)", data)]
    old = {*re.findall(rb"\0(lib[\w.+-]*\.so[\w.]*)", data)} <= {b"libc.so.6"} and max(versions) <= GLIBC
    return "{}_{}".format("manylinux_{}_{}".format(*GLIBC) if old else "linux", MACHINE)


def digest(data):
    return base64.urlsafe_b64encode(hashlib.sha256(data).digest()).rstrip(b"=").decode()


class Packing(Command):
    user_options = [("dist-dir=", "d", "where the file is written"), ("formats=", None, "gztar, of a source distribution")]

    def initialize_options(self):
        self.dist_dir, self.formats = "dist", None

    def finalize_options(self):
        os.makedirs(self.dist_dir, exist_ok=True)

    def information(self):
        """The file that says what the package is."""
        self.run_command("egg_info")
        return pathlib.Path(self.get_finalized_command("egg_info").egg_info, "PKG-INFO").read_bytes()


class Wheel(Packing):
    def egg2dist(self, egg, info):
        """Makes the folder of information that pip asks for before the wheel."""
        os.makedirs(info, exist_ok=True)
        shutil.copy(f"{egg}/PKG-INFO", f"{info}/METADATA")

    def run(self):
        self.run_command("build")
        built = pathlib.Path(self.get_finalized_command("build").build_lib)
        [extension] = built.glob("speedate/_speedate.*.so")
        python, info = "cp{}{}".format(*sys.version_info), f"speedate-{VERSION}.dist-info"
        tag = f"{python}-{python}{getattr(sys, 'abiflags', '')}-{platform_of(extension)}"
        files = {it.relative_to(built).as_posix(): it.read_bytes() for it in sorted(built.glob("speedate/*"))}
        files[f"{info}/LICENSE"] = pathlib.Path("LICENSE").read_bytes()
        files[f"{info}/METADATA"] = self.information()
        files[f"{info}/WHEEL"] = f"Wheel-Version: 1.0\nGenerator: speedate ({VERSION})\nRoot-Is-Purelib: false\nTag: {tag}\n".encode()
        record = [f"{name},sha256={digest(data)},{len(data)}\n" for name, data in files.items()]
        files[f"{info}/RECORD"] = "".join([*record, f"{info}/RECORD,,\n"]).encode()
        with zipfile.ZipFile(f"{self.dist_dir}/speedate-{VERSION}-{tag}.whl", "w") as wheel:
            for name, data in files.items():
                entry = zipfile.ZipInfo(name, (1980, 1, 1, 0, 0, 0))
                entry.external_attr = 0o100644 << 16
                wheel.writestr(entry, data, zipfile.ZIP_DEFLATED, 9)


class Sources(Packing):
    def run(self):
        pathlib.Path("PKG-INFO").write_bytes(self.information())
        folders = "examples", "extension", "lib", "speedate"
        names = [it for it in glob.glob("**", recursive=True) if os.path.isfile(it) and it.partition("/")[0] in (*folders, it) and "__pycache__" not in it]

        def plain(entry):
            entry.uid = entry.gid = entry.mtime = 0
            entry.uname = entry.gname = ""
            entry.mode = 0o644
            return entry

        with open(f"{self.dist_dir}/speedate-{VERSION}.tar.gz", "wb") as file, gzip.GzipFile("", "wb", 9, file, 0) as packed:
            with tarfile.open(fileobj=packed, mode="w", format=tarfile.USTAR_FORMAT) as tar:
                for it in sorted(names):
                    tar.add(it, f"speedate-{VERSION}/{it}", filter=plain)


if not os.path.exists(LIBRARY):
    sys.exit(f"there is no library for {sysconfig.get_platform()}, only for Linux on {' and '.join(sorted(os.listdir('lib')))}")
if not os.path.exists(f"{sysconfig.get_path('include')}/Python.h"):
    sys.exit(f"there is no Python.h for {sys.executable}; on Debian: apt-get install python3-dev")
os.umask(0o022)
setup(
    version=VERSION, zip_safe=False,
    long_description=pathlib.Path("README.md").read_text("utf-8"), long_description_content_type="text/markdown",
    packages=["speedate"], package_data={"speedate": ["*.pyi", "py.typed", "GRAMMAR.md"]},
    # What the include path of the interpreter has comes first: it may have another pyconfig.h than the folders of the system.
    ext_modules=[Extension(
        "speedate._speedate", sorted(glob.glob("extension/*.c")), include_dirs=["extension"], extra_objects=[LIBRARY],
        depends=glob.glob("extension/*.h"), extra_compile_args=["-std=c99", "-O2", "-g0", "-fno-wrapv", "-fno-stack-protector", "-Wall", "-Wextra"],
        extra_link_args=["-s", "-Wl,--version-script=extension/exports"])],
    cmdclass={"bdist_wheel": Wheel, "sdist": Sources})
