"""Builds the package gix_mailmap for Python: its extension module has the static library that `make lib` built, and the
programs that `make build` built come as scripts.

What setuptools makes on the way is put into a folder that is removed again, so a wheel has no files of earlier builds.
"""
import os
import sys
import tempfile
from pathlib import Path

from setuptools import Extension, setup
from distutils.command.build_scripts import build_scripts  # setuptools brings its own distutils

ARCH = os.environ.get("GIX_MAILMAP_ARCH") or "x86_64"
OUT = "out" if ARCH == "x86_64" else f"out/{ARCH}"
LIBRARY = os.environ.get("GIX_MAILMAP_LIBRARY") or f"crates/gix_mailmap_c/{OUT}/c/libgix_mailmap.a"
PROGRAMS = [f"crates/{name}/{OUT}/static/{name}" for name in ("mailmap_check", "mailmap_shortlog", "mailmap_verify")]
WORK = tempfile.TemporaryDirectory()

if "sdist" in sys.argv:
    raise SystemExit("a source distribution can't build the library: build a wheel, after `make lib`")
if not Path(LIBRARY).is_file():
    raise SystemExit(
        f"there is no static library at {LIBRARY}: run `make lib` first, which needs the toolchain (rt), "
        "or name a library that is built in the variable GIX_MAILMAP_LIBRARY of the environment"
    )
if not all(Path(program).is_file() for program in PROGRAMS):
    print("setup.py: the package comes without programs, as `make build` has not built them", file=sys.stderr)
    PROGRAMS = []


class Programs(build_scripts):
    """Copies the programs as they are. setuptools would look for a first line in them."""

    def copy_scripts(self):
        self.mkpath(self.build_dir)
        made = [os.path.join(self.build_dir, os.path.basename(program)) for program in self.scripts]
        for program, copy in zip(self.scripts, made):
            self.copy_file(program, copy)
            os.chmod(copy, 0o755)
        return made, made


def include_dirs():
    """The header's folder and, for another processor, one in which Debian's Python finds what it knows of this one.

    That is the same for both as far as the limited API goes: each has 64 bits, the low byte first.
    """
    own = Path(f"/usr/include/x86_64-linux-gnu/python{sys.version_info[0]}.{sys.version_info[1]}/pyconfig.h")
    if ARCH == "x86_64" or not own.is_file():
        return ["include"]
    other = Path(WORK.name, "include", f"{ARCH}-linux-gnu", own.parent.name)
    other.mkdir(parents=True)
    (other / own.name).write_bytes(own.read_bytes())
    return ["include", str(other.parents[1])]


setup(
    version=Path("VERSION").read_text(encoding="ascii").strip(),
    license_files=["LICENSE"],
    package_dir={"": "python"},
    packages=["gix_mailmap"],
    package_data={"gix_mailmap": ["py.typed", "*.pyi"]},
    include_package_data=False,
    ext_modules=[Extension(
        "gix_mailmap._native",
        ["python/gix_mailmap/_native.c"],
        include_dirs=include_dirs(),
        define_macros=[("Py_LIMITED_API", "0x030B0000")],
        py_limited_api=True,
        extra_compile_args=["-std=c11", "-O3", "-fno-plt", "-g0", "-fvisibility=hidden"],
        extra_objects=[LIBRARY],
        extra_link_args=["-Wl,--exclude-libs,ALL"],
    )],
    scripts=PROGRAMS,
    cmdclass={"build_scripts": Programs},
    options={
        "build": {"build_base": WORK.name},
        "egg_info": {"egg_base": WORK.name},
        # The library needs no newer version of glibc, and neither does the rest of the extension module. The programs
        # need none.
        "bdist_wheel": {"py_limited_api": "cp311", "plat_name": f"manylinux_2_17_{ARCH}"},
    },
)
