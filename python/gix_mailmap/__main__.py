"""`python -m gix_mailmap ..` runs `mailmap_verify ..`, the program that comes with the package."""
import os
import shutil
import sys
import sysconfig
from pathlib import Path

PROGRAM = "mailmap_verify"


def program() -> str | None:
    """The path of the program: among the scripts of this Python or of this user, beside a package that pip installed
    into another folder, or wherever the shell finds it."""
    folders = [
        sysconfig.get_path("scripts"),
        sysconfig.get_path("scripts", scheme=sysconfig.get_preferred_scheme("user")),
        str(Path(__file__).parents[1] / "bin"),
        *os.environ.get("PATH", "").split(os.pathsep),
    ]
    return shutil.which(PROGRAM, path=os.pathsep.join(folders))


def main() -> None:
    path = program()
    if path is None:
        sys.exit(f"gix_mailmap: {PROGRAM} is not installed")
    os.execv(path, [PROGRAM, *sys.argv[1:]])


if __name__ == "__main__":
    main()
