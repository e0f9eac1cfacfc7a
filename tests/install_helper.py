"""`./install` of this repository and of a scratch one, and what it should install. A stand-in is the toolchain."""
import os
import pathlib
import shutil
import stat
import subprocess
from dataclasses import dataclass

from programs import SECONDS, TOP

NAMES = ("wcpwatch", "wcptrace", "wcpdraw")
DOCUMENTS = "share/doc/wullaphi"
COMPLETIONS = "share/bash-completion/completions"

# It stands for the toolchain: it keeps what it is asked, and proves nothing.
RT = """\
#!/bin/sh
echo "$*" >>"$0.calls"
exit 1
"""

# It stands for a program of a scratch repository.
PROGRAM = """\
#!/bin/sh
echo "$0"
"""


@dataclass
class Installer:
    """`./install` of a repository, called in a folder with a stand-in for the toolchain."""

    room: pathlib.Path
    top: pathlib.Path = TOP

    @property
    def toolchain(self) -> pathlib.Path:
        return self.room / "tools" / "rt"

    def __call__(self, *words: str | pathlib.Path, **variables: str) -> subprocess.CompletedProcess[str]:
        environment = {name: it for name, it in os.environ.items() if name != "DESTDIR"}
        environment["PATH"] = f"{self.toolchain.parent}:{environment['PATH']}"
        self.calls.unlink(missing_ok=True)
        return subprocess.run([self.top / "install", *words], cwd=self.room, env={**environment, **variables},
                              stdin=subprocess.DEVNULL, capture_output=True, text=True, timeout=SECONDS, umask=0o077,
                              check=False)

    @property
    def calls(self) -> pathlib.Path:
        return self.room / "tools" / "rt.calls"

    @property
    def asked_for_a_proof(self) -> bool:
        return self.calls.exists()


def write_program(file: pathlib.Path, text: str) -> None:
    file.parent.mkdir(parents=True, exist_ok=True)
    file.write_text(text)
    file.chmod(0o755)


def scratch_repository(top: pathlib.Path) -> pathlib.Path:
    """A repository with all that is installed but the programs, which nothing can build."""
    top.mkdir()
    for file in [TOP / "install", TOP / "run_program.sh", *(TOP / name for name in NAMES), *TOP.glob("[A-Z]*")]:
        if file.is_file():
            shutil.copy(file, top / file.name)
    for name in ("man", "completions", "docs", "examples"):
        shutil.copytree(TOP / name, top / name)
    for name in NAMES:
        (top / "crates" / name).mkdir(parents=True)
    (top / "crates.txt").write_text("".join(f"{name}:\n" for name in NAMES))
    return top


def sources() -> dict[str, tuple[str, int]]:
    """Where each file that is installed comes from, and its mode."""
    found = {f"bin/{name}": (f"crates/{name}/out/{name}", 0o755) for name in NAMES}
    found.update({f"share/man/man1/{name}.1": (f"man/{name}.1", 0o644) for name in NAMES})
    found[f"{COMPLETIONS}/wullaphi.bash"] = ("completions/wullaphi.bash", 0o644)
    documents = [*TOP.glob("LICENSE-*"), *TOP.glob("docs/**/*.*"), *TOP.glob("examples/**/*.*")]
    for document in (TOP / "README.md", TOP / "CHANGELOG.md", *documents):
        if not document.name.startswith(".") and not document.name.endswith("~"):
            found[f"{DOCUMENTS}/{document.relative_to(TOP)}"] = (str(document.relative_to(TOP)), 0o644)
    return found


def contents(folder: pathlib.Path) -> dict[str, str | bytes]:
    """The files below a folder, with what stands in each; of a link, where it points."""
    return {str(it.relative_to(folder)): os.readlink(it) if it.is_symlink() else it.read_bytes()
            for it in sorted(folder.rglob("*")) if it.is_symlink() or it.is_file()}


def modes(folder: pathlib.Path) -> dict[str, int]:
    return {str(it.relative_to(folder)): stat.S_IMODE(it.lstat().st_mode)
            for it in folder.rglob("*") if it.is_file() and not it.is_symlink()}


def all_files() -> dict[str, str | bytes]:
    """What stands below a prefix when all is installed."""
    files: dict[str, str | bytes] = {place: (TOP / source).read_bytes() for place, (source, _) in sources().items()}
    return files | {f"{COMPLETIONS}/{name}": "wullaphi.bash" for name in NAMES}


def installer_in(room: pathlib.Path, top: pathlib.Path = TOP) -> Installer:
    """The installer of a repository, with the stand-in for the toolchain in this folder."""
    installer = Installer(room, top)
    write_program(installer.toolchain, RT)
    return installer
