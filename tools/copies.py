"""What the tools of this folder share: copies of the repository, and edits applied to them."""
import os
import shutil
import subprocess

ROOT = os.path.dirname(os.path.dirname(os.path.abspath(__file__)))
KEPT = "out"  # the folder of a crate in which rt keeps what is proved already


def text_of(path):
    with open(path, encoding="utf-8") as file:
        return file.read()


def files_of_repository():
    """Every file that git knows or would take, as it stands."""
    listed = subprocess.run(["git", "ls-files", "-z", "-co", "--exclude-standard"], cwd=ROOT, check=True, capture_output=True, text=True)
    return [name for name in listed.stdout.split("\0") if name and os.path.isfile(f"{ROOT}/{name}")]


def copy_files(folder):
    """Copies the files of the repository, and gives their names."""
    names = files_of_repository()
    for name in names:
        os.makedirs(os.path.dirname(f"{folder}/{name}"), exist_ok=True)
        shutil.copy(f"{ROOT}/{name}", f"{folder}/{name}")
    return names


def copy_proved(folder):
    """Copies what is proved already, so that it need not be proved again there."""
    for crate in os.listdir(f"{ROOT}/crates"):
        if os.path.isdir(f"{ROOT}/crates/{crate}/{KEPT}"):
            shutil.copytree(f"{ROOT}/crates/{crate}/{KEPT}", f"{folder}/crates/{crate}/{KEPT}")


def applied(folder, edit):
    """Applies an edit to a folder: 'file:' holds for the pairs of 'old:' and 'new:' after it, and each old text occurs once."""
    path = old = ""
    for line in text_of(edit).split("\n"):
        word, _, rest = (line + " " * (line == "new:")).partition(": ")
        if word == "file":
            path = f"{folder}/{rest}"
        elif word == "old":
            old = rest
        elif word == "new":
            text = text_of(path)
            if text.count(old) != 1:
                return False
            with open(path, "w", encoding="utf-8") as file:
                file.write(text.replace(old, rest))
    return True
