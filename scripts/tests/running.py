"""What the tests that are written in Python share: the program that they run, and where."""
import os
import subprocess
import sys

TOP = os.path.dirname(os.path.dirname(os.path.dirname(os.path.abspath(__file__))))
# Where there is a file system in memory, no sync takes time.
MEMORY = "/dev/shm" if os.path.isdir("/dev/shm") else None

# What standard error tells behind the number of a refusal for which the program ends.
TOLD = {
    "50": "the disk met a fault: the folder or a file in it can't be opened, read, written or "
    "synced",
    "53": "the folder isn't there or holds no store: mvo format FOLDER makes one",
    "54": "the folder's file {file:04}, {kind}, breaks a rule of its format: restore the folder "
    "from a copy",
    "55": "a file of the folder is of another version: mvo --version says which versions are read",
    "57": "the folder holds a store already",
    "90": "memory was refused: it takes more, or a higher limit",
}


def told_of(refusal):
    """What is on standard error where the program ends by a refusal, such as `refused 54 2`."""
    _, number, *file = refusal.split()
    file = int(file[0]) if number == "54" else 0
    kind = "a slot of the manifest" if file < 2 else "a segment of the log or a file of a pair"
    behind = TOLD[number].format(file=file, kind=kind) + "\n" if number in TOLD else ""
    return f"{refusal}\n{behind}"


def find_program():
    """The program that ./mvo runs. It is taken or built first, where that's needed."""
    find = [os.path.join(TOP, "scripts", "program")]
    return subprocess.run(find, check=True, stdout=subprocess.PIPE, text=True).stdout.rstrip("\n")


def bytes_of(text):
    return bytes.fromhex(text.replace("\n", " "))


# The tests that are written in bash ask for it so.
if __name__ == "__main__":
    print(told_of(sys.argv[1]), end="")
