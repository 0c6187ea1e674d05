"""Puts an edit of bench/launcher/ into a copy of the launcher, and prints the check that has to refuse it.

Usage: python3 launcher_edit.py EDIT FOLDER
"""
import os
import sys


def main():
    edit, folder = sys.argv[1:]
    path = old = check = ""
    with open(edit) as file:
        lines = file.read().splitlines()
    for line in lines:
        key, _, value = line.partition(": ")
        if key == "check":
            check = value
        elif key == "file":
            path = os.path.join(folder, value)
        elif key == "old":
            old = value
        elif key == "new":
            with open(path) as file:
                text = file.read()
            if text.count(old) != 1:
                sys.exit(f"{edit}: its 'old:' is in {path} {text.count(old)} times, and not once")
            with open(path, "w") as file:
                file.write(text.replace(old, value))
    print(check)


if __name__ == "__main__":
    main()
