"""What passed, as `./check` keeps it."""
import json
import os


class Kept:
    """What passed, by crate and task, in a file of the repository's own folder of git."""

    def __init__(self, folder):
        self.file = f"{folder}/passed.json"
        try:
            with open(self.file, encoding="utf-8") as file:
                self.passed = json.load(file)
        except (OSError, ValueError):
            self.passed = {}

    def has(self, key, digest):
        return self.passed.get(key) == digest

    def put(self, key, digest):
        self.passed[key] = digest
        self.write()

    def drop(self, key):
        if self.passed.pop(key, None):
            self.write()

    def write(self):
        with open(f"{self.file}.new", "w", encoding="utf-8") as file:
            json.dump(self.passed, file, indent=0, sort_keys=True)
        os.replace(f"{self.file}.new", self.file)
