"""What is kept from run to run: preprocessed files, what is known of them, and answers, each under a checksum of what it was made from."""

import hashlib
import json
import os
import tempfile

from .options import Stop
from .objects import sum_of, sum_of_file


def key_of(*parts):
    """A checksum of texts and lists."""
    return hashlib.sha256(json.dumps(parts).encode("utf-8")).hexdigest()


class Kept:
    """A folder of files by kind and checksum. What is there and cannot be read is as if it were not there."""

    def __init__(self, folder, is_fresh):
        self.folder, self.is_fresh = folder, is_fresh
        for kind in ("texts", "commands", "answers", "builds"):
            try:
                os.makedirs(os.path.join(folder, kind), exist_ok=True)
            except OSError as fault:
                raise Stop(9, f"cannot write to {folder}: {fault.strerror}") from fault

    def path(self, kind, key):
        return os.path.join(self.folder, kind, key)

    def read(self, kind, key):
        """A kept value, or None."""
        if self.is_fresh:
            return None
        try:
            with open(self.path(kind, key), encoding="utf-8") as file:
                return json.load(file)
        except (OSError, ValueError):
            return None

    def write(self, kind, key, value):
        self.put(self.path(kind, key), json.dumps(value).encode("utf-8"))

    def write_text(self, text):
        """Keeps a text, and returns its checksum."""
        data = text.encode("latin-1")
        key = sum_of(data)
        if sum_of_file(self.path("texts", key)) != key:
            self.put(self.path("texts", key), data)
        return key

    def put(self, path, data):
        """A file comes into its place whole, whoever else writes it."""
        try:
            with tempfile.NamedTemporaryFile(dir=self.folder, delete=False) as file:
                file.write(data)
            os.replace(file.name, path)
        except OSError as fault:
            raise Stop(9, f"cannot write to {self.folder}: {fault.strerror}") from fault
