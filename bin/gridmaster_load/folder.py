"""What save_sge_config.sh or gridmaster-save wrote, read as text with one character for each byte."""
import os
import pathlib
import re


class Folder:
    """What save_sge_config.sh wrote."""

    def __init__(self, path):
        self.path = pathlib.Path(path)
        self.version = self.text("version").strip() or "no version"
        self.own = "gridmaster" in self.version
        # From 8.0 on a STRING is asked for by a pattern, as a RESTRING is here.
        self.patterns = re.search(r"(?<![\d.])([89]|1\d)\.", self.version) is not None

    def place(self, name):
        """The path of a file that has such a name."""
        return self.path / os.fsdecode(name.encode("latin-1"))

    def text(self, name):
        path = self.place(name)
        return path.read_text(encoding="latin-1") if path.is_file() else ""

    def names(self, kind):
        path = self.place(kind)
        return sorted(os.fsencode(entry.name).decode("latin-1") for entry in path.iterdir() if entry.is_file()) if path.is_dir() else []

    def lines(self, name):
        """The lines of a file, joined where one ends with a backslash, without comments and empty ones."""
        text = re.sub(r"\\\n[ \t]*", " ", self.text(name))
        return [line.strip() for line in text.split("\n") if line.strip() and not line.startswith("#")]

    def pairs(self, name):
        """Attributes and values of a body, in order; an attribute that comes twice counts once."""
        found = {}
        for line in self.lines(name):
            attribute, _, said = line.replace("\t", " ").partition(" ")
            found.setdefault(attribute, said.strip())
        return found
