"""Folders with the files of a case."""
import os


def write_files(folder, files):
    """Writes the files, of which one that is None is left out."""
    for name, content in files.items():
        if content is not None:
            with open(os.path.join(folder, name), "wb") as file:
                file.write(content if isinstance(content, bytes) else content.encode("utf-8"))
