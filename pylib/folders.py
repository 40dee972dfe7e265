"""Files in a folder, by their names."""
import os


def put_files(folder, files):
    """Makes a folder hold these files and no others."""
    for name in os.listdir(folder):
        os.remove(os.path.join(folder, name))
    for name, data in files.items():
        write(folder, name, data)


def write(folder, name, data):
    """Writes a text or bytes, and answers the file's path."""
    path = os.path.join(folder, name)
    with open(path, "wb") as out:
        out.write(data.encode() if isinstance(data, str) else data)
    return path


def read(folder, name):
    """The bytes of a file, or None where there is none."""
    try:
        with open(os.path.join(folder, name), "rb") as file:
            return file.read()
    except FileNotFoundError:
        return None
