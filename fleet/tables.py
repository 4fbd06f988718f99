"""CSV files as sms-send reads and writes them (docs/FORMATS.md), and files that are there whole or not at all."""
import contextlib
import csv
import os
import re

csv.field_size_limit(2**31 - 1)
QUOTED = re.compile('[,"\r\n]')


class Fault(Exception):
    """What is wrong with an input, told as `FILE:LINE: what`, or `FILE: what`."""

    def __init__(self, name, what, line=None):
        super().__init__(f"{name}:{line}: {what}" if line else f"{name}: {what}")


def records(name):
    """The records of a file, each with the line where it ends. Empty lines are none, and a byte order mark is passed over."""
    try:
        with open(name, newline="", encoding="utf-8-sig") as file:
            reader = csv.reader(file)
            return [(reader.line_num, it) for it in reader if it]
    except OSError as it:
        raise Fault(name, it.strerror) from None
    except (UnicodeDecodeError, csv.Error) as it:
        raise Fault(name, f"is no CSV in UTF-8: {it}") from None


def first_record(name):
    """The first record of a file, or none."""
    try:
        with open(name, newline="", encoding="utf-8-sig") as file:
            return next((it for it in csv.reader(file) if it), None)
    except (OSError, UnicodeDecodeError, csv.Error):
        return None


def table(name, *headers):
    """The records behind the header, one of these, which all have as many fields."""
    found = records(name)
    header = next((it for it in headers if found and found[0][1] == it), None)
    if header is None:
        raise Fault(name, f"its first record has to be {' or '.join(map(','.join, headers))}", 1)
    for line, it in found[1:]:
        if len(it) != len(header):
            raise Fault(name, f"{len(header)} fields are wanted ({','.join(header)}), and there are {len(it)}", line)
    return found[1:]


def number(name, line, text, most):
    """A number of 1 to 20 digits, at most so great."""
    if not (text.isascii() and text.isdigit() and len(text) <= 20) or int(text) > most:
        raise Fault(name, f"'{text}' is no number from 0 to {most}", line)
    return int(text)


def field(text):
    """A field as it stands in a file: in quotes where it has a comma, a quote or a line's end (RFC 4180 2)."""
    return '"' + text.replace('"', '""') + '"' if QUOTED.search(text) else text


def put_lines(lines, name):
    """Writes a file of records."""
    put(name, (",".join(map(field, it)) + "\n" for it in lines))


def put_text(text, name):
    put(name, [text])


def put_octets(octets, name):
    with new_file(name, "wb") as file:
        file.write(octets)


def put(name, texts):
    with new_file(name, "w", newline="", encoding="utf-8") as file:
        file.writelines(texts)


@contextlib.contextmanager
def new_file(name, *how, **more):
    """A file that is there whole or not at all: it is written under another name, and renamed when the disk has it."""
    new = f"{name}.new"
    try:
        with open(new, *how, **more) as file:
            yield file
            file.flush()
            os.fsync(file.fileno())
    except BaseException:
        with contextlib.suppress(OSError):
            os.remove(new)  # (which gives a full disk its room back)
        raise
    rename(new, name)


def rename(old, new):
    """Renames; what rests on it comes after the disk has it, so that it stands though the machine goes down."""
    os.rename(old, new)
    sync_folder(os.path.dirname(new) or ".")


def sync_folder(folder):
    """Has the disk take the names in a folder."""
    opened = os.open(folder, os.O_RDONLY | os.O_DIRECTORY)
    try:
        os.fsync(opened)
    finally:
        os.close(opened)
