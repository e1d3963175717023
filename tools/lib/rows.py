"""Rows of crates/g1_rows, for the scripts beside it."""


def lists(*rows):
    """Lists of numbers as a row has them: a line for each, and `-` for an empty one."""
    return b"".join((b" ".join(b"%d" % number for number in row) or b"-") + b"\n" for row in rows)


def row(call, image, answer):
    """A row that gives this image to the call, and expects these lines, or the bytes of another image."""
    if answer.startswith(b"G1IMAGE"):
        answer = b"hex " + answer.hex().encode() + b"\n"
    return b"# It is so.\n" + call.encode() + b"\nhex " + image.hex().encode() + b"\n----\n" + answer
