"""Where a script's objects lie: what the generators of scripts share."""


def place(key, parts):
    """The one of so many partitions that holds an object without a bucket."""
    number = 7
    for byte in b"\0" + key.encode():
        number = (31 * number + byte) % 65536
    return 1 + number % parts
