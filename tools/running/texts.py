"""Texts that the tools can't read as they are: compressed ones, and those of other encodings."""

# What compressed contents begin with, and how their files are called.
COMPRESSED = {b'\x1f\x8b': 'gzip', b'\xfd7zXZ': 'xz', b'\x28\xb5\x2f\xfd': 'zstd', b'BZh': 'bzip2'}
SUFFIXES = {'.gz': 'gzip', '.xz': 'xz', '.zst': 'zstd', '.bz2': 'bzip2'}
UNPACK = 'is compressed (%s): unpack it first'
# How many bytes `flaw_of` needs at most.
FRONT = 8


def flaw_of(front):
    """What is wrong with a text that begins with these bytes, after its name; or None."""
    for magic, kind in COMPRESSED.items():
        if front.startswith(magic):
            return UNPACK % kind
    if front.startswith(b'\xef\xbb\xbf'):
        return 'begins with a byte order mark: save it without one'
    if front.startswith((b'\xff\xfe', b'\xfe\xff')) or b'\0' in front[:2]:
        return 'is in UTF-16: save it in ASCII'
    return None
