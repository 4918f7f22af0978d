"""Pages of format 4, by a second program. It prints the worked pages of docs/FORMATS.md."""
import hashlib
import struct

ID = bytes(range(16))
FRONT = ID[:8]


def sha(text):
    return hashlib.sha256(text).digest()


def pad(text):
    """A page or more that begins with these bytes."""
    return text + bytes(-len(text) % 4096)


def section(version, extents, pages, sections, number, device, recorded, records):
    """The bytes of a section of the superblock, and their digest."""
    text = b"CSS4" + struct.pack(">QHHBBQ", version, extents, pages, sections, number, device) + ID + struct.pack(">Q", recorded)
    text += b"".join(struct.pack(">HI", pointer, generation) for pointer, generation in records)
    return text, sha(text)


def root(version, commands, runs):
    """The bytes of a root, and their digest."""
    text = b"CSR4" + struct.pack(">QQ", version, commands) + ID + bytes([len(runs)]) + b"".join(place(*it) for it in runs)
    return text, sha(text)


def place(extent, page, generation, mark):
    return struct.pack(">HHI", extent, page, generation) + mark


def head(name, number, count, command):
    """What a chunk ends with."""
    return name + bytes([number, count]) + struct.pack(">Q", command) + FRONT


def run(entries):
    """The payload of a run of these identifiers, each with its places."""
    return FRONT + struct.pack(">I", len(entries)) + b"".join(name + bytes([len(places)]) + b"".join(places) for name, places in sorted(entries.items()))


def frame(kind, payload):
    """The three parts of a frame: what stands before its digest, the digest, whose first eight bytes are its mark, and the payload."""
    return b"CSF4" + bytes([kind]) + struct.pack(">I", len(payload)), sha(payload), payload


def words(text, size=4):
    return " ".join(text[at:at + size].hex() for at in range(0, len(text), size))


def main():
    a, b = bytes(15) + b"\x0a", bytes(15) + b"\x0b"
    chunk_a, chunk_b = frame(0, b"a" + head(a, 0, 1, 1)), frame(0, b"b" + head(b, 0, 1, 2))
    of_both = frame(1, run({a: [place(0, 0, 0, chunk_a[1][:8])], b: [place(0, 1, 0, chunk_b[1][:8])]}))
    for name, (text, digest) in (
            ("new section", section(1, 6, 2, 1, 0, 16, 0, [(0, 0)] * 6)),
            ("section 4", section(4, 6, 2, 1, 0, 16, 1, [(2, 0), (1, 0)] + [(0, 0)] * 4)),
            ("second of three", section(7, 6, 300, 3, 1, 1808, 5, [(299, 0), (0, 1)])),
            ("root 1", root(1, 0, [])),
            ("root 2", root(2, 2, [(1, 0, 0, of_both[1][:8])]))):
        print(name, len(text) + 32, 4096 - len(text) - 32)
        print(text.hex())
        print(words(digest))
    for name, (header, digest, payload) in (("chunk a", chunk_a), ("chunk b", chunk_b), ("run", of_both)):
        print(name, len(payload), 4096 - 41 - len(payload))
        print(header.hex(), digest.hex(), payload.hex(), sep="\n")
        print("mark", digest[:8].hex())


if __name__ == "__main__":
    main()
