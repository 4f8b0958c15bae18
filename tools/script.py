#!/usr/bin/env python3
"""Writes what crate `test_script` must print, by a store of Python's own dicts and MD5.

usage: tools/script.py < crates/test_script/stdin > crates/test_script/stdout

Only the front of tables and arena (TABLES, ARENA) follows docs/LAYOUT.md; all else is the machine of documents 01 and 02.
"""
import hashlib
import sys


# Bytes that are no UTF-8 pass through text as they are.
ANY = "surrogateescape"


class Refused(Exception):
    pass


def md5(data):
    return hashlib.md5(data).digest()


def need(condition, number):
    if not condition:
        raise Refused(number)


def path_ok(path):
    """Document 01's rule with E2's, by Python's own decoder."""
    try:
        letters = [ord(c) for c in path.decode("utf-8")]
    except UnicodeDecodeError:
        return False
    return 1 <= len(path) <= 128 and all(33 <= c <= 126 or 160 <= c for c in letters) and b"//" not in path and path[:1] != b"/"


def kept(pairs):
    """What is kept of a request's pairs, E6; they are bad where one breaks its rule, more than 8 are left, or two keys are equal."""
    for key, value in pairs:
        need(1 <= len(key) <= 32 and all(c in b"abcdefghijklmnopqrstuvwxyz0123456789-" for c in key), 2)
        need(len(value) <= 64 and all(32 <= c <= 126 for c in value), 2)
    left = [(key, value) for key, value in pairs if key not in (b"size", b"created", b"etag")]
    need(len(left) <= 8 and len(dict(left)) == len(left), 2)
    return tuple(sorted(left))


def held(pairs):
    return sum(len(key) + len(value) for key, value in pairs)


def encoded(pairs):
    return b"".join(bytes([len(key)]) + key + bytes([len(value)]) + value for key, value in pairs)


def low_first(n, size):
    return n.to_bytes(size, "little")


class Store:
    def __init__(self, length):
        self.length, self.objects, self.uploads, self.next = length, {}, {}, 1

    def fit(self, objects, uploads):
        """The ceilings, of the state after a call: counts first, then bytes."""
        parts = [data for upload in uploads.values() for data in upload[2].values()]
        need(len(objects) <= 256 and len(uploads) <= 16 and len(parts) <= 256, 4)
        of_pairs = sum(held(o[4]) for o in objects.values()) + sum(held(u[3]) for u in uploads.values())
        need(sum(len(o[0]) for o in objects.values()) + sum(map(len, parts)) + of_pairs <= self.length, 5)
        self.objects, self.uploads = objects, uploads

    def put(self, stamp, path, data, pairs):
        need(stamp >= 1 and path_ok(path), 2)
        self.fit({**self.objects, path: (data, stamp, md5(data), None, kept(pairs))}, self.uploads)

    def find(self, path):
        need(path_ok(path), 2)
        need(path in self.objects, 3)
        return self.objects[path]

    def copy(self, stamp, source, destination):
        need(stamp >= 1 and path_ok(destination), 2)
        data, _, _, _, pairs = self.find(source)
        self.put(stamp, destination, data, pairs)

    def delete(self, path):
        self.find(path)
        del self.objects[path]

    def delete_objects(self, names, places, left_over, room):
        need(len(places) <= 1000, 8)
        need(not left_over, 2)
        need(len(places) <= room, 7)
        return bytes(self.result_of_delete(names, start, length) for start, length in places)

    def result_of_delete(self, names, start, length):
        try:
            need(start + length <= len(names), 2)
            self.delete(names[start:start + length])
            return 0
        except Refused as refusal:
            return refusal.args[0]

    def initiate(self, stamp, path, pairs):
        need(stamp >= 1 and path_ok(path), 2)
        self.fit(self.objects, {**self.uploads, self.next: (path, stamp, {}, kept(pairs))})
        self.next += 1
        return f", upload {self.next - 1}"

    def part(self, upload, number, data):
        need(1 <= number <= 10000 and upload in self.uploads, 2)
        path, start, parts, pairs = self.uploads[upload]
        self.fit(self.objects, {**self.uploads, upload: (path, start, {**parts, number: data}, pairs)})
        return ", etag " + md5(data).hex()

    def commit(self, upload, listed):
        need(upload in self.uploads, 2)
        path, start, parts, pairs = self.uploads[upload]
        need(sorted(listed) == sorted(parts), 2)
        data = b"".join(parts[n] for n in listed)
        joined = (data, start, md5(b"".join(md5(parts[n]) for n in listed)), len(listed), pairs)
        self.fit({**self.objects, path: joined}, {n: u for n, u in self.uploads.items() if n != upload})

    def abort(self, upload):
        need(upload in self.uploads, 2)
        del self.uploads[upload]

    def sweep(self, stamp, most):
        need(stamp >= 1, 2)
        due = [number for number, upload in sorted(self.uploads.items()) if upload[1] < stamp]
        for number in due[:most]:
            self.abort(number)
        return f", swept {len(due[:most])}, more {int(most < len(due))}"

    def listing(self, prefix, suffix):
        for path, (data, created, digest, count, _) in sorted(self.objects.items()):
            if path.startswith(prefix) and path[len(prefix):].endswith(suffix):
                text = etag(digest, count).encode()
                sizes = low_first(len(data), 4) + low_first(created, 8)
                yield bytes([len(path)]) + path + sizes + bytes([len(text)]) + text

    def opened(self, prefix):
        for number, (path, start, parts, _) in sorted(self.uploads.items()):
            if path.startswith(prefix):
                yield low_first(number, 4) + bytes([len(path)]) + path + low_first(start, 8) + low_first(len(parts), 2)

    def memory(self):
        """docs/LAYOUT.md: the header and the rows; the rows' data."""
        parts = sum(len(u[2]) for u in self.uploads.values())
        tables = low_first(self.length, 4) + low_first(self.next, 8)
        tables += low_first(len(self.objects), 2) + low_first(len(self.uploads), 2) + low_first(parts, 2)
        arena = b""

        def row(size, number, stamp, kind, count, digest, path, pairs=()):
            sizes = low_first(size, 4) + low_first(number, 4) + low_first(stamp, 8)
            lengths = bytes(n for key, value in pairs for n in (len(key), len(value)))
            return sizes + bytes([kind + 4 * len(pairs), len(path)]) + low_first(count, 2) + digest + path + lengths

        def block(pairs):
            return b"".join(key + value for key, value in pairs)

        for path, (data, created, digest, count, pairs) in sorted(self.objects.items()):
            size = held(pairs) + len(data)
            tables += row(size, 0, created, 0 if count is None else 1, count or 0, digest, path, pairs)
            arena += block(pairs) + data
        for number, (path, start, parts, pairs) in sorted(self.uploads.items()):
            tables += row(held(pairs), number, start, 2, 0, bytes(16), path, pairs)
            arena += block(pairs)
            for part, data in sorted(parts.items()):
                tables += row(len(data), part, 0, 3, 0, md5(data), b"")
                arena += data
        return tables, arena


def etag(digest, count):
    return digest.hex() + ("" if count is None else f"-{count}")


def metadata(store, path):
    """The data, what is said of them, and the pairs."""
    if path == b"":
        return b"", ", length 0, created 0, etag absent", ()
    data, created, digest, count, pairs = store.find(path)
    return data, f", length {len(data)}, created {created}, etag {etag(digest, count)}", pairs


def looked(store, path, room, second):
    """GET and HEAD, with room for so many bytes of data, over a second buffer of so many: what is said, the data, the second buffer."""
    data, said, pairs = metadata(store, path)
    written = encoded(pairs)
    need(room is None or len(data) <= room, 7)
    need(len(written) <= second, 7)
    counts = f", pairs {len(pairs)}, bytes {len(written)}" if second else ""
    return ": 0" + said + counts, data, written + b"." * (second - len(written))


def pairs_of(text):
    """A list of pairs; a byte left over becomes one with an empty key, which breaks the rule."""
    entries = text.split(b",") if text else []
    return [(b"", b"") if entry == b"+" else tuple((entry.split(b"=", 1) + [b""])[:2]) for entry in entries]


def parts_of(text):
    """A part list's numbers; a byte left over becomes number 0, which no upload has."""
    return [0 if n == "+" else int(n) for n in text.split(",")] if text else []


def places_of(text):
    """A list of places, each a start and a length, and whether bytes are left over after them."""
    places = []
    for entry in text.removesuffix("+").removesuffix(",").split(",") if text.rstrip("+") else []:
        places += [(0, 0)] * int(entry[1:]) if entry[0] == "*" else [tuple(map(int, entry.split(":")))]
    return places, text.endswith("+")


def answer(store, word, fields):
    """What is printed after the line, and each answer buffer after it, which starts as dots."""
    texts = [b"" if f == "~" else f.encode(errors=ANY) for f in fields] + [b"", b"", b""]
    number = int(fields[0]) if fields and fields[0].isdigit() else 0
    if word in ("TABLES", "ARENA"):
        return "", [store.memory()[word == "ARENA"][:number]]
    if word in ("GET", "HEAD"):
        place = 2 if word == "GET" else 1
        second = int(fields[place]) if len(fields) > place else 0
        buffers = ([b"." * number] if word == "GET" else []) + ([b"." * second] if second else [])
        try:
            said, data, pairs = looked(store, texts[place - 1], number if word == "GET" else None, second)
            first = [data + buffers[0][len(data):]] if word == "GET" else []
            return said, first + ([pairs] if second else [])
        except Refused as refusal:
            return f": {refusal}", buffers
    if word in ("LIST", "UPLOADS", "DELETE_OBJECTS"):
        buffer = b"." * number
        try:
            if word == "DELETE_OBJECTS":
                data, said = store.delete_objects(texts[1], *places_of(texts[2].decode()), number), ""
            else:
                records = list(store.listing(texts[1], texts[2]) if word == "LIST" else store.opened(texts[1]))
                data = b"".join(records)
                said = f", records {len(records)}, bytes {len(data)}"
            need(len(data) <= number, 7)
            return ": 0" + said, [data + buffer[len(data):]]
        except Refused as refusal:
            return f": {refusal}", [buffer]
    calls = {
        "DELETE": lambda: store.delete(texts[0]),
        "PUT": lambda: store.put(number, texts[1], texts[2], pairs_of(texts[3])),
        "COPY": lambda: store.copy(number, texts[1], texts[2]),
        "INITIATE": lambda: store.initiate(number, texts[1], pairs_of(texts[2])),
        "PART": lambda: store.part(number, int(fields[1]), texts[2]),
        "COMMIT": lambda: store.commit(number, parts_of(texts[1].decode())),
        "ABORT": lambda: store.abort(number),
        "SWEEP": lambda: store.sweep(number, int(fields[1])),
    }
    try:
        return ": 0" + (calls[word]() or ""), []
    except Refused as refusal:
        return f": {refusal}", []


WORDS = "TABLES ARENA HEAD GET LIST UPLOADS DELETE PUT COPY INITIATE PART COMMIT ABORT DELETE_OBJECTS SWEEP".split()
store = Store(0)
for stream in (sys.stdin, sys.stdout):
    stream.reconfigure(encoding="utf-8", errors=ANY)
for line in sys.stdin.read().split("\n")[:-1]:
    word, *fields = line.split(" ")
    if word == "FRESH":
        store = Store(int(fields[0]))
        print(line + ": 0")
        continue
    if word not in WORDS:
        print(line)
        continue
    said, buffers = answer(store, word, fields)
    print(line + said)
    for i, buffer in enumerate(buffers):
        print("   " + (" " + buffer.decode() if word == "GET" and i == 0 else "".join(f" {byte}" for byte in buffer)))
