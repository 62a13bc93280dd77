#!/usr/bin/env python3
"""Measures the built program over large inputs: seconds, MB/s and peak memory. Run by hand: bench/wire.py"""
import base64
import json
import os
import subprocess
import sys
import tempfile
import time

TOP = os.path.dirname(os.path.dirname(os.path.abspath(__file__)))
PROGRAM = [os.path.join(TOP, "bin", "es_node"), "replay"]
MIB = 1 << 20
TERM = b'{"term":{"k":"k7"}}'
RANGE = b'{"range":{"n":{"gte":4000,"lt":4100}}}'
BOOL = b'{"bool":{"must":[{"term":{"k":"k7"}},{"range":{"n":{"gte":2000}}}],"must_not":{"range":{"n":{"gte":9000}}}}}'
ONE_SHARD = b'{"bool":{"filter":[{"term":{"s":3}},{"range":{"n":{"lt":100}}}]}}'
NO_SHARD = b'{"term":{"n":10000}}'


def request(line, *body):
    """A request in pieces, so that this process stays small: its memory would count as the program's."""
    yield b"%s HTTP/1.1\r\ncontent-length: %d\r\n\r\n" % (line, sum(map(len, body)))
    yield from body


def one_document(size):
    head, tail = b'{"t":"', b'"}'
    texts, odd = divmod(size - len(head) - len(tail), MIB)
    yield from request(b"PUT /docs/_doc/a", head, *[b"x" * MIB] * texts, b"x" * odd, tail)


def many_documents(count):
    for number in range(count):
        yield from request(b"PUT /docs/_doc/d%d" % number, b'{"n":%d}' % number)
    yield from request(b"POST /docs/_refresh")
    yield from request(b"POST /docs/_pit?keep_alive=1m")
    pit = b'{"pit":{"id":"UAAAAAAAAAAB"},"size":100'
    yield from request(b"POST /_search", pit, b"}")
    for after in range(99, count, 100):
        yield from request(b"POST /_search", pit, b',"search_after":[%d]}' % after)


def sorted_documents(count, pages, size):
    """So many documents in one shard, and so many pages of them in a point in time, by a whole number that is in no order."""
    yield from request(b"PUT /t", b'{"mappings":{"properties":{"n":{"type":"long"}}}}')
    numbers = [place * 7919 % count for place in range(count)]
    lines = b"".join(b'{"index":{"_id":"d%d"}}\n{"n":%d}\n' % (place, n) for place, n in enumerate(numbers))
    yield from request(b"POST /t/_bulk?refresh", lines)
    yield from request(b"POST /t/_pit?keep_alive=1m")
    places = {n: place for place, n in enumerate(numbers)}
    for page in range(pages):
        last = page * size - 1
        after = b',"search_after":[%d,%d]' % (last, places[last]) if page else b""
        yield from request(b"POST /_search", b'{"pit":{"id":"UAAAAAAAAAAB"},"size":%d,"sort":["n"]%s}' % (size, after))


def openings(documents, count):
    """So many documents in one shard, and so many points in time of them, with no refresh between."""
    yield from request(b"PUT /t", b'{"mappings":{"properties":{"n":{"type":"long"}}}}')
    lines = b"".join(b'{"index":{"_id":"d%d"}}\n{"n":%d}\n' % (number, number) for number in range(documents))
    yield from request(b"POST /t/_bulk?refresh", lines)
    for _ in range(count):
        yield from request(b"POST /t/_pit?keep_alive=1m")


def idle(documents, searches, refreshes):
    """So many documents in one shard, which are refreshed once. Then so many searches and refreshes in turn, a refresh first."""
    yield from request(b"PUT /t", b'{"mappings":{"properties":{"n":{"type":"long"}}}}')
    if documents:
        lines = b"".join(b'{"index":{"_id":"d%d"}}\n{"n":%d}\n' % (number, number) for number in range(documents))
        yield from request(b"POST /t/_bulk?refresh", lines)
    for number in range(max(searches, refreshes)):
        if number < refreshes:
            yield from request(b"POST /t/_refresh")
        if number < searches:
            yield from request(b"POST /t/_search", b'{"size":10}')


def pit_id(number):
    return base64.urlsafe_b64encode(b"P" + number.to_bytes(8, "big"))


def generated(count):
    """Bulks of 500 documents, each but the first with a removal, and a refresh and a point in time after each. Then all documents of
    the keyword `g0` that each point in time sees, in pages of 50; the points in time are closed, and the documents counted."""
    fields = b'"n":{"type":"long"},"g":{"type":"keyword"}'
    yield from request(b"PUT /gen", b'{"settings":{"number_of_shards":2},"mappings":{"properties":{%s}}}' % fields)
    for bulk in range(count):
        numbers = range(500 * bulk, 500 * bulk + 500)
        lines = b"".join(b'{"index":{"_id":"d%d"}}\n{"n":%d,"g":"g%d"}\n' % (n, n, n % 1000) for n in numbers)
        removal = b'{"delete":{"_id":"d%d"}}\n' % (500 * bulk - 499) if bulk else b""
        yield from request(b"POST /gen/_bulk", lines, removal)
        yield from request(b"POST /gen/_refresh")
        yield from request(b"POST /gen/_pit?keep_alive=1d")
    for pit in range(count):
        query = b'"size":50,"query":{"term":{"g":"g0"}},"sort":["n"]'
        for page in range((pit // 2 + 1) // 50 + 1):
            after = b',"search_after":[%d,9007199254740992]' % (1000 * (50 * page - 1)) if page else b""
            yield from request(b"POST /_search", b'{"pit":{"id":"%s"},%s%s}' % (pit_id(pit + 1), query, after))
    for pit in range(count):
        yield from request(b"DELETE /_pit", b'{"id":"%s"}' % pit_id(pit + 1))
    yield from request(b"POST /gen/_search", b'{"size":0}')


def generated_line(sink):
    """What is counted over the responses to `generated`."""
    requests = refused = documents = pages = hits = 0
    while line := sink.readline():
        requests += 1
        refused += int(line.split()[1]) >= 400
        while (line := sink.readline()) != b"\r\n":
            if line.startswith(b"content-length:"):
                length = int(line.split(b":")[1])
        body = json.loads(sink.read(length))
        if "hits" in body:
            documents = body["hits"]["total"]["value"]
        if "pit_id" in body:
            pages += 1
            hits += len(body["hits"]["hits"])
    return "requests=%d refused=%d documents=%d pages=%d hits=%d" % (requests, refused, documents, pages, hits)


def small_puts(count):
    """Small documents without a refresh between them."""
    for number in range(count):
        yield from request(b"PUT /docs/_doc/d%d" % number, b'{"n":%d}' % number)


def bulk(size, text):
    """One bulk of about that many bytes, of documents with such a text, each with an id of its own."""
    def lines():
        number = 0
        while True:
            yield b'{"index":{"_id":"%d"}}\n{"t":"%s"}\n' % (number, text)
            number += 1

    long, count = 0, 0
    for line in lines():
        if long + len(line) > size:
            break
        long, count = long + len(line), count + 1
    yield b"POST /docs/_bulk HTTP/1.1\r\ncontent-length: %d\r\n\r\n" % long
    for _, line in zip(range(count), lines()):
        yield line


def many_members(count):
    """One document of so many members, put into an index of 1,000 fields."""
    fields = b",".join(b'"f%d":{"type":"long"}' % number for number in range(1000))
    yield from request(b"PUT /t", b'{"mappings":{"properties":{%s}}}' % fields)

    def members():
        for number in range(count):
            yield b'%s"f%d":%d' % (b"," if number else b"{", number, number)
        yield b"}"

    yield b"PUT /t/_doc/a HTTP/1.1\r\ncontent-length: %d\r\n\r\n" % sum(map(len, members()))
    yield from members()


def many_shards(rounds):
    """Puts, each with a refresh of an index of 1,024 shards."""
    yield from request(b"PUT /s", b'{"settings":{"number_of_shards":1024}}')
    for number in range(rounds):
        yield from request(b"PUT /s/_doc/d%d?refresh" % number, b"{}")


def searched(count, query):
    """So many searches for 10 of 10,000 documents in 5 shards. The field `n` rises, `k` has 100 keywords, and `s` is the shard."""
    fields = b'"n":{"type":"long"},"k":{"type":"keyword"},"s":{"type":"long"}'
    yield from request(b"PUT /t", b'{"settings":{"number_of_shards":5},"mappings":{"properties":{%s}}}' % fields)
    lines = b"".join(
        b'{"index":{"_id":"d%d"}}\n{"n":%d,"k":"k%d","s":%d}\n' % (n, n, n % 100, shard_of(b"d%d" % n, 5)) for n in range(10000)
    )
    yield from request(b"POST /t/_bulk?refresh", lines)
    for _ in range(count):
        yield from request(b"POST /t/_search", b'{"query":', query, b"}")


def shard_of(name, shards):
    """FNV-1a in 32 bits."""
    h = 2166136261
    for byte in name:
        h = (h ^ byte) * 16777619 % (1 << 32)
    return h % shards


def many_terms(size):
    """A search of an empty index for about that many bytes of terms, of which one has to match."""
    term = b'{"term":{"k":"abcdefghijklmnopqrstuvwxyz"}}'
    count = size // (len(term) + 1)
    head, tail = b'{"query":{"bool":{"should":[', b"]}}}"
    length = len(head) + count * (len(term) + 1) - 1 + len(tail)
    yield b"POST /docs/_search HTTP/1.1\r\ncontent-length: %d\r\n\r\n" % length
    yield head
    for number in range(count):
        yield term if number == 0 else b"," + term
    yield tail


def served(sink):
    """How many responses of a good status there are, read in pieces, since a bulk's response is one long line."""
    mark, count, rest = b"HTTP/1.1 20", 0, b""
    while piece := sink.read(MIB):
        piece = rest + piece
        count += piece.count(mark)
        rest = piece[1 - len(mark):]
    return count


def measure(pieces, look=served):
    """The bytes of the input, seconds, the peak memory of the run in bytes, how many requests there are, and what is seen in the output."""
    with tempfile.TemporaryFile() as source, tempfile.TemporaryFile() as sink:
        requests = 0
        for piece in pieces:
            requests += piece.count(b" HTTP/1.1\r\n")
            source.write(piece)
        size = source.tell()
        source.seek(0)
        began = time.monotonic()
        child = subprocess.Popen(PROGRAM, stdin=source, stdout=sink)
        _, status, usage = os.wait4(child.pid, 0)
        seconds = time.monotonic() - began
        sink.seek(0)
        seen = look(sink)
    if status != 0:
        sys.exit("status %d" % status)
    return size, seconds, usage.ru_maxrss * 1024, requests, seen


def processor():
    with open("/proc/cpuinfo") as lines:
        return next((l.split(":")[1].strip() for l in lines if l.startswith("model name")), "unknown")


def table(rows):
    print("\n| input | bytes | seconds | MB/s | peak MiB |\n|---|---|---|---|---|")
    found = {}
    for name, pieces in rows:
        size, seconds, peak, requests, good = measure(pieces)
        if good != requests:
            sys.exit("%s: %d of %d requests were served" % (name, good, requests))
        found[name] = (size, seconds, peak)
        print("| %s | %d | %.3f | %.1f | %.1f |" % (name, size, seconds, size / seconds / 1e6, peak / MIB))
    return found


def main():
    measure(many_documents(1))  # builds the program where that wasn't done yet
    print(processor())
    found = table((
        ("one document of 16 MiB", one_document(16 * MIB)),
        ("one document of 64 MiB", one_document(64 * MIB)),
        ("bulk of 16 MiB, 4 KB each", bulk(16 * MIB, b"x" * 4064)),
        ("bulk of 64 MiB, 4 KB each", bulk(64 * MIB, b"x" * 4064)),
        ("bulk of 16 MiB, 40 bytes each", bulk(16 * MIB, b"x" * 30)),
        ("bulk of 64 MiB, 40 bytes each", bulk(64 * MIB, b"x" * 30)),
        ("20,000 small puts", small_puts(20000)),
        ("80,000 small puts", small_puts(80000)),
        ("100,000 members, 1,000 fields", many_members(100000)),
        ("1,000,000 members, 1,000 fields", many_members(1000000)),
        ("100 refreshes of 1,024 shards", many_shards(100)),
        ("400 refreshes of 1,024 shards", many_shards(400)),
        ("a query of 25 MB", many_terms(25000000)),
        ("a query of 100 MB", many_terms(100000000)),
        ("no search", searched(0, b"")),
        ("2,000 searches, term", searched(2000, TERM)),
        ("2,000 searches, range", searched(2000, RANGE)),
        ("2,000 searches, bool", searched(2000, BOOL)),
        ("2,000 searches, one shard", searched(2000, ONE_SHARD)),
        ("2,000 searches, no shard", searched(2000, NO_SHARD)),
        ("20,000 documents, no page", sorted_documents(20000, 0, 1000)),
        ("20,000 documents, 20 pages of 1,000 in order", sorted_documents(20000, 20, 1000)),
        ("20,000 documents, 2 pages of 10,000 in order", sorted_documents(20000, 2, 10000)),
        ("20,000 documents, idle", idle(20000, 0, 0)),
        ("20,000 documents, 100 searches", idle(20000, 100, 0)),
        ("no documents, 100 refreshes", idle(0, 0, 100)),
        ("20,000 documents, 100 refreshes with a search after each", idle(20000, 100, 100)),
        ("1,000 documents, 1 opening", openings(1000, 1)),
        ("1,000 documents, 400 openings", openings(1000, 400)),
        ("20,000 documents, 1 opening", openings(20000, 1)),
        ("20,000 documents, 400 openings", openings(20000, 400)),
        ("1,000 documents", many_documents(1000)),
        ("4,000 documents", many_documents(4000)),
    ))
    failed = False
    print()
    for small, large in (
        ("one document of 16 MiB", "one document of 64 MiB"),
        ("bulk of 16 MiB, 4 KB each", "bulk of 64 MiB, 4 KB each"),
        ("bulk of 16 MiB, 40 bytes each", "bulk of 64 MiB, 40 bytes each"),
        ("20,000 small puts", "80,000 small puts"),
        ("a query of 25 MB", "a query of 100 MB"),
    ):
        longer = found[large][1] / found[small][1]
        print("%s: %.2f times as long as %s (at most 5)" % (large, longer, small))
        failed = failed or longer > 5
    for name in ("one document of 64 MiB", "bulk of 64 MiB, 4 KB each"):
        memory = found[name][2] / (64 * MIB)
        print("%s: %.2f times the body in memory (at most 8)" % (name, memory))
        failed = failed or memory > 8
    for name in ("term", "range", "bool", "one shard", "no shard"):
        seconds = found["2,000 searches, " + name][1] - found["no search"][1]
        print("%s: %d searches a second" % (name, 2000 / seconds))
    for pages, size in ((20, "1,000"), (2, "10,000")):
        seconds = found["20,000 documents, %d pages of %s in order" % (pages, size)][1] - found["20,000 documents, no page"][1]
        print("a page of %s of 20,000 documents in order: %.1f ms" % (size, seconds / pages * 1000))
    base = found["20,000 documents, idle"][1]
    apart = found["20,000 documents, 100 searches"][1] - base + found["no documents, 100 refreshes"][1]
    both = found["20,000 documents, 100 refreshes with a search after each"][1] - base
    print("100 refreshes of 20,000 idle documents with a search after each: %.1f ms (at most %.1f, a fifth more than apart)" % (both * 1000, apart * 1200))
    failed = failed or both > 1.2 * apart
    for documents in ("1,000", "20,000"):
        one, many = found["%s documents, 1 opening" % documents], found["%s documents, 400 openings" % documents]
        memory = many[2] - one[2]
        print("399 further openings of %s documents: %.1f ms, %.2f MiB (at most 2)" % (documents, (many[1] - one[1]) * 1000, memory / MIB))
        failed = failed or memory > 2 * MIB
    for count, line in (
        (4, "requests=22 refused=0 documents=1997 pages=4 hits=6"),
        (40, "requests=202 refused=0 documents=19961 pages=40 hits=420"),
    ):
        _, seconds, _, _, seen = measure(generated(count), generated_line)
        print("%d bulks of 500: %s in %.3f s" % (count, seen, seconds))
        failed = failed or seen != line
    print("20,000 small puts: %d requests a second" % (20000 / found["20,000 small puts"][1]))
    sys.exit(failed)


if __name__ == "__main__":
    main()
