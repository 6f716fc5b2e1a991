"""The output of drills, written from the rules of a drill and the AJPv1.3 reference, apart from the program's own code.

vectors/serving.py makes rows of them.
"""

MASK = (1 << 64) - 1


def sizes(seed, requests):
    x = seed
    for _ in range(requests):
        x = (6364136223846793005 * x + 1442695040888963407) & MASK
        yield x >> 54


def chosen(requests):
    """How often a of factor 1 and b of factor 2 are chosen: whatever the threads do, no load is given back, so the loads decide."""
    loads, units, counts, last = [0, 0], [2, 1], [0, 0], None
    for _ in range(requests):
        after = 0 if last is None else (last + 1) % 2
        order = [after, (after + 1) % 2]
        member = min(order, key=lambda m: loads[m])
        loads[member] += units[member]
        counts[member] += 1
        last = member
    return counts


def summary(seed, requests, passes=None):
    """What is printed; of a drill whose threads take turns at a Book with the number of their passes."""
    a, b = chosen(requests)
    entries = 2 * requests
    compared = "receipts equal" if passes is None else f"passes {passes}"
    return (f"requests {requests}\na {a}\nb {b}\nbody {sum(sizes(seed, requests))}\nentries {entries}\n"
            f"{compared}\njournal good {entries}\n")


def string(text):
    return len(text).to_bytes(2, "big") + text + b"\0"


def packet(magic, payload):
    return magic + len(payload).to_bytes(2, "big") + payload


def moved(size):
    """The bytes of one exchange: the Forward Request, and the reply with its body in one chunk."""
    forward = (bytes([2, 2]) + string(b"HTTP/1.1") + string(b"/size/%d" % size) + 2 * string(b"127.0.0.1") + string(b"drill")
               + (80).to_bytes(2, "big") + bytes([0]) + (1).to_bytes(2, "big") + bytes([0xA0, 0x0B]) + string(b"drill")
               + bytes([6]) + string(b"a") + bytes([255]))
    head = bytes([4]) + (200).to_bytes(2, "big") + string(b"OK") + (1).to_bytes(2, "big") + bytes([0xA0, 0x03]) + string(b"%d" % size)
    body = bytes([3]) + size.to_bytes(2, "big") + size * b"x" + b"\0"
    end = bytes([5, 1])
    return len(packet(b"\x12\x34", forward)) + sum(len(packet(b"AB", part)) for part in (head, body, end))


def one_journal(seed):
    """The journal of one request of one thread: a is chosen first."""
    (size,) = sizes(seed, 1)
    return ("jkj 2\nlb lb R 1 0 0 60 60 2\nmember a a 1 0 A - 64 ok 0\nmember b b 2 0 A - 64 ok 0\nfrom 0 0 0 -\n"
            "e 0 0 0 select - 1 0 0 0 chosen 0 balanced 0\n"
            f"e 1 0 0 return 0 done {moved(size)} done\nend 2\n")
