"""AJPv1.3 as a container speaks it, for members that a script plays. Written from the public AJPv1.3 protocol reference."""
import contextlib
import socket
import struct
import threading

CPING, CPONG = b"\x0a", b"\x09"


def packet(payload):
    return b"AB" + struct.pack(">H", len(payload)) + payload


def text(data):
    return struct.pack(">H", len(data)) + data + b"\0"


def read_whole(link, count):
    data = b""
    while len(data) < count:
        part = link.recv(count - len(data))
        if not part:
            raise EOFError
        data += part
    return data


def read_packet(link):
    return read_whole(link, struct.unpack(">H", read_whole(link, 4)[2:])[0])


def whole_reply(page):
    """Send Headers, one Send Body Chunk and End Response, after which the link serves again."""
    head = b"\x04" + struct.pack(">H", 200) + text(b"OK") + struct.pack(">H", 1) + b"\xa0\x03" + text(str(len(page)).encode())
    return packet(head) + packet(b"\x03" + text(page)) + packet(b"\x05\x01")


def serve_link(link, answer, pong):
    """Sends `pong` for a CPing, and what `answer` gives for each other packet, until the link ends."""
    with contextlib.suppress(EOFError, OSError), link:
        link.setsockopt(socket.IPPROTO_TCP, socket.TCP_NODELAY, 1)
        while True:
            payload = read_packet(link)
            link.sendall(pong if payload == CPING else answer(link, payload))


def serve_links(door, answer, pong):
    while True:
        link, _ = door.accept()
        threading.Thread(target=serve_link, args=(link, answer, pong), daemon=True).start()


def start_member(answer, pong=packet(CPONG)):
    """A member at a port that the system gives. With an empty `pong` it answers no CPing."""
    door = socket.create_server(("127.0.0.1", 0), backlog=512)
    threading.Thread(target=serve_links, args=(door, answer, pong), daemon=True).start()
    return door.getsockname()[1]
