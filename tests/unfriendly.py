"""Unfriendly clients of `relay serve`, in a process of their own: `python3 unfriendly.py PORT COUNT KIND`. Each has a connection, and another
one whenever that is closed, until standard input ends. It says `begun` once each has connected."""
import socket
import sys
import threading

ENDED = threading.Event()
HEAD = b"PUT /books/_doc/%s HTTP/1.1\r\nHost: a\r\nContent-Length: %d\r\n\r\n"


def trickles(stream):
    """Sends a request a byte at a time, ten in a second."""
    for byte in HEAD % (b"slow", 10**6) + b" " * 10**6:
        if ENDED.wait(0.1):
            return
        stream.sendall(bytes([byte]))


def never_reads(stream):
    """Sends requests, more than whose answers the system keeps, and reads no answer."""
    stream.settimeout(0.2)
    try:
        stream.sendall(b"GET /_relay/metrics HTTP/1.1\r\nHost: a\r\n\r\n" * 2_000)
    except TimeoutError:
        pass
    ENDED.wait()


def sends_on(stream):
    """Sends a body above the limit, and goes on whatever it is answered: some 6 MB in a second."""
    stream.sendall(HEAD % (b"long", 10**9))
    while not ENDED.wait(0.01):
        stream.sendall(b" " * 65_536)


def client(port, act, begun):
    while not ENDED.is_set():
        try:
            with socket.socket() as stream:
                if act is never_reads:
                    stream.setsockopt(socket.SOL_SOCKET, socket.SO_RCVBUF, 4_096)
                stream.connect(("127.0.0.1", port))
                begun.release()
                act(stream)
        except OSError:
            ENDED.wait(0.01)


def main(port, count, kind):
    begun = threading.Semaphore(0)
    for _ in range(count):
        threading.Thread(target=client, args=(port, kind, begun), daemon=True).start()
    for _ in range(count):
        begun.acquire()
    print("begun", flush=True)
    sys.stdin.read()
    ENDED.set()


if __name__ == "__main__":
    main(int(sys.argv[1]), int(sys.argv[2]), {it.__name__: it for it in (trickles, never_reads, sends_on)}[sys.argv[3]])
