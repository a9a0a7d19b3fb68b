"""Many connections at once, each of which asks for the same again and again, by several processes."""
import multiprocessing
import os
import select
import socket
import threading
import time
from contextlib import ExitStack

# the longest that a reply may take
SECONDS = 60
READ = 1 << 16
FORKED = multiprocessing.get_context("fork")


def connect(port):
    sock = socket.create_connection(("127.0.0.1", port), timeout=SECONDS)
    sock.setsockopt(socket.IPPROTO_TCP, socket.TCP_NODELAY, 1)
    return sock


def take(sock, size):
    """Reads so many bytes."""
    while size:
        count = len(sock.recv(min(size, READ)))
        if not count:
            raise RuntimeError("a server ended a connection")
        size -= count


def reply_size(port, text):
    """The bytes of the reply to a request."""
    with connect(port) as sock, sock.makefile("rb") as replies:
        sock.sendall(text)
        line = replies.readline()
        if line.split(b" ")[1:2] != [b"200"]:
            raise RuntimeError(f"answered {line}")
        size, length = len(line), None
        while (field := replies.readline()) not in (b"\r\n", b""):
            size += len(field)
            name, _, value = field.partition(b":")
            if name.lower() == b"content-length":
                length = int(value)
        return size + len(field) + length


def burst(port, text, size, count):
    """The seconds from when so many connections come at once until the last of them has had its reply."""
    with ExitStack() as stack, select.epoll() as poll:
        by_number, left, begun = {}, {}, time.perf_counter()
        for _ in range(count):
            sock = stack.enter_context(socket.socket())
            sock.setblocking(False)
            sock.connect_ex(("127.0.0.1", port))
            by_number[sock.fileno()], left[sock.fileno()] = sock, size
            poll.register(sock.fileno(), select.EPOLLOUT)
        while left:
            said = poll.poll(SECONDS)
            if not said:
                raise RuntimeError(f"{len(left)} of {count} connections have no reply")
            for number, event in said:
                if event & select.EPOLLOUT:
                    by_number[number].sendall(text)
                    poll.modify(number, select.EPOLLIN)
                    continue
                found = len(by_number[number].recv(READ))
                if not found:
                    raise RuntimeError("a server ended a connection")
                left[number] -= found
                if not left[number]:
                    del left[number]
                    poll.unregister(number)
        return time.perf_counter() - begun


def ask_on_one(sock, text, size, end):
    done = 0
    while time.perf_counter() < end:
        sock.sendall(text)
        take(sock, size)
        done += 1
    return done


def ask_on_all(socks, text, size, end):
    done, by_number, left = 0, {it.fileno(): it for it in socks}, {}
    with select.epoll() as poll:
        for number, it in by_number.items():
            poll.register(number, select.EPOLLIN)
            left[number] = size
            it.sendall(text)
        while time.perf_counter() < end:
            for number, _ in poll.poll(1):
                count = len(by_number[number].recv(READ))
                if not count:
                    raise RuntimeError("a server ended a connection")
                left[number] -= count
                if not left[number]:
                    done += 1
                    left[number] = size
                    by_number[number].sendall(text)
    return done


def ask(port, text, size, count, seconds, all_ready, told):
    """Tells how many replies came in so many seconds, on so many connections that have had one before."""
    try:
        with ExitStack() as stack:
            socks = [stack.enter_context(connect(port)) for _ in range(count)]
            for it in socks:
                it.sendall(text)
                take(it, size)
            all_ready.wait(SECONDS)
            end = time.perf_counter() + seconds
            told.send(ask_on_one(socks[0], text, size, end) if count == 1 else ask_on_all(socks, text, size, end))
    except (OSError, RuntimeError, threading.BrokenBarrierError) as error:
        told.send(str(error) or type(error).__name__)


def ask_when_due(port, text, size, each, connections, goes_on):
    """The times of replies to requests one of which is due each few seconds, on a connection that rests, as long as
    `goes_on` says. The time is from when it was due."""
    took, waiting, left = [], {}, {}
    with ExitStack() as stack, select.epoll() as poll:
        resting = [stack.enter_context(connect(port)) for _ in range(connections)]
        by_number = {it.fileno(): it for it in resting}
        for number in by_number:
            poll.register(number, select.EPOLLIN)
        due = time.perf_counter()
        while goes_on() or waiting:
            while resting and due <= time.perf_counter():
                sock = resting.pop(0)
                sock.sendall(text)
                waiting[sock.fileno()], left[sock.fileno()] = due, size
                due += each
            if waiting and time.perf_counter() - next(iter(waiting.values())) > SECONDS:
                raise RuntimeError("a request has no reply")
            for number, _ in poll.poll(max(0.001, due - time.perf_counter())):
                count = len(by_number[number].recv(READ))
                if not count:
                    raise RuntimeError("a server ended a connection")
                left[number] -= count
                if not left[number]:
                    took.append(time.perf_counter() - waiting.pop(number))
                    resting.append(by_number[number])
    return took


def processes(connections):
    """So many as leave a processor to the server."""
    return max(1, min(connections, (os.cpu_count() or 2) - 1))


def replies_a_second(port, text, size, connections, seconds):
    """`size` is that of the reply, which is the same each time."""
    count = processes(connections)
    all_ready, ran = FORKED.Barrier(count), []
    for at in range(count):
        told, tell = FORKED.Pipe(duplex=False)
        share = connections // count + (at < connections % count)
        process = FORKED.Process(target=ask, args=(port, text, size, share, seconds, all_ready, tell))
        process.start()
        ran.append((process, told))
    said = [told.recv() if told.poll(2 * SECONDS + seconds) else "no end" for _, told in ran]
    for process, _ in ran:
        process.kill()
        process.join()
    failed = sorted({it for it in said if isinstance(it, str)})
    if failed:
        raise RuntimeError(f"{connections} connections: {', '.join(failed)}")
    return sum(said) / seconds


def answer_trivially(listening, text, reply):
    """A server that looks at nothing: as many replies as the bytes that came have requests."""
    by_number, had = {}, {}
    with select.epoll() as poll:
        poll.register(listening, select.EPOLLIN)
        while True:
            for number, _ in poll.poll():
                if number == listening.fileno():
                    sock, _ = listening.accept()
                    sock.setsockopt(socket.IPPROTO_TCP, socket.TCP_NODELAY, 1)
                    by_number[sock.fileno()], had[sock.fileno()] = sock, 0
                    poll.register(sock, select.EPOLLIN)
                    continue
                try:
                    count = len(by_number[number].recv(READ))
                    whole, had[number] = divmod(had[number] + count, len(text))
                    by_number[number].sendall(reply * whole)
                except ConnectionError:
                    count = 0
                if not count:
                    by_number.pop(number).close()


def against_a_trivial_server(text, size, connections, seconds):
    """What the driver can do: a server that it shall not hold up is slower."""
    with socket.create_server(("127.0.0.1", 0), backlog=512) as listening:
        process = FORKED.Process(target=answer_trivially, args=(listening, text, bytes(size)), daemon=True)
        process.start()
        try:
            return replies_a_second(listening.getsockname()[1], text, size, connections, seconds)
        finally:
            process.kill()
            process.join()
