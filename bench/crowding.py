"""More clients than a server has places, each of which asks again and again on a connection that it keeps."""
import select
import socket
import time

from bench.driver import READ

# so many seconds are between a reply and the next request
BETWEEN = 0.5


class Client:
    """One who comes again where its connection was closed between two requests."""

    def __init__(self, port):
        self.port, self.sock, self.left, self.due, self.is_answered = port, None, 0, 0, False

    def come(self, poll, by_number):
        self.sock, self.left, self.due = socket.socket(), 0, None
        self.sock.setblocking(False)
        self.sock.connect_ex(("127.0.0.1", self.port))
        by_number[self.sock.fileno()] = self
        poll.register(self.sock, select.EPOLLOUT)

    def ask(self, poll, text, size):
        self.sock.sendall(text)
        self.left, self.due = size, None
        poll.modify(self.sock, select.EPOLLIN)

    def hear(self):
        """Whether its connection goes on."""
        found = len(self.sock.recv(READ))
        self.left -= found
        if found and not self.left:
            self.is_answered, self.due = True, time.perf_counter() + BETWEEN
        return found > 0

    def leave(self, poll, by_number, size):
        """It is to come again: at once, if it had asked."""
        if 0 < self.left < size:
            raise RuntimeError("a server ended a connection in a reply")
        del by_number[self.sock.fileno()]
        poll.unregister(self.sock)
        self.sock.close()
        self.sock, self.due = None, self.due or time.perf_counter()


def go_on(client, event, text, size, poll, by_number):
    """What an event of its socket comes to."""
    try:
        if event & select.EPOLLOUT:
            client.ask(poll, text, size)
        elif not client.hear():
            client.leave(poll, by_number, size)
    except ConnectionError:
        client.leave(poll, by_number, size)


def ask_if_due(client, text, size, poll, by_number):
    if client.due is not None and client.due <= time.perf_counter():
        if client.sock is None:
            client.come(poll, by_number)
        else:
            client.ask(poll, text, size)


def crowd(port, text, size, count, seconds):
    """The seconds until each of so many clients has had a reply, and how many had none where that is not so after so
    many seconds. `size` is that of the reply."""
    clients, by_number, begun = [Client(port) for _ in range(count)], {}, time.perf_counter()
    with select.epoll() as poll:
        while True:
            for it in clients:
                ask_if_due(it, text, size, poll, by_number)
            for number, event in poll.poll(0.01):
                if number in by_number:
                    go_on(by_number[number], event, text, size, poll, by_number)
            took, none = time.perf_counter() - begun, sum(not it.is_answered for it in clients)
            if not none or took > seconds:
                break
    for it in clients:
        if it.sock:
            it.sock.close()
    return took, none
