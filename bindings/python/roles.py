"""Three threads that block, and two over TCP: they come to their end whichever number each thread has."""
import itertools

import detio


def again(io, call, *words):
    """Makes a call until it is not interrupted, and lets the others go before it each time."""
    while True:
        try:
            return call(*words)
        except (InterruptedError, BlockingIOError):
            io.work(64)


def maker(io):
    io.pipe()  # numbers 0 and 1, for all threads
    io.pipe()  # numbers 2 and 3
    for number in range(200):
        again(io, io.write, 1, bytes([number]))
    io.close(1)


def squarer(io):
    io.work(100)  # the pipes are there by then
    while True:
        got = again(io, io.read, 0, 1)
        if not got:
            break
        again(io, io.write, 3, bytes([got[0] * got[0] % 256]))
    io.close(3)


def summer(io):
    io.work(100)
    total = 0
    while True:
        got = again(io, io.read, 2, 1)
        if not got:
            return total
        total += got[0]


def server(io):
    listener = io.tcp_listen()  # number 0
    io.setfl(listener, nonblock=True)  # an accept that waits would keep the table
    stream = again(io, io.tcp_accept, listener)
    again(io, io.write, stream, again(io, io.read, stream, 9).upper())


def client(io):
    io.work(300)  # the listener is there by then
    stream = io.tcp_connect(io.fstat(0)[1])
    again(io, io.write, stream, b'hello')
    return again(io, io.read, stream, 9)


if __name__ == '__main__':
    for roles in (maker, squarer, summer), (server, client):
        for order in itertools.permutations(roles):
            result = detio.Run(*order, patience=5).record().check()
            print(*(it.__name__ for it in order), next(it for it in result.values if it))
