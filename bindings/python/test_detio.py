"""Tests of detio.py: python3 test_detio.py, with DETIO_LIBRARY or libdetio.so beside it. With DETIO_PROGRAM, the path
of the program `detio`, what it makes of the logs is compared too."""

import os
import signal
import socket
import subprocess
import sys
import tempfile
import textwrap
import unittest
from unittest import mock

import detio


class Calls(unittest.TestCase):
    def test_each_call(self):
        def all_calls(io):
            seen = []
            a = io.open('/a', 'r+', create=True, exclusive=True)
            seen += [a, io.write(a, b'hello'), io.lseek(a, 1), io.read(a, 2), io.pread(a, 9, 3),
                     io.pwrite(a, b'J', 0), io.pread(a, 9, 0), io.fstat(a)]
            io.ftruncate(a, 2)
            seen += [io.fstat(a), io.dup(a), io.dup_from(a, 7), io.dup2(a, 9), io.getfl(a)]
            io.setfl(a, append=True)
            seen += [io.getfl(a)]
            io.link('/a', '/b')
            io.rename('/b', '/c')
            io.unlink('/c')
            io.mkdir('/d')
            io.rmdir('/d')
            seen += [io.pipe(), io.socketpair()]
            io.shutdown(5, 'write')
            io.close(a)
            return seen

        result = detio.Run(all_calls).record().check()
        self.assertEqual(result.how, 'ended')
        self.assertEqual(result.values[0], [0, 5, 1, b'el', b'lo', 1, b'Jello', ('file', 5, 1), ('file', 2, 1), 1, 7, 9,
                                            result.values[0][12], result.values[0][13], (2, 3), (4, 5)])

    def test_errors_have_names(self):
        def missing(io):
            io.open('/missing')

        result = detio.Run(missing).record()
        self.assertIsInstance(result.errors[0], FileNotFoundError)
        self.assertEqual(result.errors[0].strerror, 'ENOENT')

    def test_a_thread_that_fails_lets_the_others_go_on(self):
        def fails(io):
            raise ValueError

        def goes_on(io):
            reading, writing = io.pipe()
            io.write(writing, b'x')
            return io.read(reading, 1)

        result = detio.Run(fails, goes_on).record()
        self.assertIsInstance(result.errors[0], ValueError)
        self.assertEqual(result.values[1], b'x')


def writes_host(io, path):
    """Writes a host file and reads it again."""
    file = io.host_open(path, 'r+', create=True)
    io.write(file, b'host')
    io.lseek(file, 0)
    text = io.read(file, 10)
    io.close(file)
    return text


class Runs(unittest.TestCase):
    def setUp(self):
        self.folder = tempfile.TemporaryDirectory()
        self.log = os.path.join(self.folder.name, 'run.log')

    def tearDown(self):
        self.folder.cleanup()

    def test_host_files_are_replayed(self):
        path = os.path.join(self.folder.name, 'host.txt')

        def writes(io):
            return writes_host(io, path)

        run = detio.Run(writes, writes)
        recorded = run.record(self.log).check()
        self.assertEqual(recorded.values, [b'host', b'host'])
        os.remove(path)
        replayed = run.replay(self.log).check()
        self.assertEqual(replayed.values, recorded.values)
        # Records of two threads may stand in another order.
        self.assertEqual(len(replayed.log), len(recorded.log))
        self.assertFalse(os.path.exists(path))
        with open(self.log, 'rb') as file:
            self.assertEqual(file.read(), recorded.log)

    def test_streams_are_replayed(self):
        def client(io):
            while True:
                try:
                    stream = io.tcp_connect(24685)
                    break
                except ConnectionRefusedError:
                    io.work(10)
            io.write(stream, b'ping')
            said = io.read(stream, 10)
            io.close(stream)
            return said

        def server(io):
            listener = io.tcp_listen(24685)
            stream = io.tcp_accept(listener)
            io.write(stream, io.read(stream, 10).upper())
            io.close(stream)
            io.close(listener)

        run = detio.Run(client, server)
        recorded = run.record(self.log).check()
        self.assertEqual(recorded.values[0], b'PING')
        self.assertEqual(run.replay(self.log).check().values, recorded.values)

    def test_another_program_diverges(self):
        path = os.path.join(self.folder.name, 'host.txt')

        def opens(io):
            io.close(io.host_open(path, 'w', create=True))

        def listens(io):
            io.tcp_listen()

        detio.Run(opens).record(self.log).check()
        result = detio.Run(listens).replay(self.log)
        self.assertIsInstance(result.errors[0], detio.Stopped)
        self.assertEqual(result.how, 'stopped: the log diverged')
        with self.assertRaises(ValueError):
            detio.Run(opens, opens).replay(self.log)

    def test_records_that_nobody_asks_for(self):
        path = os.path.join(self.folder.name, 'host.txt')

        def twice(io):
            io.close(io.host_open(path, 'w', create=True))
            io.close(io.host_open(path, 'w', create=True))

        def once(io):
            io.close(io.host_open(path, 'w', create=True))

        detio.Run(twice).record(self.log).check()
        result = detio.Run(once).replay(self.log)
        self.assertEqual(result.errors, [None])
        self.assertEqual(result.how, 'stopped: the log diverged')

    def test_a_log_is_read_while_the_run_goes_on(self):
        path = os.path.join(self.folder.name, 'host.txt')
        lengths = []

        def writes(io):
            file = io.host_open(path, 'w', create=True)
            for _ in range(5):
                io.write(file, b'x')
                lengths.append(os.path.getsize(self.log))
            io.close(file)

        result = detio.Run(writes).record(self.log).check()
        # A record of a write has 27 bytes, and stands in the file before the function goes on.
        self.assertEqual([b - a for a, b in zip(lengths, lengths[1:])], [27] * 4)
        self.assertEqual(os.path.getsize(self.log), len(result.log))

    def test_a_run_that_is_killed_is_replayed_up_to_there(self):
        program = textwrap.dedent('''
            import os, signal, sys
            import detio

            def writes(io):
                file = io.host_open('host.txt', 'r+', create=True)
                for number in range(100):
                    io.write(file, b'%d' % (number % 10))
                    if number == 41 and len(sys.argv) > 1 and io.number == 0:
                        os.kill(os.getpid(), signal.SIGKILL)
                    seen[io.number] += 1
                return seen[io.number]

            seen = [0, 0]
            run = detio.Run(writes, writes)
            if len(sys.argv) > 1:
                run.record('run.log')
            result = run.replay('run.log')
            print(result.how, seen, os.path.exists('host.txt'))
            ''')
        here = os.path.dirname(os.path.abspath(detio.__file__))
        environment = dict(os.environ, PYTHONPATH=here)
        killed = subprocess.run([sys.executable, '-c', program, 'record'], cwd=self.folder.name, env=environment)
        self.assertEqual(killed.returncode, -signal.SIGKILL)
        os.remove(os.path.join(self.folder.name, 'host.txt'))
        for _ in range(2):
            again = subprocess.run([sys.executable, '-c', program], cwd=self.folder.name, env=environment,
                                   capture_output=True, text=True, check=True)
            how, seen = again.stdout.split(' [')
            self.assertEqual(how, 'stopped: the log ended')
            counts = [int(it) for it in seen.split(']')[0].split(', ')]
            self.assertEqual(counts[0], 42)
            self.assertTrue(again.stdout.endswith('False\n'))

    def test_a_torn_log_ends(self):
        path = os.path.join(self.folder.name, 'host.txt')

        def writes(io):
            file = io.host_open(path, 'w', create=True)
            io.write(file, b'x')

        run = detio.Run(writes, writes)
        run.record(self.log).check()
        with open(self.log, 'rb') as file:
            log = file.read()
        for length in range(16, len(log) - 5):
            with open(self.log, 'wb') as file:
                file.write(log[:length])
            self.assertEqual(run.replay(self.log).how, 'stopped: the log ended')
        for length in (0, 15):
            with open(self.log, 'wb') as file:
                file.write(log[:length])
            with self.assertRaises((detio.Stopped, ValueError)):
                run.replay(self.log)

    def test_sixteen_threads_see_the_same_each_time(self):
        def counts(io):
            seen = []
            for _ in range(20):
                file = io.open('/count', 'r+', create=True)
                seen.append(int(io.pread(file, 20, 0) or b'0'))
                io.pwrite(file, str(seen[-1] + 1).encode(), 0)
                io.close(file)
            return seen

        run = detio.Run(*[counts] * 16)
        first = run.record().check().values
        for _ in range(3):
            self.assertEqual(run.record().check().values, first)

    def test_a_race_is_explored(self):
        def deposit(io):
            file = io.open('/balance', 'r+', create=True)
            balance = int(io.pread(file, 20, 0) or b'0')
            io.pwrite(file, str(balance + 1).encode(), 0)
            return balance + 1

        run = detio.Run(deposit, deposit)
        found = {max(result.check().values) for result in run.explore(range(1, 30))}
        self.assertEqual(found, {1, 2})
        lost = next(r for r in run.explore(range(1, 30)) if max(r.values) == 1)
        self.assertEqual(max(run.record(seed=lost.seed).values), 1)

    def test_a_log_without_room(self):
        path = os.path.join(self.folder.name, 'host.txt')

        def opens(io):
            io.close(io.host_open(path, 'w', create=True))

        result = detio.Run(opens, opens, opens, room=20).record()
        for error in result.errors:
            self.assertIsInstance(error, detio.Stopped)
        self.assertEqual(result.how, 'stopped: the log has no room')


    def test_waits_have_a_bound(self):
        for wait in (-1, 60001, 1 << 31, (1 << 32) + 10):
            with self.assertRaises(ValueError):
                detio.Run(wait=wait)
        for wait in (0, 60000):
            self.assertEqual(detio.Run(lambda io: io.pipe(), wait=wait).record().check().values, [(0, 1)])

    def test_an_end_that_is_refused_raises(self):
        run = detio.Run(lambda io: io.pipe())
        for name in ('detio_run_finish', 'detio_run_log'):
            with mock.patch.object(detio.library, name, lambda *_: 8):
                with self.assertRaises(detio.Stopped) as refused:
                    run.record()
            self.assertEqual(refused.exception.code, 8)
        self.assertEqual(run.record().check().values, [(0, 1)])

    def test_a_host_pipe_that_nobody_reads(self):
        path = os.path.join(self.folder.name, 'fifo')
        os.mkfifo(path)
        reader = os.open(path, os.O_RDONLY | os.O_NONBLOCK)

        def writes(io):
            file = io.host_open(path, 'w')
            os.close(reader)
            io.write(file, b'x')

        before = signal.signal(signal.SIGPIPE, signal.SIG_DFL)
        try:
            result = detio.Run(writes).record()
        finally:
            signal.signal(signal.SIGPIPE, before)
        self.assertIsInstance(result.errors[0], BrokenPipeError)
        self.assertEqual(result.how, 'ended')


class Steps(unittest.TestCase):
    def test_generators_need_no_threads(self):
        def writer(io):
            reading, writing = yield io.pipe()
            yield io.work(200)
            yield io.write(writing, b'ping')
            return reading, writing

        def reader(io):
            yield io.work(50)
            said = yield io.read(0, 9)
            try:
                yield io.open('/missing')
            except FileNotFoundError as error:
                return said, error.strerror

        result = detio.Run(writer, reader).record().check()
        self.assertEqual(result.values, [(0, 1), (b'ping', 'ENOENT')])
        self.assertEqual(result.how, 'ended')

    def test_generators_and_threads_have_the_same_log(self):
        with tempfile.TemporaryDirectory() as folder:
            path, log = os.path.join(folder, 'host.txt'), os.path.join(folder, 'run.log')

            def steps(io):
                file = yield io.host_open(path, 'r+', create=True)
                yield io.write(file, b'host')
                yield io.lseek(file, 0)
                text = yield io.read(file, 10)
                yield io.close(file)
                return text

            def calls(io):
                return writes_host(io, path)

            recorded = detio.Run(steps, steps).record(log, seed=3).check()
            os.remove(path)
            replayed = detio.Run(calls, calls).replay(log, seed=3).check()
            self.assertEqual(recorded.values, replayed.values)
            self.assertEqual(len(recorded.log), len(replayed.log))
            self.assertFalse(os.path.exists(path))

    def test_a_generator_that_fails(self):
        def fails(io):
            yield io.pipe()
            raise ValueError

        def goes_on(io):
            yield io.work(50)
            return (yield io.write(1, b'x'))

        result = detio.Run(fails, goes_on).record()
        self.assertIsInstance(result.errors[0], ValueError)
        self.assertEqual(result.values[1], 1)


SCRIPTS = [
    '''host_open a.txt rw create
write 0 x686f7374
lseek 0 0 set
read 0 10
open /m rw create
write 2 x6d
close 0
''',
    '''work 50
host_open b.txt rw create
write 1 x62
pread 2 5 0
write 1 x6262
close 1
''',
]
# What is asked of the host, and the reply of each line by the rules of docs/doors.md. There is a file of five bytes
# and a folder.
HOST = [
    ('host_open none.txt r', 'fail ENOENT'),
    ('host_open none/made.txt w create', 'fail ENOENT'),
    ('host_open old.txt/under r', 'fail EIO'),
    ('host_open folder rw', 'fail EIO'),
    ('host_open folder r', 'number 0'),
    ('read 0 4', 'fail EIO'),
    ('close 0', 'done'),
    ('host_open made.txt r create', 'number 0'),
    ('read 0 4', 'data -'),
    ('host_open made.txt w', 'number 1'),
    ('write 1 x78', 'count 1'),
    ('host_open made.txt w trunc', 'number 2'),
    ('read 0 4', 'data -'),
    ('close 2', 'done'),
    ('close 1', 'done'),
    ('host_open old.txt rw append', 'number 1'),
    ('write 1 x6162', 'count 2'),
    ('lseek 1 0 set', 'number 0'),
    ('read 1 20', 'data 68656c6c6f6162'),
    ('lseek 1 -1 set', 'fail EINVAL'),
    ('lseek 1 -3 end', 'number 4'),
    ('lseek 1 2 cur', 'number 6'),
    ('lseek 1 -90 cur', 'fail EINVAL'),
    ('read 1 20', 'data 62'),
    ('host_open old.txt r', 'number 2'),
    ('read 2 2', 'data 6865'),
    ('host_open old.txt w trunc append', 'number 3'),
    ('write 3 x7a', 'count 1'),
    ('read 2 2', 'data -'),
    ('host_open old.txt w create', 'number 4'),
    ('write 4 x79', 'count 1'),
    ('close 4', 'done'),
    ('tcp_connect CLOSED', 'fail ECONNREFUSED'),
    ('tcp_listen PORT', 'number 4'),
    ('tcp_listen PORT', 'fail EADDRINUSE'),
    ('tcp_connect PORT', 'number 5'),
    ('tcp_accept 4', 'number 6'),
    ('write 5 x706f6e67', 'count 4'),
    ('read 6 2', 'data 706f'),
    ('shutdown 5 write', 'done'),
    ('read 6 9', 'data 6e67'),
    ('read 6 9', 'data -'),
    ('write 5 x21', 'fail EPIPE'),
    ('close 4', 'done'),
    ('close 6', 'done'),
    ('close 5', 'done'),
]
PROGRAM = os.environ.get('DETIO_PROGRAM')


def player(script, rows):
    """A function that makes the calls of a script, and keeps the lines that the program prints for them."""
    ways = {'write': 'count', 'read': 'data', 'pread': 'data', 'close': 'done', 'shutdown': 'done'}
    flags = {'create': 'create', 'trunc': 'truncate', 'append': 'append'}

    def play(io):
        for line in script.splitlines():
            name, *words = line.split()
            if name == 'work':
                io.work(int(words[0]))
                continue
            if name in ('open', 'host_open'):
                path, access = words[0], {'r': 'r', 'w': 'w', 'rw': 'r+'}[words[1]]
                given = {flags[it]: True for it in words[2:]}
                made = lambda: getattr(io, name)(path, access, **given)
            elif name == 'write':
                made = lambda: io.write(int(words[0]), bytes.fromhex(words[1][1:]))
            elif name == 'lseek':
                whence = {'cur': 'current'}.get(words[2], words[2])
                made = lambda: io.lseek(int(words[0]), int(words[1]), whence)
            elif name == 'shutdown':
                made = lambda: io.shutdown(int(words[0]), words[1])
            else:
                made = lambda: getattr(io, name)(*map(int, words))
            try:
                value = made()
                shown = value.hex() or '-' if isinstance(value, bytes) else value
                told = ways.get(name, 'number') + ('' if value is None else f' {shown}')
            except OSError as error:
                told = f'fail {error.strerror}'
            rows.append(f'{io.number} {len(rows)} {name} {told}'.rstrip())

    return play


@unittest.skipUnless(PROGRAM, 'DETIO_PROGRAM is not set')
class Program(unittest.TestCase):
    def setUp(self):
        self.before = os.getcwd()
        self.folder = tempfile.TemporaryDirectory()
        os.chdir(self.folder.name)
        for number, script in enumerate(SCRIPTS):
            with open(f'{number}.script', 'w') as file:
                file.write(script)
        self.rows = [[], []]
        self.run_of_both = detio.Run(*[player(*it) for it in zip(SCRIPTS, self.rows)])
        self.run_of_both.record('run.log').check()
        self.recorded = [list(it) for it in self.rows]
        os.remove('a.txt')
        os.remove('b.txt')

    def tearDown(self):
        os.chdir(self.before)
        self.folder.cleanup()

    def detio(self, *words):
        return subprocess.run([PROGRAM, *words], capture_output=True, text=True)

    def replayed(self, log):
        for rows in self.rows:
            rows.clear()
        result = self.run_of_both.replay(log)
        ends = {'ended': 'end', 'stopped: the log ended': f'stop end of log {result.thread}'}
        last = ends.get(result.how, result.how)
        return last, [list(it) for it in self.rows]

    def test_the_program_shows_a_log_of_the_library(self):
        shown = self.detio('show', '--log', 'run.log')
        self.assertEqual(shown.returncode, 0, shown.stderr)
        self.assertEqual(len(shown.stdout.splitlines()), 1 + 9 + 1, shown.stdout)

    def test_the_program_replays_it_as_the_library_does(self):
        printed = self.detio('replay', '--log', 'run.log', '0.script', '1.script')
        self.assertEqual(printed.returncode, 0, printed.stderr)
        self.assertEqual(printed.stdout.splitlines(), [*self.recorded[0], *self.recorded[1], 'end'])
        self.assertEqual(self.replayed('run.log'), ('end', self.recorded))

    def test_a_part_of_it_is_replayed_as_far_as_the_program_does(self):
        with open('run.log', 'rb') as file:
            log = file.read()
        for length in range(16, len(log), 9):
            with open('part.log', 'wb') as file:
                file.write(log[:length])
            printed = self.detio('replay', '--log', 'part.log', '0.script', '1.script').stdout.splitlines()
            for _ in range(3):
                last, rows = self.replayed('part.log')
                self.assertEqual([*rows[0], *rows[1], last], printed, f'{length} bytes')

    def test_the_program_records_what_the_library_replays(self):
        made = self.detio('record', '--log', 'other.log', '0.script', '1.script')
        self.assertEqual(made.returncode, 0, made.stderr)
        self.assertEqual(self.replayed('other.log'), ('end', self.recorded))

    def test_faults_and_compare_take_it(self):
        faults = self.detio('faults', '--log', 'run.log', '--errors', 'EIO', '0.script', '1.script')
        self.assertEqual(faults.returncode, 0, faults.stderr + faults.stdout)
        self.replayed('run.log')
        same = self.detio('compare', '--log', 'run.log', '--with', 'run.log', '0.script', '1.script')
        self.assertEqual((same.returncode, same.stderr), (0, ''), same.stdout)

    def test_the_host_is_reached_as_the_program_reaches_it(self):
        # One port to listen at, and one at which nobody listens: both are held, so that no other program takes them.
        ports = [socket.socket(), socket.socket()]
        for it in ports:
            self.addCleanup(it.close)
            it.setsockopt(socket.SOL_SOCKET, socket.SO_REUSEADDR, 1)
            it.bind(('127.0.0.1', 0))
        port, closed = [str(it.getsockname()[1]) for it in ports]
        script = ''.join(f'{line}\n' for line, _ in HOST).replace('PORT', port).replace('CLOSED', closed)
        replies = [f'0 {number} {line.split()[0]} {reply}' for number, (line, reply) in enumerate(HOST)]
        logs = []
        for name in 'program', 'library':
            os.makedirs(f'{name}/folder')
            os.chdir(name)
            with open('old.txt', 'w') as file:
                file.write('hello')
            if name == 'program':
                with open('host.script', 'w') as file:
                    file.write(script)
                printed = self.detio('record', '--log', 'run.log', 'host.script')
                self.assertEqual((printed.returncode, printed.stdout.splitlines()), (0, [*replies, 'end']))
            else:
                rows = []
                detio.Run(player(script, rows)).record('run.log').check()
                self.assertEqual(rows, replies)
            with open('run.log', 'rb') as log, open('old.txt') as file:
                logs.append(log.read())
                self.assertEqual(file.read(), 'y')
            os.chdir('..')
        self.assertEqual(*logs)


if __name__ == '__main__':
    unittest.main()
