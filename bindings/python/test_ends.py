"""Tests of detio.py, of how runs end and what is said of it: python3 test_ends.py, as test_detio.py."""

import itertools
import os
import subprocess
import sys
import tempfile
import textwrap
import threading
import time
import unittest
from unittest import mock

import detio
import roles as example


def within(seconds, program, *words):
    """What a program in Python prints, and its status, within so many seconds."""
    ran = subprocess.run([sys.executable, '-c', textwrap.dedent(program), *words], stdout=subprocess.PIPE,
                         stderr=subprocess.PIPE, universal_newlines=True, timeout=seconds)
    return ran.returncode, ran.stdout, ran.stderr


class InAFolder(unittest.TestCase):
    def setUp(self):
        folder = tempfile.TemporaryDirectory()
        self.addCleanup(folder.cleanup)
        self.addCleanup(os.chdir, os.getcwd())
        os.chdir(folder.name)


class Interrupted(InAFolder):
    CALLS = '''
        import os, signal, threading, detio
        def f(io):
            n = io.open(f'/a{io.number}', 'r+', create=True)
            while True: io.pwrite(n, b'x', 0)
        def g(io):
            n = yield io.open(f'/a{io.number}', 'r+', create=True)
            while True: yield io.pwrite(n, b'x', 0)
        threading.Timer(0.3, lambda: os.kill(os.getpid(), signal.SIGINT)).start()
        try:
            detio.Run(*[FUNCTION] * 8, turns=False).record()
        except KeyboardInterrupt:
            print('interrupted', sum(it.name != 'MainThread' for it in threading.enumerate()))
    '''

    def test_an_interrupt_ends_a_run(self):
        for function in 'f', 'g':
            status, out, said = within(60, textwrap.dedent(self.CALLS).replace('FUNCTION', function))
            self.assertEqual((status, out, said), (0, 'interrupted 0\n', ''), function)

    def test_an_interrupt_in_a_function_that_yields_ends_the_run(self):
        def interrupted(io):
            yield io.pipe()
            raise KeyboardInterrupt

        with self.assertRaises(KeyboardInterrupt):
            detio.Run(interrupted).record()

    def test_a_thread_that_cannot_start_ends_a_run(self):
        started = []

        def starts(self):
            if len(started) == 2:
                raise RuntimeError('no more threads')
            started.append(self)
            start(self)

        start = threading.Thread.start
        seen = []

        def waits(io):
            try:
                io.pipe()
                io.read(0, 1)
            except detio.Stopped as stopped:
                seen.append(stopped.code)
                raise

        with mock.patch.object(threading.Thread, 'start', starts), self.assertRaises(RuntimeError):
            detio.Run(waits, waits, waits).record('run.log')
        self.assertEqual((seen, [it.is_alive() for it in started]), ([5, 5], [False, False]))

    def test_a_run_that_is_left_is_stopped(self):
        def waits(io):
            io.pipe()
            while True:
                try:
                    io.read(0, 1)
                except InterruptedError:
                    pass

        freed = []
        real = detio.library.detio_run_free
        with mock.patch.object(detio.library, 'detio_run_free', lambda it: (freed.append(1), real(it))):
            with self.assertRaises(ZeroDivisionError):
                with detio.Run(waits).start() as going:
                    1 / 0
            self.assertEqual(len(freed), 1)
            with detio.Run(waits).start() as going:
                going.stop()
                result = going.result()
                self.assertIs(going.result(), result)
            self.assertEqual(len(freed), 2)
        self.assertEqual(result.how, 'stopped by the program')
        with self.assertRaises(detio.Stopped):
            result.check()

    def test_ten_thousand_runs_leak_nothing(self):
        def function(io):
            io.pipe()

        run, sizes = detio.Run(function), []
        for times in 200, 9800:
            for _ in range(times):
                run.record()
            with open('/proc/self/statm') as file:
                sizes.append(int(file.read().split()[1]) * 4096)
        self.assertLess(sizes[1] - sizes[0], 4 << 20)


class Checked(InAFolder):
    def reads(self, io):
        at = io.host_open('in.txt')
        first, second = io.read(at, 3), io.read(at, 3)
        io.close(at)
        return first + second

    def recorded(self):
        with open('in.txt', 'w') as file:
            file.write('abcdef')
        return detio.Run(self.reads).record('run.log', force=True).check()

    def test_check_refuses_each_end_but_one(self):
        self.recorded()
        unused = detio.Run(lambda io: io.number).replay('run.log')
        full = detio.Run(self.reads, room=16).record()
        with open('run.log', 'rb') as file:
            log = file.read()
        with open('cut.log', 'wb') as file:
            file.write(log[:16])
        for result in unused, full, detio.Run(self.reads).replay('cut.log'):
            with self.assertRaises(detio.Stopped):
                result.check()
        with self.assertRaises(detio.Stopped) as raised:
            unused.check()
        self.assertEqual(str(raised.exception), 'stopped: the log diverged: thread 0 ended after call 0; the log has '
                                                'more of it: open ok 0 of turn 1')

    def test_a_divergence_says_where(self):
        def writes(io):
            at = io.host_open('in.txt', 'r+')
            io.write(at, b'abcdef')

        self.recorded()
        result = detio.Run(writes).replay('run.log')
        said = 'thread 0, call 2, clock 208: asked write of 6 bytes; the log has read ok 3 of turn 105'
        self.assertEqual((result.how, result.strayed), ('stopped: the log diverged', said))
        with self.assertRaises(detio.Stopped) as raised:
            result.check()
        self.assertEqual(raised.exception.code, 16)
        self.assertIn("write(0, b'abcdef')", str(raised.exception))
        self.assertIn(said, str(raised.exception))

    def test_the_cause_is_raised(self):
        def waits(io):
            io.pipe()
            io.read(0, 1)

        def fails(io):
            io.work(500)
            raise ZeroDivisionError

        result = detio.Run(waits, fails, patience=300).record()
        self.assertIsInstance(result.errors[0], InterruptedError)
        self.assertEqual(result.first, 1)
        with self.assertRaises(ZeroDivisionError):
            result.check()

    def test_an_error_says_the_call_and_the_path(self):
        def missing(io):
            try:
                io.close(9)
            except OSError as error:
                self.assertEqual((error.filename, error.call), (None, 'close(9)'))
            io.open('/missing', 'r+')

        with self.assertRaises(FileNotFoundError) as raised:
            detio.Run(missing).record().check()
        self.assertEqual((raised.exception.filename, raised.exception.call), ('/missing', "open('/missing', 'r+')"))

    def test_turns_and_lanes(self):
        def first(io):
            io.pipe()
            io.work(20)
            io.write(1, b'z')

        def second(io):
            io.work(5)
            try:
                io.open('/none')
            except FileNotFoundError:
                pass
            return io.read(0, 1)

        result = detio.Run(first, second).record().check()
        self.assertEqual([(it.thread, it.call, it.reply) for it in result.turns], [
            (0, 'pipe()', '(0, 1)'), (1, "open('/none', 'r')", 'FileNotFoundError: ENOENT'), (0, "write(1, b'z')", '1'),
            (1, 'read(0, 1)', "b'z'")])
        self.assertEqual(str(result).splitlines(), [
            'clock  0                   1', '5      pipe() = (0, 1)',
            "8                          open('/none', 'r') = FileNotFoundError: ENOENT",
            "31     write(1, b'z') = 1", "34                         read(0, 1) = b'z'", 'ended'])
        self.assertIn('(3 calls before)', result.lanes(1))
        self.assertEqual(detio.Run(first, second, turns=False).record().turns, [])
        for _ in range(20):
            self.assertEqual(detio.Run(first, second).record().turns, result.turns)


class Logs(InAFolder):
    def test_a_file_that_is_there_is_kept(self):
        run = detio.Run(lambda io: io.pipe())
        run.record('old.log')
        with open('old.log', 'rb') as file:
            log = file.read()
        with self.assertRaises(FileExistsError):
            run.record('old.log')
        with self.assertRaises(ValueError):
            detio.Run(*[lambda io: None] * 17).record('old.log', force=True)
        refused = mock.patch.object(detio.library, 'detio_run_begin', lambda *_: 8)
        with refused, self.assertRaises(detio.Stopped):
            run.record('old.log', force=True)
        with refused, self.assertRaises(detio.Stopped):
            run.record('new.log')
        with open('old.log', 'rb') as file:
            self.assertEqual(file.read(), log)
        self.assertFalse(os.path.exists('new.log'))
        run.record('old.log', force=True)

    @unittest.skipUnless(os.path.exists('/dev/full'), 'there is no /dev/full')
    def test_a_log_that_fails_ends_the_run(self):
        def function(io):
            try:
                io.mkdir('/a')
            except OSError:
                return 'the call failed'

        with self.assertRaises(detio.LogFailed) as raised:
            detio.Run(function, function).record('/dev/full', force=True)
        self.assertIsInstance(raised.exception.error, OSError)
        result = raised.exception.result
        self.assertEqual((result.values, result.how), ([None, None], 'stopped: the log could not be written'))
        self.assertEqual([type(it) for it in result.errors], [detio.Stopped, detio.Stopped])

    def test_a_seed_belongs_to_its_log(self):
        def deposit(io):
            account = io.open('/account', 'r+', create=True)
            balance = int(io.pread(account, 20, 0) or b'0')
            io.pwrite(account, str(balance + 1).encode(), 0)
            return balance + 1

        run = detio.Run(deposit, deposit)
        lost = next(it for it in run.explore(range(1, 50)) if max(it.values) == 1)
        path = lost.save('kept')
        self.assertEqual(path, os.path.join('kept', f'seed-{lost.seed}.log'))
        self.assertEqual(run.replay(path).check().values, [1, 1])
        self.assertEqual(run.replay(path, seed=lost.seed).check().values, [1, 1])
        with self.assertRaises(ValueError):
            run.replay(path, seed=lost.seed + 1)
        far = run.record(seed=3, reach=500)
        self.assertEqual(os.path.basename(far.save()), 'seed-3-reach-500.log')
        self.assertGreater(max(it.clock for it in far.turns), 200)
        self.assertEqual(run.replay('seed-3-reach-500.log').turns, far.turns)
        self.assertNotEqual(run.replay('seed-3-reach-500.log').turns, run.record(seed=3).turns)

    def test_explore_keeps_what_fails(self):
        def fails(io):
            io.pipe()
            raise ValueError

        self.assertEqual(len(list(detio.Run(fails).explore([5, 6], folder='kept'))), 2)
        self.assertEqual(sorted(os.listdir('kept')), ['seed-5.log', 'seed-6.log'])

    def test_the_delays_of_a_seed(self):
        def function(io):
            io.pipe()
            io.pipe()

        clocks = [it.clock for it in detio.Run(function).record(seed=7).turns]
        self.assertEqual(clocks, [1 + 9 + 4, 14 + 20 + 4])


class Said(unittest.TestCase):
    def test_a_run_that_stands_still_says_who_waits(self):
        def computes(io):
            time.sleep(2.6)

        def waits(io):
            io.pipe()

        with mock.patch('sys.stderr') as stream:
            written = []
            stream.write = written.append
            detio.Run(computes, waits, waits).record().check()
        said = ('detio: no event for 2 s: thread 0 is in no call (computing, or waiting for something outside of the '
                'run, which looks the same); threads 1 and 2 wait for the turn')
        self.assertEqual(''.join(written).strip(), said)


class Arguments(unittest.TestCase):
    def raised(self, function, **settings):
        return detio.Run(function, **settings).record().errors[0]

    def test_settings_name_the_argument(self):
        for name, values in {'patience': (0, 1000001, 2**32 + 1), 'door_cost': (0, 1000001), 'version': (0, 3),
                             'room': (15, 1 << 63), 'wait': (-1, 60001)}.items():
            for value in values:
                with self.assertRaises(ValueError) as raised:
                    detio.Run(lambda io: None, **{name: value})
                self.assertTrue(str(raised.exception).startswith(f'{name} is '), raised.exception)
        for count in 0, 17:
            with self.assertRaises(ValueError) as raised:
                detio.Run(*[lambda io: None] * count)
            self.assertEqual(str(raised.exception), f'how many functions there are is 1 to 16, and not {count}')
        with self.assertRaises(TypeError):
            detio.Run(lambda io: None, patience='5')

    def test_numbers_out_of_range(self):
        for call, name in [(lambda io: io.read(0, 2**64), 'number'), (lambda io: io.pread(2**64, 9, 0), 'descriptor'),
                           (lambda io: io.pread(0, 9, 2**63), 'position'), (lambda io: io.work(-1), 'units'),
                           (lambda io: io.work(2**64), 'units'), (lambda io: io.tcp_connect(-2**63 - 1), 'number')]:
            error = self.raised(call)
            self.assertIsInstance(error, ValueError)
            self.assertIn(name, str(error))
        self.assertIsInstance(self.raised(lambda io: io.read('0')), TypeError)

    def test_what_is_no_bytes_or_no_word(self):
        for call in (lambda io: io.write(1, 5)), (lambda io: io.write(1, 'text')), (lambda io: io.pwrite(1, None, 0)):
            self.assertIsInstance(self.raised(call), TypeError)
        said = "access is one of 'r', 'w', 'r+', and not 'rw'"
        self.assertEqual(str(self.raised(lambda io: io.open('/a', 'rw'))), said)
        self.assertIn('whence', str(self.raised(lambda io: io.lseek(0, 0, 'start'))))
        self.assertIn('how', str(self.raised(lambda io: io.shutdown(0, 'all'))))
        self.assertIsInstance(self.raised(lambda io: io.open(5)), TypeError)

    def test_functions_that_are_async(self):
        async def function(io):
            io.pipe()

        class Called:
            def __call__(self, io):
                reading, _ = yield io.pipe()
                return reading

        with self.assertRaises(TypeError):
            detio.Run(function)
        self.assertIsInstance(self.raised(lambda io: function(io)), TypeError)
        self.assertEqual(detio.Run(Called()).record().check().values, [0])
        self.assertIsInstance(self.raised(lambda io: (it for it in [io.pipe()])), TypeError)

    def test_calls_that_are_not_yielded(self):
        def forgets(io):
            io.mkdir('/a')
            yield io.pipe()

        def works(io):
            yield io.pipe()
            io.work(5)

        for function, call in (forgets, "mkdir('/a')"), (works, 'work(5)'):
            error = self.raised(function)
            self.assertIsInstance(error, RuntimeError)
            self.assertIn(f'{call} was not yielded', str(error))

        def yields_others(io):
            yield 5

        self.assertIsInstance(self.raised(yields_others), TypeError)

    def test_words_and_flags_are_those_of_the_header(self):
        def function(io):
            at = io.open('/a', 'r+', create=True)
            seen = [io.getfl(at)]
            io.setfl(at, append=True)
            seen.append(io.getfl(at))
            io.setfl(at, nonblock=True)
            seen.append(io.getfl(at))
            try:
                io.open('/a', create=True, exclusive=True)
            except FileExistsError:
                seen.append('exclusive')
            seen.append(io.getfl(io.open('/a', 'w', nonblock=True)))
            io.pipe()
            io.socketpair()
            listener = io.tcp_listen()
            others = io.host_open('/dev/null'), listener, io.tcp_connect(io.fstat(listener)[1])
            seen += [io.fstat(it)[0] for it in (at, 3, 5, *others)]
            io.shutdown(4, 'read')
            io.shutdown(5, 'both')
            try:
                io.write(4, b'x')
            except BrokenPipeError:
                seen.append('shut')
            return seen

        self.assertEqual(detio.Run(function).record().check().values[0], [
            2, 2 + 4, 2 + 8, 'exclusive', 1 + 8, 'file', 'pipe', 'socketpair', 'host file', 'listener', 'stream',
            'shut'])


class Roles(unittest.TestCase):
    def test_each_order_of_roles_comes_to_its_end(self):
        for roles in (example.maker, example.squarer, example.summer), (example.server, example.client):
            for order in itertools.permutations(roles):
                result = detio.Run(*order, patience=5).record().check()
                self.assertEqual([it for it in result.values if it], [20908 if len(order) == 3 else b'HELLO'])


class Steps(unittest.TestCase):
    def test_a_run_of_steps_goes_on_while_one_moved(self):
        def reader(io):
            yield io.work(100)
            return (yield io.read(0, 1))

        def writer(io):
            _, writes = yield io.pipe()
            yield io.work(300)
            yield io.write(writes, b'a')
            yield io.write(writes, b'b')
            return 'wrote'

        result = detio.Run(writer, reader, reader).record().check()
        self.assertEqual((result.values[0], sorted(result.values[1:])), ('wrote', [b'a', b'b']))

    def test_two_that_wait_for_each_other_are_interrupted(self):
        def waits(io):
            if io.number == 0:
                yield io.pipe()
            else:
                yield io.work(50)
            yield io.read(0, 1)

        result = detio.Run(waits, waits, patience=50).record()
        self.assertEqual([type(it) for it in result.errors], [InterruptedError] * 2)
        self.assertEqual(result.how, 'ended')


if __name__ == '__main__':
    unittest.main()
