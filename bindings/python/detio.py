"""Threads whose calls are recorded, replayed and explored, over the library libdetio.so.

    import detio

    def reader(io):
        number = io.open('/a', 'r+', create=True)
        io.write(number, b'hello')
        io.close(number)

    run = detio.Run(reader, reader)
    run.record('run.log').check()
    run.replay('run.log').check()

A function gets a `Thread`, and makes its calls there. A call that fails raises OSError with the error's name. A
function that yields its calls, as `number = yield io.open('/a')`, needs no thread of its own: where all are such, one
thread plays them. A replay is the same run where the functions depend on their replies alone, and not on clocks, chance
or what they share.
"""

import collections
import ctypes
import errno
import hashlib
import inspect
import operator
import os
import re
import sys
import threading

__all__ = ['LogFailed', 'Result', 'Run', 'Running', 'Stopped', 'Thread', 'Turn']

LARGEST = 32767
LONGEST_WAIT = 60000
STILL = 2000  # after so many milliseconds without an event a person is told who waits
SHOWN = 40  # so many of the last calls stand in what print(result) shows
MORE = 1
STOPPED = 5
END_OF_LOG = 15
DIVERGED = 16
MOVED = 32
STOP_MEMORY = 1
FAILURE = 7
FOR_MEMORY = 2
REACH = 30  # below which the delays of a seed are, unless another reach is given

CALLS = ('open close read write pread pwrite lseek ftruncate fstat dup dup_from dup2 getfl setfl link unlink rename '
         'mkdir rmdir pipe socketpair shutdown host_open tcp_listen tcp_connect tcp_accept').split()
KIND = {name: number for number, name in enumerate(CALLS, 1)}

CODES = {3: 'there is no run', 4: 'there is no such thread', 5: 'the run is stopped',
         6: 'the thread has no such event now',
         7: 'a clock is full', 8: 'no memory', 9: 'the log has no room', 10: 'the outcome does not answer',
         11: 'the buffer is too small', 12: 'there is no such call', 13: 'the settings are not in their ranges',
         14: 'this is not a log', 15: 'the log has no more outcomes of this thread',
         16: 'the thread asked for something else than when it was recorded', 17: 'the run is over'}

ENDED = ['ended', 'some threads have not ended', 'stopped: no memory', 'stopped: the log has no room',
         'stopped: a clock is full', 'stopped: the log ended', 'stopped: the log diverged']

OBJECTS = ['', 'file', 'pipe', 'socketpair', 'host file', 'listener', 'stream']

ACCESS = {'r': 0, 'w': 1, 'r+': 2}
WHENCE = {'set': 0, 'current': 1, 'end': 2}
SHUT = {'read': 0, 'write': 1, 'both': 2}
FLAGS = {'create': 1, 'exclusive': 2, 'truncate': 4, 'append': 8, 'nonblock': 16}


class Machine(ctypes.Structure):
    _fields_ = [('at', ctypes.c_void_p), ('live', ctypes.c_bool)]


class Settings(ctypes.Structure):
    _fields_ = [('size', ctypes.c_size_t), ('threads', ctypes.c_size_t), ('patience', ctypes.c_uint32),
                ('door_cost', ctypes.c_uint32), ('version', ctypes.c_uint32), ('room', ctypes.c_size_t)]


class Call(ctypes.Structure):
    _fields_ = [('kind', ctypes.c_uint32), ('choice', ctypes.c_uint32), ('flags', ctypes.c_uint32),
                ('descriptor', ctypes.c_int64), ('number', ctypes.c_int64), ('position', ctypes.c_int64)]


class Reply(ctypes.Structure):
    _fields_ = [('kind', ctypes.c_uint32), ('error', ctypes.c_uint32), ('count', ctypes.c_uint64),
                ('first', ctypes.c_int64), ('second', ctypes.c_int64), ('links', ctypes.c_uint64)]


class RunEnd(ctypes.Structure):
    _fields_ = [('how', ctypes.c_uint32), ('thread', ctypes.c_size_t), ('length', ctypes.c_size_t)]


def load():
    """The library: the path in DETIO_LIBRARY, or the one beside this file, or the one of the system."""
    here = os.path.join(os.path.dirname(os.path.abspath(__file__)), 'libdetio.so')
    path = os.environ.get('DETIO_LIBRARY') or (here if os.path.exists(here) else 'libdetio.so')
    library = ctypes.CDLL(path)
    size, pointer, u32, u64 = ctypes.c_size_t, ctypes.c_void_p, ctypes.c_uint32, ctypes.c_uint64
    call = [pointer, size, ctypes.POINTER(Call), ctypes.c_char_p, size, ctypes.c_char_p, size,
            ctypes.POINTER(Reply), pointer, size]
    for name, result, types in [
            ('detio_run_begin', u32, [pointer, ctypes.POINTER(Settings), ctypes.c_uint]),
            ('detio_run_replay', u32, [pointer, ctypes.c_char_p, size]),
            ('detio_thread_call', u32, call),
            ('detio_thread_start', u32, call),
            ('detio_thread_try', u32, [pointer, size, ctypes.POINTER(Reply), pointer, size]),
            ('detio_thread_work', u32, [pointer, size, u64]),
            ('detio_thread_end', u32, [pointer, size]),
            ('detio_thread_turn', u32, [pointer, size, ctypes.POINTER(u64), ctypes.POINTER(u64)]),
            ('detio_run_stop', None, [pointer, u32, size]),
            ('detio_run_still', size, [pointer, ctypes.c_uint, pointer, size]),
            ('detio_run_strayed', size, [pointer, pointer, size]),
            ('detio_run_finish', u32, [pointer, ctypes.POINTER(RunEnd)]),
            ('detio_run_log', u32, [pointer, size, pointer, size, ctypes.POINTER(size)]),
            ('detio_run_free', None, [pointer]),
            ('detio_run_size', size, []),
            ('detio_error_name', ctypes.c_char_p, [u32])]:
        function = getattr(library, name)
        function.restype, function.argtypes = result, types
    return library


library = load()


class Stopped(Exception):
    """The run cannot go on for this thread, or did not end. `code` is that of detio.h, and `call` the call, if any."""

    def __init__(self, code, more='', call=None):
        what = CODES.get(code, '' if code is None else f'code {code}')
        super().__init__(': '.join(it for it in (what, call, more) if it))
        self.code, self.call = code, call


class LogFailed(Exception):
    """The log could not be written, so the run was stopped: `error` says why, and `result` is what it came to."""

    def __init__(self, path, error, result):
        super().__init__(f'the log {path} could not be written: {error}')
        self.error, self.result = error, result


class Turn(collections.namedtuple('Turn', 'clock thread call reply')):
    """A call that was answered, and at which clock: texts, as a function writes the call and sees the reply."""


def done(code):
    """Raises what was refused."""
    if code:
        raise Stopped(code)


def number(name, value, least, most):
    """The number that an argument is, which must be in these bounds."""
    try:
        found = operator.index(value)
    except TypeError:
        raise TypeError(f'{name} is a number, and not {value!r}') from None
    if not least <= found <= most:
        raise ValueError(f'{name} is {least} to {most}, and not {found}')
    return found


def chosen(name, value, choices):
    """The number of a word."""
    if value not in choices:
        raise ValueError(f'{name} is one of {", ".join(map(repr, choices))}, and not {value!r}')
    return choices[value]


def bytes_of(data):
    """The bytes of what is written."""
    try:
        return bytes(memoryview(data))
    except TypeError:
        raise TypeError(f'data is bytes, and not {data!r}') from None


def line_of(function, *words):
    """A line that a function of the library writes for people, or nothing."""
    line = ctypes.create_string_buffer(400)
    length = function(*words, line, len(line))
    return line.raw[:length].decode()


class Asked:
    """A call that a function yields, and what its reply is to the function."""

    def __init__(self, name, operands, text, second, value, fields):
        for field, it in fields.items():
            if field not in ('choice', 'flags'):
                number(field, it, -1 << 63, (1 << 63) - 1)
        self.call = Call(kind=KIND[name], **fields)
        self.name, self.operands = name, operands
        self.text, self.second, self.value = os.fsencode(text), os.fsencode(second), value

    def __str__(self):
        return f'{self.name}({", ".join(map(repr, self.operands))})'


class Units:
    """A work that a function yields."""

    def __init__(self, units):
        self.units = units

    def __str__(self):
        return f'work({self.units})'


class Calls:
    """What a function makes its calls by. Descriptors are numbers of the run, and not of the system."""

    def __init__(self, going, number):
        self.number = number
        self._run, self._keep, self._seed, self._reach = going.place, going.keep, going.seed, going.reach
        self._data = ctypes.create_string_buffer(LARGEST)
        self._made = 0
        self._turns = going.turns
        self.value = self.error = None
        self.clock = 0

    def _delay(self):
        """For how many units the thread works before its next call: a hash of the seed, the thread and the call."""
        self._made += 1
        drawn = hashlib.sha256(f'{self._seed} {self.number} {self._made}'.encode()).digest()
        return (drawn[0] if self._reach == REACH else int.from_bytes(drawn[:8], 'big')) % self._reach

    def _asked(self, asked):
        raise NotImplementedError

    def _call(self, name, *texts, operands=(), value=lambda reply: reply.first, **fields):
        return self._asked(Asked(name, operands, *(texts + (b'', b''))[:2], value, fields))

    def _bytes(self, reply):
        return ctypes.string_at(self._data, reply.count)

    def _refused(self, code, asked):
        """What is raised where the run cannot go on."""
        more = line_of(library.detio_run_strayed, self._run) if code in (END_OF_LOG, DIVERGED) else ''
        return Stopped(code, more, str(asked))

    def _value(self, asked, reply):
        """The reply of a call as its function sees it, or its error. Both are noted with the turn of the call."""
        turn, clock = ctypes.c_uint64(), ctypes.c_uint64()
        library.detio_thread_turn(self._run, self.number, turn, clock)
        self.clock = clock.value
        if reply.kind != FAILURE:
            value = asked.value(reply)
        else:
            name = library.detio_error_name(reply.error).decode()
            has_path = asked.operands and isinstance(asked.operands[0], (str, bytes, os.PathLike))
            path = os.fsdecode(asked.text) if has_path else None
            value = OSError(getattr(errno, name), name, path) if path else OSError(getattr(errno, name), name)
            value.call = str(asked)
        if self._turns is not None:
            self._turns.append((turn.value, clock.value, self.number, asked, value))
        return value

    def _ends(self):
        """The thread ends, at the clock that it has then."""
        library.detio_thread_end(self._run, self.number)
        turn, clock = ctypes.c_uint64(), ctypes.c_uint64()
        if not library.detio_thread_turn(self._run, self.number, turn, clock):
            self.clock = clock.value

    @staticmethod
    def _flags(flags):
        return sum(chosen('a flag', name, FLAGS) for name, given in flags.items() if given)

    def _opens(self, name, path, access, flags):
        words = [path, access] + [it for it, given in flags.items() if given]
        return self._call(name, path, operands=words, choice=chosen('access', access, ACCESS),
                          flags=self._flags(flags))

    def open(self, path, access='r', **flags):
        return self._opens('open', path, access, flags)

    def host_open(self, path, access='r', **flags):
        return self._opens('host_open', path, access, flags)

    def close(self, descriptor):
        return self._call('close', value=nothing, operands=[descriptor], descriptor=descriptor)

    def read(self, descriptor, count=LARGEST):
        return self._call('read', value=self._bytes, operands=[descriptor, count], descriptor=descriptor, number=count)

    def write(self, descriptor, data):
        data = bytes_of(data)
        return self._call('write', data, value=count_of, operands=[descriptor, data], descriptor=descriptor)

    def pread(self, descriptor, count, position):
        return self._call('pread', value=self._bytes, operands=[descriptor, count, position], descriptor=descriptor,
                          number=count, position=position)

    def pwrite(self, descriptor, data, position):
        data = bytes_of(data)
        return self._call('pwrite', data, value=count_of, operands=[descriptor, data, position], descriptor=descriptor,
                          position=position)

    def lseek(self, descriptor, offset, whence='set'):
        return self._call('lseek', operands=[descriptor, offset, whence], descriptor=descriptor, number=offset,
                          choice=chosen('whence', whence, WHENCE))

    def ftruncate(self, descriptor, size):
        return self._call('ftruncate', value=nothing, operands=[descriptor, size], descriptor=descriptor, number=size)

    def fstat(self, descriptor):
        """The kind of the object, its length or its port, and how many names it has."""
        return self._call('fstat', value=lambda it: (OBJECTS[it.first], it.count, it.links), operands=[descriptor],
                          descriptor=descriptor)

    def dup(self, descriptor):
        return self._call('dup', operands=[descriptor], descriptor=descriptor)

    def dup_from(self, descriptor, least):
        return self._call('dup_from', operands=[descriptor, least], descriptor=descriptor, number=least)

    def dup2(self, descriptor, target):
        return self._call('dup2', operands=[descriptor, target], descriptor=descriptor, number=target)

    def getfl(self, descriptor):
        return self._call('getfl', operands=[descriptor], descriptor=descriptor)

    def setfl(self, descriptor, append=False, nonblock=False):
        return self._call('setfl', value=nothing, operands=[descriptor, append, nonblock], descriptor=descriptor,
                          flags=self._flags({'append': append, 'nonblock': nonblock}))

    def link(self, old, new):
        return self._call('link', old, new, value=nothing, operands=[old, new])

    def unlink(self, path):
        return self._call('unlink', path, value=nothing, operands=[path])

    def rename(self, old, new):
        return self._call('rename', old, new, value=nothing, operands=[old, new])

    def mkdir(self, path):
        return self._call('mkdir', path, value=nothing, operands=[path])

    def rmdir(self, path):
        return self._call('rmdir', path, value=nothing, operands=[path])

    def pipe(self):
        return self._call('pipe', value=pair)

    def socketpair(self):
        return self._call('socketpair', value=pair)

    def shutdown(self, descriptor, how='both'):
        return self._call('shutdown', value=nothing, operands=[descriptor, how], descriptor=descriptor,
                          choice=chosen('how', how, SHUT))

    def tcp_listen(self, port=0):
        return self._call('tcp_listen', operands=[port], number=port)

    def tcp_connect(self, port):
        return self._call('tcp_connect', operands=[port], number=port)

    def tcp_accept(self, listener):
        return self._call('tcp_accept', operands=[listener], descriptor=listener)


def nothing(_reply):
    return None


def count_of(reply):
    return reply.count


def pair(reply):
    return reply.first, reply.second


class Thread(Calls):
    """The calls of a function that has a thread of its own: each returns once it has its reply."""

    def work(self, units):
        """Works for so many units of the thread's clock, so that others come first meanwhile."""
        done(library.detio_thread_work(self._run, self.number, number('units', units, 0, (1 << 64) - 1)))

    def _asked(self, asked):
        if self._seed is not None:
            self.work(self._delay())
        reply = Reply()
        code = library.detio_thread_call(self._run, self.number, asked.call, asked.text, len(asked.text), asked.second,
                                         len(asked.second), reply, self._data, LARGEST)
        if not self._keep() and not code:
            code = STOPPED
        if code:
            raise self._refused(code, asked)
        value = self._value(asked, reply)
        if isinstance(value, OSError):
            raise value
        return value

    def play(self, function):
        """Calls the function, and keeps what comes of it."""
        try:
            self.value = value_of(function(self))
        except BaseException as error:
            self.error = error
        finally:
            self._ends()


def value_of(value):
    """What a function returned, which is no call that is yet to be made."""
    if inspect.iscoroutine(value):
        value.close()
        raise TypeError('a function that is async is not run: its calls are made by threads, or yielded')
    if inspect.isgenerator(value):
        raise TypeError('a function that returns a generator is not run: one that yields its calls is given itself')
    return value


class Steps(Calls):
    """The calls of a function that yields them."""

    def _asked(self, asked):
        self._loose.append(asked)
        return asked

    def work(self, units):
        """To be yielded: works for so many units of the clock."""
        return self._asked(Units(number('units', units, 0, (1 << 64) - 1)))

    def begin(self, function):
        """The function begins. `waits` is the call whose reply it waits for, if it waits."""
        self._loose = []  # what was not yielded yet
        self._steps = function(self)
        self.waits = None
        self.ended = False

    def advance(self):
        """Goes on as far as it can without another thread: whether it moved."""
        if self.waits is None:
            code, reply = self._goes_on(lambda: next(self._steps))
        else:
            code, reply = self._tried()
            if code in (MORE, MOVED):
                return code == MOVED
        while code not in (MORE, MOVED) and not self.ended:
            if not self._keep() and not code:
                code = STOPPED
            code, reply = self._goes_on(lambda: self._replied(code, reply))
        return True

    def _tried(self):
        reply = Reply()
        return library.detio_thread_try(self._run, self.number, reply, self._data, LARGEST), reply

    def _replied(self, code, reply):
        asked, self.waits = self.waits, None
        if code:
            return self._steps.throw(self._refused(code, asked or 'work'))
        if asked is None:
            return self._steps.send(None)
        value = self._value(asked, reply)
        return self._steps.throw(value) if isinstance(value, OSError) else self._steps.send(value)

    def _goes_on(self, resume):
        """The function goes on to its next step, which is asked: the code of that, and its reply."""
        try:
            asked = resume()
        except StopIteration as end:
            if self._loose:
                return self._comes_to_end(None, RuntimeError(f'{self._loose[0]} was not yielded, so it was not made'))
            return self._comes_to_end(end.value, None)
        except KeyboardInterrupt:
            raise
        except BaseException as error:
            return self._comes_to_end(None, error)
        if not any(asked is it for it in self._loose):
            return self._comes_to_end(None, TypeError(f'a function yields its calls, and not {asked!r}'))
        self._loose = [it for it in self._loose if it is not asked]
        if isinstance(asked, Units):
            return library.detio_thread_work(self._run, self.number, asked.units), None
        if self._seed is not None:
            code = library.detio_thread_work(self._run, self.number, self._delay())
            if code:
                return code, None
        reply = Reply()
        self.waits = asked
        return library.detio_thread_start(self._run, self.number, asked.call, asked.text, len(asked.text),
                                          asked.second, len(asked.second), reply, self._data, LARGEST), reply

    def _comes_to_end(self, value, error):
        self.value, self.error, self.ended = value, error, True
        self._ends()
        return 0, None


class Result:
    """What a run came to: what each function returned, what it raised, how the run ended, and its log. Where a log
    ended or diverged, `thread` is the number of the thread for which it did, and `strayed` says where. `first` is the
    thread whose error came first in the order of turns, or None. `turns` are the calls in that order."""

    def __init__(self, threads, ended, how, log, going, strayed):
        self.values, self.errors = [it.value for it in threads], [it.error for it in threads]
        self.how, self.thread, self.log = how, ended.thread, log
        self.seed, self.reach, self.strayed = going.seed, going.reach, strayed
        self._turns = going.turns
        failed = [(isinstance(it.error, Stopped) and it.error.code == STOPPED, it.clock, number)
                  for number, it in enumerate(threads) if it.error is not None]
        self.first = min(failed)[2] if failed else None

    @property
    def turns(self):
        rows = sorted(self._turns or [], key=lambda it: it[0])
        return [Turn(clock, thread, str(asked), shown(value)) for _, clock, thread, asked, value in rows]

    def check(self):
        """Raises the error of the function that failed first, in the order of turns. Where none did, and the run did
        not end, Stopped is raised."""
        if self.first is not None:
            raise self.errors[self.first]
        if self.how != 'ended':
            raise Stopped(None, ': '.join(it for it in (self.how, self.strayed) if it))
        return self

    def lanes(self, last=None):
        """The calls in the order of turns, the last ones or all: each thread has a column of its own."""
        turns = self.turns
        rows = [(it.thread, str(it.clock), f'{it.call} = {it.reply}') for it in turns[-last if last else None:]]
        count = len(self.values)
        widths = [max([len(text) for thread, _, text in rows if thread == lane] + [6]) + 2 for lane in range(count)]
        lines = [f'({len(turns) - len(rows)} calls before)'] if len(rows) < len(turns) else []
        lines.append('clock  ' + ''.join(str(lane).ljust(width) for lane, width in enumerate(widths)))
        lines += [clock.ljust(7) + ' ' * sum(widths[:thread]) + text for thread, clock, text in rows]
        return '\n'.join(line.rstrip() for line in lines)

    def save(self, folder='.', name=''):
        """Writes the log into a folder, under a name that has the seed: the path, for `Run.replay`."""
        path = os.path.join(os.fspath(folder), log_name(self.seed, self.reach, name))
        os.makedirs(folder, exist_ok=True)
        with open(path, 'wb') as file:
            file.write(self.log)
        return path

    def __repr__(self):
        return f'Result(values={self.values}, errors={self.errors}, how={self.how!r}, seed={self.seed})'

    def __str__(self):
        errors = [f'thread {number} raised {error!r}' for number, error in enumerate(self.errors) if error is not None]
        seed = [] if self.seed is None else [f'seed {self.seed}']
        return '\n'.join([self.lanes(SHOWN), *errors, *seed, ': '.join(it for it in (self.how, self.strayed) if it)])


def shown(value):
    """A reply as a text: of an error its name."""
    return f'{type(value).__name__}: {value.strerror}' if isinstance(value, OSError) else repr(value)


def log_name(seed, reach, name=''):
    """The name of the file of a log, which says the seed and the reach."""
    if seed is None:
        return f'{name or "run"}.log'
    return (f'{name}-' if name else '') + f'seed-{seed}' + ('' if reach == REACH else f'-reach-{reach}') + '.log'


NAMED = re.compile(r'(?:.*-)?seed-(?P<seed>.+?)(?:-reach-(?P<reach>\d+))?\.log')


def yields(function):
    """Whether a function yields its calls."""
    if inspect.iscoroutinefunction(function) or inspect.isasyncgenfunction(function):
        raise TypeError(f'{function!r} is async, and is not run: its calls are made by threads, or yielded')
    own = getattr(type(function), '__call__', None)
    return inspect.isgeneratorfunction(function) or inspect.isgeneratorfunction(own)


class Run:
    """Functions that are run together, at most 16: each in a thread of its own, or all by their steps, where each is a
    generator. Each call waits for its peer for `wait` milliseconds at a time, 0 to 60,000. Where `turns` is not true,
    a result has no turns, which saves time and memory."""

    def __init__(self, *functions, patience=1000, door_cost=100, version=2, room=1 << 22, wait=10, turns=True):
        number('how many functions there are', len(functions), 1, 16)
        if len({yields(it) for it in functions}) > 1:
            raise ValueError('either all functions yield their calls, or none')
        self.functions = functions
        self.settings = Settings(
            ctypes.sizeof(Settings), len(functions), number('patience', patience, 1, 1000000),
            number('door_cost', door_cost, 1, 1000000), number('version', version, 1, 2),
            number('room', room, 16, (1 << 63) - 1))
        self.wait = number('wait', wait, 0, LONGEST_WAIT)
        self.has_turns = turns

    def record(self, path=None, seed=None, reach=30, force=False):
        """Runs the functions, and writes the log of what came from outside to `path`, as it comes: it is in the file
        before its function goes on. A file that is there is kept, unless `force` is true. With a seed each thread works
        before each call for a time below `reach` that the seed says; a replay of such a run takes the same seed and
        reach."""
        begin = lambda place: library.detio_run_begin(place, self.settings, self.wait)
        return Running(self, begin, seed, reach, path, force).result()

    def replay(self, path, seed=None, reach=30):
        """Runs the functions with what the log has, and reaches nothing outside. A name that `Result.save` made says
        the seed and the reach."""
        return Running(self, *self._replayed(path, seed, reach)).result()

    def start(self, path=None, seed=None, reach=30, force=False):
        """A run whose threads go on while the program does: `with run.start() as going:`, and then `going.result()`.
        Leaving `with` before that stops it, waits for its threads and frees it."""
        if yields(self.functions[0]):
            raise ValueError('functions that yield their calls have no threads of their own: record runs them')
        begin = lambda place: library.detio_run_begin(place, self.settings, self.wait)
        return Running(self, begin, seed, reach, path, force)

    def explore(self, seeds, reach=30, folder=None):
        """Runs the functions once for each seed, under another schedule each: the results, one after another. What they
        do at the host they do each time. The log of a run that `check` refuses is written into `folder`."""
        for seed in seeds:
            result = self.record(seed=seed, reach=reach)
            if folder is not None and (result.first is not None or result.how != 'ended'):
                result.save(folder)
            yield result

    def _replayed(self, path, seed, reach):
        """What begins a replay of the log at a path, and with which seed and reach."""
        with open(path, 'rb') as file:
            log = file.read()
        if log[:4] == b'DIOL' and len(log) >= 8 and int.from_bytes(log[6:8], 'big') != len(self.functions):
            raise ValueError(f'the log is of {int.from_bytes(log[6:8], "big")} threads, and not of '
                             f'{len(self.functions)}')
        named = NAMED.fullmatch(os.path.basename(os.fspath(path)))
        if named:
            if seed is not None and str(seed) != named['seed']:
                raise ValueError(f'seed is {seed}, where {path} is of a run with the seed {named["seed"]}')
            seed, reach = named['seed'], int(named['reach'] or REACH)
        return lambda place: library.detio_run_replay(place, log, len(log)), seed, reach


class Running:
    """A run that goes on. Whatever comes, as Ctrl-C, a thread that cannot start or an error: the run is stopped, its
    threads are joined, and it is freed. One whose function does not come back to its run is not freed."""

    def __init__(self, run, begin, seed, reach, path=None, force=False):
        self.seed, self.reach = seed, number('reach', reach, 1, 1 << 62)
        self.turns = [] if run.has_turns else None
        self._functions, self._path, self._result, self._threads, self._stopped = run.functions, path, None, [], False
        self._by_steps = yields(run.functions[0])
        self.place = ctypes.create_string_buffer(library.detio_run_size())
        done(begin(self.place))
        self._is_free = False
        self._file = None
        try:
            # (without a buffer of its own: what is written is in the file)
            self._file = None if path is None else open(path, 'wb' if force else 'xb', buffering=0)
            self._keeper = Keeper(self)
            self._seats = [(Steps if self._by_steps else Thread)(self, at) for at in range(len(run.functions))]
            for thread, function in zip(self._seats, [] if self._by_steps else self._functions):
                at = threading.Thread(target=thread.play, args=(function,), daemon=True)
                at.start()
                self._threads.append(at)
        except BaseException:
            self.leave()
            raise

    def __enter__(self):
        return self

    def __exit__(self, *_):
        self.leave()

    @property
    def file(self):
        """The file of the log, or None."""
        return self._file

    def keep(self):
        """Writes what the log has: whether that went well."""
        return self._keeper.keep()

    def stop(self):
        """No thread goes on: each call that waits, and each that is made later, raises Stopped."""
        if not self._is_free:
            self._stopped = True
            library.detio_run_stop(self.place, STOP_MEMORY, 0)

    def leave(self):
        """Stops the run if it goes on, joins its threads, and frees it."""
        if self._is_free:
            return
        try:
            if self._result is None:
                self.stop()
            for thread in self._threads:
                thread.join()
        finally:
            if not any(it.is_alive() for it in self._threads):
                self._is_free = True
                library.detio_run_free(self.place)
                if self._file is not None:
                    self._file.close()

    def result(self):
        """Waits until all functions have ended: what the run came to."""
        if self._result is None:
            try:
                if self._by_steps:
                    self._step()
                else:
                    self._join()
                self._result = self._finished()
            finally:
                self.leave()
        if self._keeper.error is not None:
            raise LogFailed(self._path, self._keeper.error, self._result) from self._keeper.error
        return self._result

    def _join(self):
        """Joins the threads, and says where the run stands still."""
        said = ''
        for thread in self._threads:
            while thread.is_alive():
                thread.join(0.25)
                line = line_of(library.detio_run_still, self.place, STILL)
                if line and not said and sys.stderr is not None:
                    print(f'detio: {line}', file=sys.stderr, flush=True)
                said = line

    def _step(self):
        for thread, function in zip(self._seats, self._functions):
            thread.begin(function)
        while any([thread.advance() for thread in self._seats if not thread.ended]):
            pass

    def _finished(self):
        ended, length = RunEnd(), ctypes.c_size_t()
        done(library.detio_run_finish(self.place, ended))
        self.keep()
        log = ctypes.create_string_buffer(max(ended.length, 1))
        done(library.detio_run_log(self.place, 0, log, ended.length, length))
        how = ENDED[ended.how]
        if self._stopped and ended.how == FOR_MEMORY:
            how = 'stopped by the program'
        if self._keeper.error is not None:
            how = 'stopped: the log could not be written'
        strayed = line_of(library.detio_run_strayed, self.place)
        return Result(self._seats, ended, how, log.raw[:ended.length], self, strayed)


class Keeper:
    """Writes what the log has to the file of a run, as it comes. Where that fails, the run is stopped, and `error` says
    why."""

    def __init__(self, going):
        self._going = going
        self._kept = 0
        self._lock = threading.Lock()
        self._data = ctypes.create_string_buffer(1 << 16)
        self.error = None

    def keep(self):
        """Whether all is in the file."""
        if self._going.file is None:
            return True
        with self._lock:
            while self.error is None:
                length = ctypes.c_size_t()
                code = library.detio_run_log(self._going.place, self._kept, self._data, len(self._data), length)
                count = min(length.value - self._kept, len(self._data))
                if code or count <= 0:
                    break
                try:
                    self._kept += self._going.file.write(ctypes.string_at(self._data, count))
                except OSError as error:
                    self.error = error
                    library.detio_run_stop(self._going.place, STOP_MEMORY, 0)
            return self.error is None
