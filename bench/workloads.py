"""Scripts to time `jg` by. Each is the same for the same name and size: a function of the number of
lines gives its lines one by one, and may give more. SETUP is for those that name classes."""
import random

SETUP = '''version = 1
illegal_native_access = "deny"
enable_native_access = ["app"]
[[class]]
name = "app/Main"
module = "app"
fields = [{ name = "count", type = "I" }, { name = "next", type = "Lapp/Main;" }]
natives = [{ name = "run", type = "()V" }]
'''


class Calls:
    """The lines of calls, and the numbers of what they hand out: one count for each thread's references,
    another for its buffers."""

    def __init__(self):
        self.refs, self.buffers = {}, {}

    def line(self, thread, text):
        return f'T{thread} E{thread}.1 {text}'

    def attach(self, *threads):
        return [f'T{thread} - AttachCurrentThread' for thread in threads]

    def ref(self, kind, thread):
        """The reference that the next line of the thread hands out."""
        self.refs[thread] = self.refs.get(thread, 0) + 1
        return f'{kind}{thread}.{self.refs[thread]}'

    def buffer(self, thread):
        self.buffers[thread] = self.buffers.get(thread, 0) + 1
        return f'B{thread}.{self.buffers[thread]}'


def numbers(order, count, low, high):
    return '[' + ','.join(str(order.randrange(low, high)) for _ in range(count)) + ']'


def strings(lines):
    """Short strings, each asked for its length and deleted."""
    calls, order = Calls(), random.Random(1)
    yield from calls.attach(1)
    while True:
        text = calls.ref('L', 1)
        yield calls.line(1, 'NewString ' + numbers(order, order.randrange(12), 32, 127))
        yield calls.line(1, 'GetStringLength ' + text)
        yield calls.line(1, 'DeleteLocalRef ' + text)


def long_lists(lines):
    """Strings of a thousand units."""
    calls, order = Calls(), random.Random(1)
    yield from calls.attach(1)
    while True:
        text = calls.ref('L', 1)
        yield calls.line(1, 'NewString ' + numbers(order, 1000, 0, 65536))
        yield calls.line(1, 'DeleteLocalRef ' + text)


def locals_kept(lines):
    """Half of the lines make strings; the rest ask for one at random, or delete one."""
    calls, order = Calls(), random.Random(1)
    yield from calls.attach(1)
    live = []
    for _ in range(lines // 2):
        live.append(calls.ref('L', 1))
        yield calls.line(1, 'NewString [65]')
    while live:
        at = order.randrange(len(live))
        if order.random() < 0.1:
            yield calls.line(1, 'DeleteLocalRef ' + live[at])
            live[at] = live[-1]
            live.pop()
        else:
            yield calls.line(1, 'GetStringLength ' + live[at])


def globals_kept(lines):
    """Half of the lines make global and weak references by two threads, a quarter ask for them, the rest
    delete them, all at random."""
    calls, order = Calls(), random.Random(1)
    yield from calls.attach(1, 2)
    live = []
    for n in range(lines // 8):
        thread = order.choice((1, 2))
        text, kept, weak = calls.ref('L', thread), calls.ref('G', thread), calls.ref('W', thread)
        yield calls.line(thread, 'NewString [65]')
        yield calls.line(thread, 'NewGlobalRef ' + text)
        yield calls.line(thread, 'NewWeakGlobalRef ' + text)
        yield calls.line(thread, 'DeleteLocalRef ' + text)
        live.append((kept, weak))
    for n in range(lines // 4):
        kept, weak = order.choice(live)
        yield calls.line(order.choice((1, 2)), order.choice((f'GetStringLength {kept}', f'IsSameObject {kept} {weak}')))
    order.shuffle(live)
    for kept, weak in live:
        yield calls.line(1, 'DeleteGlobalRef ' + kept)
        yield calls.line(2, 'DeleteWeakGlobalRef ' + weak)


def frames(lines):
    """Frames of twenty locals, pushed and popped."""
    calls, order = Calls(), random.Random(1)
    yield from calls.attach(1)
    first = calls.ref('L', 1)
    yield calls.line(1, 'NewString [65]')
    while True:
        yield calls.line(1, 'PushLocalFrame 20')
        for n in range(20):
            last = calls.ref('L', 1)
            yield calls.line(1, f'NewLocalRef {first}' if n % 4 else 'NewString [66]')
        if order.random() < 0.5:
            kept = calls.ref('L', 1)
            yield calls.line(1, 'PopLocalFrame ' + last)
            yield calls.line(1, 'DeleteLocalRef ' + kept)
        else:
            yield calls.line(1, 'PopLocalFrame null')


def arrays(lines):
    """Arrays of a hundred numbers, written and read by regions and by copied buffers."""
    calls, order = Calls(), random.Random(1)
    yield from calls.attach(1)
    while True:
        array, buffer = calls.ref('L', 1), calls.buffer(1)
        yield calls.line(1, 'NewIntArray 100')
        yield calls.line(1, f'SetIntArrayRegion {array} 0 ' + numbers(order, 100, -999, 1000))
        yield calls.line(1, f'GetIntArrayRegion {array} 0 100')
        yield calls.line(1, 'GetIntArrayElements ' + array)
        yield f'T1 - BufferWrite {buffer} {order.randrange(100)} {order.randrange(10 ** 9)}'
        yield f'T1 - BufferRead {buffer} {order.randrange(100)}'
        yield calls.line(1, f'ReleaseIntArrayElements {array} {buffer} 0')
        yield calls.line(1, 'DeleteLocalRef ' + array)


def critical(lines):
    """Critical buffers of a hundred arrays, two at a time and now and then two hundred."""
    calls, order = Calls(), random.Random(1)
    yield from calls.attach(1)
    arrays_made = []
    for _ in range(100):
        arrays_made.append(calls.ref('L', 1))
        yield calls.line(1, 'NewIntArray 100')
    while True:
        for deep in [2] * 99 + [200]:
            pins = []
            for _ in range(deep):
                pins.append((order.choice(arrays_made), calls.buffer(1)))
                yield calls.line(1, 'GetPrimitiveArrayCritical ' + pins[-1][0])
                yield f'T1 - BufferWrite {pins[-1][1]} {order.randrange(100)} {order.randrange(10 ** 6)}'
                yield f'T1 - BufferRead {pins[-1][1]} {order.randrange(100)}'
            order.shuffle(pins)
            for array, buffer in pins:
                yield calls.line(1, f'ReleasePrimitiveArrayCritical {array} {buffer} 0')


def monitors(lines):
    """Two threads enter and exit the monitors of many objects."""
    calls, order = Calls(), random.Random(1)
    yield from calls.attach(1, 2)
    owned = []
    for _ in range(max(2, min(20_000, lines // 20))):
        text, kept = calls.ref('L', 1), calls.ref('G', 1)
        yield calls.line(1, 'NewString []')
        yield calls.line(1, 'NewGlobalRef ' + text)
        yield calls.line(1, 'DeleteLocalRef ' + text)
        owned.append(kept)
    while True:
        of = order.choice(owned)
        yield calls.line(1, 'MonitorEnter ' + of)
        yield calls.line(2, 'MonitorEnter ' + of)
        yield calls.line(1, 'MonitorExit ' + of)


def fields(lines):
    """Fields of many objects are written and read."""
    calls, order = Calls(), random.Random(1)
    yield from calls.attach(1)
    main = calls.ref('L', 1)
    yield calls.line(1, 'FindClass app/Main')
    made = []
    for _ in range(max(2, min(10_000, lines // 20))):
        made.append(calls.ref('L', 1))
        yield calls.line(1, 'AllocObject ' + main)
    while True:
        one, other = order.choice(made), order.choice(made)
        yield calls.line(1, f'SetIntField {one} F15.1 {order.randrange(-2 ** 31, 2 ** 31)}')
        yield calls.line(1, f'GetIntField {one} F15.1')
        yield calls.line(1, f'SetObjectField {one} F15.2 {other}')
        got = calls.ref('L', 1)
        yield calls.line(1, f'GetObjectField {one} F15.2')
        yield calls.line(1, 'DeleteLocalRef ' + got)


def denied(lines):
    """Calls that break one rule or another."""
    calls, order = Calls(), random.Random(1)
    yield from calls.attach(1, 2, 3)
    yield calls.line(1, 'NewString [65]')
    yield calls.line(1, 'NewIntArray 4')
    yield calls.line(1, 'GetIntArrayElements L1.2')
    yield calls.line(3, 'FindClass no/Such')
    while True:
        yield 'T2 E1.1 ExceptionCheck'
        yield 'T1 - ExceptionCheck'
        yield calls.line(1, 'NewString [65,65536]')
        yield calls.line(2, 'GetStringLength L1.1')
        yield calls.line(3, 'NewString [65]')
        yield calls.line(1, f'GetArrayLength L1.{order.randrange(10 ** 5, 10 ** 6)}')
        yield calls.line(1, 'GetArrayLength null')
        yield calls.line(1, 'GetStringLength L1.2')
        yield calls.line(1, 'DeleteGlobalRef L1.1')
        yield f'T1 - BufferRead B1.{order.randrange(10 ** 5, 10 ** 6)} 0'
        yield calls.line(1, 'ReleaseByteArrayElements L1.2 B1.1 0')
        yield calls.line(1, 'MonitorExit L1.1')
        yield calls.line(1, 'PopLocalFrame null')
        yield calls.line(1, 'LoadLibrary lib/Tool tool')


def mixed(lines):
    """Eight threads that do a little of everything."""
    calls, order = Calls(), random.Random(1)
    threads = list(range(1, 9))
    yield from calls.attach(*threads)
    shared = []
    for thread in threads:
        array = calls.ref('L', thread)
        yield calls.line(thread, 'NewIntArray 50')
        shared.append(calls.ref('G', thread))
        yield calls.line(thread, 'NewGlobalRef ' + array)
    while True:
        thread, of = order.choice(threads), order.choice(shared)
        text = calls.ref('L', thread)
        yield calls.line(thread, 'NewString ' + numbers(order, order.randrange(12), 32, 127))
        yield calls.line(thread, 'GetStringLength ' + text)
        yield calls.line(thread, 'PushLocalFrame 8')
        for _ in range(order.randrange(8)):
            calls.ref('L', thread)
            yield calls.line(thread, 'NewLocalRef ' + of)
        yield calls.line(thread, 'PopLocalFrame null')
        yield calls.line(thread, f'SetIntArrayRegion {of} 0 ' + numbers(order, 20, -999, 1000))
        yield calls.line(thread, f'GetIntArrayRegion {of} 10 20')
        buffer = calls.buffer(thread)
        yield calls.line(thread, 'GetPrimitiveArrayCritical ' + of)
        yield f'T{thread} - BufferRead {buffer} 7'
        yield calls.line(thread, f'ReleasePrimitiveArrayCritical {of} {buffer} 0')
        yield calls.line(thread, 'MonitorEnter ' + of)
        yield calls.line(thread, 'MonitorExit ' + of)
        yield calls.line(thread, f'GetStringLength L{thread}.99999999')
        yield calls.line(thread, 'DeleteLocalRef ' + text)


def collect(lines):
    """Strings and small arrays come and go, and each thousandth line is a collection."""
    calls, order = Calls(), random.Random(1)
    yield from calls.attach(1)
    object_class = calls.ref('L', 1)
    yield calls.line(1, 'FindClass java/lang/Object')
    live = []
    while True:
        for _ in range(999):
            if order.random() < 0.5 or len(live) < 10:
                live.append(calls.ref('L', 1))
                yield calls.line(1, order.choice(('NewString [65,66]', f'NewObjectArray 3 {object_class} null')))
            else:
                at = order.randrange(len(live))
                yield calls.line(1, 'DeleteLocalRef ' + live[at])
                live[at] = live[-1]
                live.pop()
        yield 'T0 - Collect'


def call(text, thread=1, session=1):
    return f'T{thread} E{thread}.{session} {text}'


def attach(thread):
    return f'T{thread} - AttachCurrentThread'


def locals_at_random(lines):
    """Half of the lines make strings, half ask for the length of one of them."""
    count = lines // 2
    order = random.Random(1)
    yield attach(1)
    for _ in range(count):
        yield call('NewString []')
    while True:
        yield call(f'GetStringLength L1.{order.randrange(count) + 1}')


def locals_from_the_front(lines):
    """Half of the lines make strings, half delete them, the oldest first."""
    count = lines // 2
    yield attach(1)
    for _ in range(count):
        yield call('NewString []')
    for n in range(1, count + 1):
        yield call(f'DeleteLocalRef L1.{n}')


def deep_frames(lines):
    """A third of the lines push frames, a third make a string in each, a third pop them."""
    count = lines // 3
    yield attach(1)
    for _ in range(count):
        yield call('PushLocalFrame 1')
        yield call('NewString []')
    while True:
        yield call('PopLocalFrame null')


def globals_in_order(lines):
    """A third of the lines make global references of one string, a third ask, a third delete them."""
    count = lines // 3
    yield attach(1)
    yield call('NewString []')
    for _ in range(count):
        yield call('NewGlobalRef L1.1')
    for n in range(count):
        yield call(f'GetStringLength G1.{n + 2}')
    for n in range(count):
        yield call(f'DeleteGlobalRef G1.{n + 2}')


def globals_at_random(lines):
    """As globals_in_order, asked and deleted in any order."""
    count = lines // 3
    names = list(range(2, count + 2))
    random.Random(2).shuffle(names)
    yield attach(1)
    yield call('NewString []')
    for _ in range(count):
        yield call('NewGlobalRef L1.1')
    for n in names:
        yield call(f'GetStringLength G1.{n}')
    for n in names:
        yield call(f'DeleteGlobalRef G1.{n}')


def threads_of_locals(lines):
    """A thousand threads attach, make as many strings each, and detach, over and over."""
    each = max(1, lines // 2000 - 2)
    made, session = [0] * 1001, [0] * 1001
    while True:
        for thread in range(1, 1001):
            session[thread] += 1
            yield attach(thread)
            for _ in range(each):
                yield call('NewString []', thread, session[thread])
            made[thread] += each
        for thread in range(1, 1001):
            yield f'T{thread} - DetachCurrentThread'


def weak_collected(lines):
    """Each second line makes a string, each other a weak reference to it, in frames that are popped;
    at the end all go in one collection."""
    yield attach(1)
    name = 0
    for n in range((lines - 4) * 1000 // 2002):
        if n % 1000 == 0:
            if n:
                yield call('PopLocalFrame null')
            yield call('PushLocalFrame 1')
        yield call('NewString []')
        yield call(f'NewWeakGlobalRef L1.{name + 1}')
        name += 2
    yield call('PopLocalFrame null')
    yield 'T0 - Collect'


def collected_each(lines):
    """A string is made, let go of and collected, over and over: nothing stays, and much has been."""
    yield attach(1)
    for n in range(1, lines):
        yield call('NewString []')
        yield call(f'DeleteLocalRef L1.{n}')
        yield 'T0 - Collect'


ALL = [strings, locals_kept, globals_kept, frames, arrays, critical, monitors, fields, denied, mixed, collect, long_lists,
       locals_at_random, locals_from_the_front, deep_frames, globals_in_order, globals_at_random, threads_of_locals,
       weak_collected, collected_each]
