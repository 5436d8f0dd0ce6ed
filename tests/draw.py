"""Drawn scripts for tests/fuzz. A mix is a function from a source of random numbers to events; SCRIPTS names them all.

No script takes a probe off the line. The mix `swaps`, which is not among them, has the event ('withdraw', ID) as well; it packs into a form
that the model alone has.
"""

from itertools import accumulate

from shared import loaded_tool

tool = loaded_tool()

SPEEDS = (0xF0, 0xE1, 0xB4, 0xA5), (0x78, 0x69, 0x3C, 0x2D)  # the configuration bytes of standard speed, and of overdrive
CONFIGURATIONS = SPEEDS[False] + SPEEDS[True]
NEAR_MISSES = 0xD2, 0xC3, 0x96, 0x87, 0x5A, 0x4B, 0x1E, 0x0F, 0x79, 0xD0, 0xF4, 0xF8, 0x04  # bit 1 is 1, or the complement is wrong
PARAMETERS = {  # of each command that has one, those that mean something, and some that look so
    0xE1: (0xF0, 0xE1, 0xC3, 0xD2),
    0xD2: CONFIGURATIONS + NEAR_MISSES,
    0x87: (0x00, 0x80),
    0xA5: (0x33, 0x55, 0xF0, 0xCC, 0xA5, 0x3C, 0x69),
    0x78: (0x00, 0x80),
}
COMMANDS = (0xF0, 0xB4, 0x96, *PARAMETERS)
ON_THE_LINE = 0xB4, 0x87, 0xA5, 0x96, 0x78  # the 1-Wire commands
SWITCHING = 0x87, 0xA5  # those that switch the pull-up on, where SPU is 1
SPU = 0x04  # of a configuration
READ, WAIT = ('read', b''), ('wait', b'')


# ---- events


def write(*data):
    return 'write', bytes(data)


def done(*data):
    """A command that is given time."""
    return [write(*data), WAIT]


def speed(source, fast):
    """The bridge is put to overdrive if it has to be fast, else to standard speed."""
    return write(0xD2, source.choice(SPEEDS[fast]))


def configured(source, strong):
    """A configuration of either speed, with SPU if the pull-up is wanted."""
    return write(0xD2, source.choice([byte for byte in CONFIGURATIONS if bool(byte & SPU) == strong]))


def configuration_read():
    return [write(0xE1, 0xC3), READ]


def speed_after(fast, event):
    """Whether the bridge is fast after an event, where that is not refused as busy."""
    if event == write(0xF0):
        return False
    return next((kind for kind in (False, True) for byte in SPEEDS[kind] if event == write(0xD2, byte)), fast)


def new_id(source):
    """A right ID. Two of them differ in few bits, so that a search goes on for long before they part."""
    body = bytearray([source.choice((0x28, 0x28, 0x19, 0x02)), *bytes(6)])
    for _ in range(source.randrange(5)):
        body[source.randrange(1, 7)] ^= 1 << source.randrange(8)
    return tool.with_crc(body)


def fitting(source, fitted):
    """Mostly a new probe; else a wrong CRC, the family code 00, both, an ID from before, or any eight bytes."""
    probe, way = new_id(source), source.randrange(16)
    if way == 0:
        probe = probe[:7] + bytes([probe[7] ^ 1 << source.randrange(8)])
    elif way == 1:
        probe = tool.with_crc(bytes(1) + probe[1:7])
    elif way == 2:
        probe = bytes(1) + probe[1:]
    elif way == 3 and fitted:
        probe = source.choice(fitted)
    elif way == 4:
        probe = source.randbytes(8)
    fitted.append(probe)
    return 'fit', probe


def unsound(source, probe):
    """Eight bytes near this ID that are none: a wrong CRC, the family code 00, zeros, or any."""
    return source.choice((
        probe[:7] + bytes([probe[7] ^ 1 << source.randrange(8)]),
        tool.with_crc(bytes(1) + probe[1:7]),
        bytes(8),
        source.randbytes(8),
    ))


def command(source, _, codes=COMMANDS):
    code = source.choice(codes)
    if code not in PARAMETERS:
        return write(code)
    return write(code, source.choice(PARAMETERS[code]) if source.randrange(4) else source.randrange(256))


def rough_write(source, _):
    """Any number of bytes; the first is often a command."""
    data = bytearray(source.randbytes(source.randrange(4)))
    if data and source.randrange(3):
        data[0] = source.choice(COMMANDS)
    return write(*data)


def any_event(source, fitted):
    ways = (command, command, rough_write, lambda *_: READ, lambda *_: READ, lambda *_: WAIT, lambda *_: WAIT, fitting)
    return source.choice(ways)(source, fitted)


def looked_at(source, events):
    """The events; where time has passed a register is read."""
    looks = [READ], [READ], [write(0xE1, 0xE1), READ], configuration_read()
    return [event for first in events for event in [first, *(source.choice(looks) if first == WAIT else [])]]


def with_room(events, bits_of=tool.bits_of):
    """No more of the events than the longest script has room for."""
    sizes = accumulate(len(bits_of(event)) for event in events)
    return [event for event, size in zip(events, sizes) if size <= 8 * tool.LONGEST - tool.COUNT_BITS]


# ---- bytes on the line


def in_bytes(_, data):
    """Each byte by Write Byte."""
    return [event for byte in data for event in done(0xA5, byte)]


def out_of_step(source, data):
    """The same bits by commands that do not begin where a byte does; the last one may have more slots behind them."""
    bits = [byte >> i & 1 for byte in data for i in range(8)]
    events = []
    while bits:
        byte = sum(bit << i for i, bit in enumerate(bits[:8])) | source.randrange(256) << len(bits) & 0xFF
        ways = [(1, (0x87, bits[0] << 7))] + [(8, (0xA5, byte))] * bool(events)
        ways += [(3, (0x78, source.choice((0x00, 0x80))))] * all(bits[:3])
        ways += [(8, (0x96,))] * all(bits[:8])
        size, way = source.choice(ways)
        events += done(*way)
        bits = bits[size:]
    return events


def rom_command(source, code, fitted, put=in_bytes):
    """A ROM command with all that it takes; now and then Read ROM takes a byte less, or the ID to match is none on the line. Behind 69h the
    bridge goes to overdrive for the ID, but for one time in six; behind 3Ch every other time."""
    probe = bytearray(source.choice(fitted))
    probe[source.randrange(8)] ^= source.choice((0, 0, 0, 0, 1 << source.randrange(8)))
    if code == 0x55 or code == 0x69 and source.randrange(6) == 0:
        return put(source, [code, *probe])
    courses = {
        0x33: done(0x96) * source.choice((8, 8, 7)),
        0xF0: [event for _ in range(64) for event in done(0x78, source.choice((0x00, 0x80)))],
        0x3C: [speed(source, True)] * source.randrange(2),
        0x69: [speed(source, True), *put(source, probe)],
    }
    return put(source, [code]) + courses.get(code, [])


def hurried(source):
    """All probes go from standard speed to overdrive, and so does the bridge."""
    return done(0xB4) + done(0xA5, 0x3C) + [speed(source, True)]


# ---- mixes


def mixed(source):
    """All events in any order."""
    fitted = []
    return [any_event(source, fitted) for _ in range(source.randrange(200))]


def slots(source):
    """A command of the line with what is read after it."""
    return source.choice((
        done(0x96) + [write(0xE1, 0xE1), READ],
        done(0x87, source.choice((0x00, 0x80))) + [READ],
        done(0x78, source.choice((0x00, 0x80))) + [READ],
        done(0xA5, source.choice((0x00, 0xFF, source.randrange(256)))) + [READ],
    ))


def session(source, probes=None):
    """Probes, then reset and a ROM command and slots, again and again; now and then something comes between. One in eight is at
    overdrive."""
    fitted = []
    events = [fitting(source, fitted) for _ in range(source.randrange(7) if probes is None else probes)]
    events += hurried(source) if source.randrange(8) == 0 else []
    for _ in range(source.randrange(1, 5)):
        events += done(0xB4) + [READ] + done(0xA5, source.choice((0x33, 0x33, 0xF0, 0xF0, 0x55, 0xCC, 0xA5)))
        for _ in range(source.randrange(40)):
            events += slots(source)
            if source.randrange(12) == 0:
                events.append(any_event(source, fitted))
    return events


def crowd(source):
    """As a session, with about 64 probes."""
    return session(source, source.randrange(60, 90))


def search(source):
    """Some passes of 64 triplets and more; one in four is disturbed on the way. One script in six searches at overdrive."""
    fitted = []
    events = [fitting(source, fitted) for _ in range(source.randrange(1, 12))]
    events += hurried(source) if source.randrange(6) == 0 else []
    for _ in range(source.randrange(1, 4)):
        events += done(0xB4) + [READ] + done(0xA5, 0xF0)
        for _ in range(66):
            events += done(0x78, source.choice((0x00, 0x80))) + [READ]
        if source.randrange(4) == 0:
            events.insert(source.randrange(len(events)), any_event(source, fitted))
    return events


def marking(source):
    """Some probes; a match or a search, then any ROM command or an unknown code, again and again, mostly each after a reset."""
    fitted = []
    events = [fitting(source, fitted) for _ in range(source.randrange(1, 5))]
    for _ in range(source.randrange(1, 4)):
        events.append(speed(source, False))
        for codes in ((0x55, 0xF0), (0x33, 0x55, 0xF0, 0xCC, 0xA5, 0x3C, 0x69, source.randrange(256))):
            events += done(0xB4) if source.randrange(8) else []
            events += rom_command(source, source.choice(codes), fitted)
    return events


def raised(source, fitted):
    """At standard speed a reset, then 3Ch or 69h."""
    back = source.choice((speed(source, False), speed(source, False), write(0xF0)))
    code, put = source.choice(((0x3C, in_bytes), (0x3C, in_bytes), (0x3C, out_of_step), (0x69, in_bytes), (0x69, out_of_step)))
    return [back, *done(0xB4), *rom_command(source, code, fitted, put)]


def driven(source, fitted):
    """Mostly at overdrive and after a reset: a ROM command; then slots, or a reset and often Resume."""
    codes = 0x33, 0x33, 0x55, 0x55, 0xF0, 0xF0, 0xCC, 0xA5, 0xA5, 0xA5, 0x3C, 0x69, 0x69, source.randrange(256)
    events = [speed(source, source.randrange(8) > 0)] + (done(0xB4) if source.randrange(8) else [])
    events += rom_command(source, source.choice(codes), fitted, source.choice((in_bytes, in_bytes, out_of_step)))
    return events + source.choice((slots(source), slots(source) + slots(source), done(0xB4), done(0xB4) + done(0xA5, 0xA5)))


def aside(source, fast):
    """The bridge goes to the other speed and mostly back. There are slots there, and often a reset; seldom at standard speed, where it
    reaches all probes."""
    there = [write(0xF0)] if fast and source.randrange(3) == 0 else [speed(source, not fast)]
    reset = source.randrange(16) == 0 if fast else source.randrange(2)
    deeds = (done(0xB4) + [READ]) * reset + [event for _ in range(source.randrange(1, 4)) for event in slots(source)]
    return there + deeds + ([speed(source, fast)] if source.randrange(6) else [])


def with_asides(source, events):
    """The events, with an aside now and then where time has passed."""
    fast, seldom = False, source.choice((15, 60, 1000))
    for event in events:
        yield event
        fast = speed_after(fast, event)
        if event == WAIT and source.randrange(seldom) == 0:
            yield from aside(source, fast)


def overdrive(source):
    """Some probes are put to overdrive; then resets, ROM commands and slots at either speed, with probes that come later. Half of the
    scripts end on the way."""
    fitted = [new_id(source) for _ in range(source.randrange(1, 6))]
    events = [('fit', probe) for probe in fitted]
    for _ in range(source.randrange(1, 4)):
        events += raised(source, fitted)
        for _ in range(source.randrange(6)):
            if source.randrange(5) == 0:
                events.append(source.choice((fitting, any_event))(source, fitted))
            events += driven(source, fitted)
    events = with_room(looked_at(source, list(with_asides(source, events))))
    return events[:source.choice((len(events), source.randrange(len(events))))]


def refusal(source, _):
    """A write that is refused also where nothing is pending: an unknown code, a wrong number of bytes, a parameter that is not accepted."""
    code, near = source.choice(COMMANDS), source.choice(CONFIGURATIONS)
    return source.choice((
        write(),
        write(source.choice([byte for byte in range(256) if byte not in COMMANDS]), *source.randbytes(source.randrange(3))),
        write(code, *source.randbytes(source.choice((0, 2) if code in PARAMETERS else (1, 2)))),
        write(0xE1, source.randrange(0xC3)),
        write(0xD2, near ^ 1 << source.randrange(8)),
        write(0xD2, near ^ 0x22),
    ))


def line_command(source, fitted, codes):
    """A 1-Wire command, mostly given time. Before that the configuration may be read, a write refused or the bridge reset."""
    ways = refusal, fitting, command, lambda *_: configured(source, source.randrange(2)), lambda *_: write(0xF0)
    between = source.choice(([], [], [], configuration_read(), configuration_read(), [source.choice(ways)(source, fitted)]))
    return [command(source, fitted, codes), *between] + [WAIT] * (source.randrange(10) > 0)


def no_command(source, fitted):
    """An event that leaves the pull-up as it is, where nothing is pending."""
    ways = (refusal, refusal, refusal, fitting, lambda *_: ('fit', unsound(source, new_id(source))),
            lambda *_: write(0xE1, source.choice((0xF0, 0xE1, 0xC3))), lambda *_: READ, lambda *_: WAIT, lambda *_: WAIT)
    return source.choice(ways)(source, fitted)


def powered(source, fitted):
    """The configuration, mostly with SPU, and a 1-Wire command, mostly one that switches the pull-up on; then events that leave it as it
    is, and often one that ends it. On the way the configuration is read."""
    first = line_command(source, fitted, source.choice((ON_THE_LINE, SWITCHING, SWITCHING)))
    events = [configured(source, source.randrange(6) > 0), *[WAIT] * (source.randrange(6) == 0), *first]
    for _ in range(source.randrange(5)):
        events += [no_command(source, fitted), *configuration_read() * source.randrange(2)]
    if source.randrange(3) == 0:
        events += line_command(source, fitted, ON_THE_LINE)
    else:
        events += source.choice(([], [], [configured(source, source.randrange(2))], [write(0xF0)]))
    return events + configuration_read() * source.randrange(2)


def pull_up(source):
    """Some probes; then the pull-up is switched on, left alone and ended, again and again. Half of the scripts end on the way, and some of
    all where a command is pending."""
    fitted = []
    events = [fitting(source, fitted) for _ in range(source.randrange(5))]
    for _ in range(source.randrange(1, 20)):
        events += powered(source, fitted)
    events = events[:source.choice((len(events), source.randrange(len(events))))]
    return events + source.choice(([], [], [], [configured(source, True), command(source, fitted, ON_THE_LINE)]))


def filling(source, size):
    """As many events as fill a script of this many bytes."""
    room = 8 * size - 16
    events, mix = [], source.choice((mixed, session, crowd))
    while room > 1000:
        for event in mix(source):
            room -= len(tool.bits_of(event))
            if room < 0:
                room += len(tool.bits_of(event))
                break
            events.append(event)
    return events + [READ] * (room // 2)


# ---- scripts that may be of no form


def any_bytes(source):
    return source.randbytes(source.choice((source.randrange(8), source.randrange(100), source.randrange(4097))))


def long(source):
    """A script of 4,090 to 4,096 bytes; one of 4,096 with some bytes behind it; 4,097 bytes that are of the form but for their number."""
    size, behind = source.choice((
        (source.randrange(4090, 4096), b''),
        (4096, b''),
        (4096, bytes(1)),
        (4096, source.randbytes(source.randrange(1, 8))),
        (4097, b''),
    ))
    return tool.script_of(filling(source, size)) + behind


def with_count(script, count):
    return (count % 65536).to_bytes(2, 'big') + script[2:]


def flipped(source, script):
    place = source.randrange(8 * len(script))
    changed = bytearray(script)
    changed[place // 8] ^= 1 << place % 8
    return bytes(changed)


def to_byte_end(events):
    """The events and as many reads as leave no padding."""
    bits = sum(len(tool.bits_of(event)) for event in events)
    return events + [READ] * (-bits % 8 // 2)


def mutated(source):
    """A script of the form, with a change that may take it out of the form."""
    events = source.choice((mixed, session, search))(source)[:source.randrange(300)]
    script = tool.script_of(source.choice((list, to_byte_end))(events))
    count = int.from_bytes(script[:2], 'big')
    place = source.randrange(len(script))
    return source.choice((
        flipped(source, script),
        flipped(source, flipped(source, script)),
        script[:-1],
        script[:place],
        script[:place] + script[place + 1:],
        script + bytes(1),
        script + source.randbytes(1),
        script[:-1] + bytes([script[-1] | 1]),
        script[:-1] + bytes([script[-1] | 2]),
        with_count(script, count + source.choice((1, -1, 256, -256))),
        script[1::-1] + script[2:],
    ))


def packed(mix):
    return lambda source: tool.script_of(mix(source))


SCRIPTS = {  # how many parts of the whole each is, and how it is drawn
    'mixed': (5, packed(mixed)),
    'session': (5, packed(session)),
    'crowd': (2, packed(crowd)),
    'search': (2, packed(search)),
    'marking': (6, packed(marking)),
    'overdrive': (6, packed(overdrive)),
    'pull-up': (4, packed(pull_up)),
    'long': (2, long),
    'any bytes': (2, any_bytes),
    'mutated': (7, mutated),
}


# ---- probes that come and go


def coming(source, line, gone):
    """A fitting: mostly of a new probe or of one that was there before; else of one that is there, or of no sound ID."""
    probe, way = new_id(source), source.randrange(10)
    if way < 5 and gone:
        probe = source.choice(gone)
    elif way == 5 and line:
        probe = source.choice(line)
    elif way == 6:
        return 'fit', unsound(source, probe)
    if probe not in line and len(line) < 64:
        line.append(probe)
    return 'fit', probe


def going(source, line, gone):
    """A withdrawal: mostly of a probe that is there; else of one that is gone or never was, or of no sound ID."""
    if line and source.randrange(10) < 7:
        gone.append(line.pop(source.choice((0, -1, source.randrange(len(line))))))
        return 'withdraw', gone[-1]
    absent = [probe for probe in gone if probe not in line] + [new_id(source)]
    return 'withdraw', source.choice((source.choice(absent), unsound(source, source.choice(line + absent))))


def swapping(source, line, gone):
    """Mostly one event; now and then a probe goes and comes again at once, often the last one."""
    if line and source.randrange(5) == 0:
        probe = line.pop(source.choice((-1, source.randrange(len(line)))))
        line.append(probe)
        return [('withdraw', probe), ('fit', probe)]
    return [source.choice((coming, going))(source, line, gone)]


def meant(source, line):
    """The probes that a ROM command may be meant for, often the last one."""
    return source.choice((line, line[-1:])) or [new_id(source)]


def course(source, line):
    """A reset, a ROM command with what it takes, and slots; after each a register is read. Every other time the configuration is written
    first, with SPU or without."""
    code = source.choice((0x33, 0x55, 0x55, 0x55, 0xF0, 0xF0, 0xCC, 0xA5, 0xA5, 0xA5))
    events = [speed(source, False)] * source.randrange(2) + done(0xB4) + rom_command(source, code, meant(source, line))
    events += [event for _ in range(source.randrange(4)) for event in slots(source)]
    return looked_at(source, events)


def fast_course(source, line):
    """As a course, mostly at overdrive, or one that puts probes there."""
    return looked_at(source, source.choice((raised, driven, driven, driven))(source, meant(source, line)))


def last_swapped(source, line):
    """Another comes in the last probe's room, or it comes itself."""
    probe = line.pop() if line else new_id(source)
    line.append(source.choice((probe, new_id(source))))
    return [('withdraw', probe), ('fit', line[-1])]


def mark_swapped(source, line):
    """The last probe is matched and swapped; then often a reset and Resume."""
    swap = last_swapped(source, line)
    events = done(0xB4) + in_bytes(source, [0x55, *swap[0][1]])
    return events + swap + source.choice(([], done(0xB4) + done(0xA5, 0xA5)))


def speed_swapped(source, line):
    """The last probe is swapped while all are at overdrive; then often a reset there."""
    swap = last_swapped(source, line)
    return [speed(source, False), *hurried(source), *swap] + source.choice(([], done(0xB4) + [READ]))


def power_swapped(source, line, gone):
    """The pull-up is switched on and some probes come and go; then often the configuration is read."""
    events = [configured(source, True), command(source, line, SWITCHING), WAIT]
    for _ in range(source.randrange(1, 5)):
        events += swapping(source, line, gone)
    return events + configuration_read() * source.randrange(2)


def stirred(source, events, line, gone):
    """The events with swaps at any place, also where a command is pending, and now and then with another command."""
    seldom = source.choice((5, 12, 40))
    for event in events:
        yield event
        if source.randrange(seldom) == 0:
            yield from swapping(source, line, gone)
        if source.randrange(100) == 0:
            yield command(source, line)


def swaps(source):
    """Some probes, or about 64; then courses, stirred, the last one often cut short; one case in four is at overdrive. Some
    cases end with swaps while the pull-up is on. No more than the longest script has room for."""
    line, gone = [], []
    fast = source.randrange(4) == 0
    number = source.choice((source.randrange(1, 7), source.randrange(1, 7), source.randrange(80, 110)))
    events = [speed(source, False)] + [coming(source, line, gone) for _ in range(number)]
    events += hurried(source) if fast else []
    for left in reversed(range(source.randrange(2, 6))):
        steps = (fast_course if fast else course)(source, line)
        end = len(steps) if left or source.randrange(2) else source.randrange(len(steps))
        events += stirred(source, steps[:end], line, gone)
        events += swapping(source, line, gone) if source.randrange(2) else []
    if source.randrange(2 if fast else 5) == 0:
        events += (speed_swapped if fast else mark_swapped)(source, line)
    elif source.randrange(4) == 0:
        events += power_swapped(source, line, gone)
    return with_room(events, swap_bits)


def swap_bits(event):
    """As in a script, but that a bit stands before an ID: 0 for a fitting, 1 for a withdrawal."""
    word, data = event
    if word not in ('fit', 'withdraw'):
        return tool.bits_of(event)
    bits = tool.bits_of(('fit', data))
    return bits[:2] + str(int(word == 'withdraw')) + bits[2:]


def swaps_packed(events):
    """As tool.script_of packs a script."""
    bits = f'{len(events):016b}' + ''.join(map(swap_bits, events))
    return bytes(int(bits[i:i + 8].ljust(8, '0'), 2) for i in range(0, len(bits), 8))
