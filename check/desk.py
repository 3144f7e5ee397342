"""What a desk does, as a plain program: from its definition, the language of requests and the rules of charges, without the
built program. check/desks, which checks `desk` on real files, uses it."""

CLASSES = 27
SIZE_MAX = 1 << 26
RING = 1 << 20
SESSIONS = 8
LINE = 270
KINDS = {b'put': 3, b'get': 2, b'old': 2, b'del': 2, b'keep': 1, b'back': 1, b'list': 1, b'stat': 1}
READS = (b'get', b'list')


class NoText(Exception):
    """No event or request is in front of the bytes."""


def is_word(word, most):
    """Whether a word may be a name in a line, of at most so many bytes."""
    return 1 <= len(word) <= most and all(0x21 <= byte <= 0x7E for byte in word)


def line_at(text, at):
    """The line in front, and where the next one begins."""
    end = text.find(b'\n', at, at + LINE + 1)
    if end < 0:
        raise NoText
    return text[at:end], end + 1


def request_at(text, at):
    """The request in front, as its kind, its name and its object, and where the next begins."""
    line, at = line_at(text, at)
    words = line.split(b' ')
    if KINDS.get(words[0]) != len(words):
        raise NoText
    if len(words) > 1 and not is_word(words[1], 255):
        raise NoText
    if len(words) < 3:
        return (words[0], words[1] if len(words) > 1 else None, None), at
    digits = words[2]
    if not digits.isdigit() or (digits != b'0' and digits[:1] == b'0') or int(digits) >= 1 << 32:
        raise NoText
    end = at + int(digits)
    if text[end:end + 1] != b'\n':
        raise NoText
    return (words[0], words[1], text[at:end]), end + 1


def event_at(text, at):
    """The event in front, as its kind, its session, its request and how long the request's text is; and where the next begins."""
    line, behind = line_at(text, at)
    if line == b'step':
        return (b'step', None, None, 0), behind
    kind, blank, digit = line.partition(b' ')
    if kind not in (b'say', b'serve') or not blank or len(digit) != 1 or not b'0' <= digit <= b'7':
        raise NoText
    session = int(digit)
    if kind == b'serve':
        return (kind, session, None, 0), behind
    request, end = request_at(text, behind)
    return (kind, session, request, end - behind), end


def class_of(size):
    """The class of a size of at least 1."""
    return size.bit_length() - 1


class Book:
    """How many bytes each segment and its buffer have, what was taken of each buffer by the class of what took it, and which names
    stand in buffers."""

    def __init__(self, k):
        self.k = k
        self.room = [0] * CLASSES
        self.taken = [[0] * CLASSES for _ in range(CLASSES)]
        self.buffered = set()

    def copy(self):
        other = Book(self.k)
        other.room = self.room[:]
        other.taken = [row[:] for row in self.taken]
        other.buffered = set(self.buffered)
        return other

    def charge(self, size):
        """Whether some buffer has room for so many bytes, which it then has given."""
        c = class_of(size)
        for j in range(c, CLASSES):
            if sum(self.taken[j]) + size <= self.room[j] // self.k:
                self.taken[j][c] += size
                return True
        return False

    def boundary(self, trigger):
        """From which class on everything is laid out anew, where the least class that found no room is this one."""
        for b in range(trigger, 0, -1):
            if not any(self.taken[j][c] for j in range(b, CLASSES) for c in range(b)):
                return b
        return 0

    def settle(self, b, objects):
        """Lays out all classes from one on."""
        for c in range(b, CLASSES):
            self.room[c] = sum(len(o) for o in objects.values() if o and class_of(len(o)) == c)
            self.taken[c] = [0] * CLASSES
        self.buffered = {n for n in self.buffered if class_of(len(objects[n])) < b}


class Store:
    """What stands now and what the last checkpoint has."""

    def __init__(self, k, names):
        self.names = names
        self.now, self.book = {}, Book(k)
        self.keep()

    def keep(self):
        self.kept, self.kept_book = dict(self.now), self.book.copy()

    def back(self):
        self.now, self.book = dict(self.kept), self.kept_book.copy()

    def refusal(self, kind, name, given):
        """Why a request isn't served, or none."""
        if name is not None and not is_word(name, 63):
            return b'name'
        if kind == b'put' and len(given) > SIZE_MAX:
            return b'size'
        there = self.kept if kind == b'old' else self.now
        if kind in (b'get', b'del', b'old') and name not in there:
            return b'missing'
        if kind == b'put' and name not in self.now and len(self.now) == self.names:
            return b'full'
        return None

    def change(self, name, given):
        """Puts an object, or removes one where none is given. Whether that takes a flush."""
        missed = []
        old = self.now.get(name)
        if old and name not in self.book.buffered and not self.book.charge(len(old)):
            missed.append(class_of(len(old)))
        self.book.buffered.discard(name)
        self.now.pop(name, None)
        if given is not None:
            self.now[name] = given
            if given and self.book.charge(len(given)):
                self.book.buffered.add(name)
            elif given:
                missed.append(class_of(len(given)))
        if missed:
            self.book.settle(self.book.boundary(min(missed)), self.now)
            self.keep()
        return bool(missed)

    def serve(self, request):
        """The reply to a request, and whether it took a flush."""
        kind, name, given = request
        why = self.refusal(kind, name, given)
        if why:
            return b'refused %s\n' % why, False
        if kind in (b'put', b'del'):
            flushes = self.change(name, given)
            return (b'ok kept\n' if flushes else b'ok\n'), flushes
        if kind == b'keep':
            self.keep()
            return b'ok kept\n', False
        if kind == b'back':
            self.back()
            return b'ok\n', False
        if kind == b'list':
            lines = b''.join(b'%s %d\n' % (n, len(self.now[n])) for n in sorted(self.now))
            return b'list %d\n' % len(self.now) + lines, False
        if kind == b'stat':
            return b'stat %d %d %d %d\n' % (len(self.now), sum(map(len, self.now.values())), len(self.kept),
                sum(map(len, self.kept.values()))), False
        found = (self.kept if kind == b'old' else self.now)[name]
        return b'data %d\n%s\n' % (len(found), found), False


class Desk:
    """Eight sessions before one store: the requests that wait, with the length of each text, and the flush in hand, as its session,
    how many steps it may still take, and the map of the checkpoint before it."""

    def __init__(self, store):
        self.store = store
        self.queues = [[] for _ in range(SESSIONS)]
        self.hand = None

    def answer(self, event):
        """The answers that the event may have: but for `step` there is one."""
        kind, session, request, length = event
        if kind == b'say':
            free = RING - sum(n for _, n in self.queues[session])
            if length > free:
                return [b'full %d\n' % session]
            self.queues[session].append((request, length))
            return [b'queued %d\n' % session]
        if kind == b'serve':
            return [self.take(session)]
        if self.hand is None:
            return [b'idle\n']
        settled = b'to %d\nok kept\n' % self.hand[0]
        return [b'moved\n', settled] if self.hand[1] > 1 else [settled]

    def take(self, session):
        """What is answered to a `serve`."""
        queue = self.queues[session]
        if not queue:
            return b'empty %d\n' % session
        request = queue[0][0]
        if self.hand is not None and (self.hand[0] == session or request[0] not in READS):
            return b'wait %d\n' % session
        queue.pop(0)
        kept = self.store.kept
        reply, flushes = self.store.serve(request)
        if flushes:
            self.hand = (session, 2 * len(self.store.now) + 1, kept)
            return b'begun %d\n' % session
        return b'to %d\n' % session + reply

    def went(self, event, answer):
        """Notes how a step went."""
        if event[0] == b'step' and self.hand is not None:
            session, steps, kept = self.hand
            self.hand = (session, steps - 1, kept) if answer == b'moved\n' else None

    def end(self):
        """What is put at the end of the input."""
        settled = b'' if self.hand is None else b'to %d\nok kept\n' % self.hand[0]
        self.hand = None
        return settled + b'left %d\n' % sum(map(len, self.queues))


def served(k, names, requests):
    """The store that a session of these requests leaves, on a new file."""
    store, at = Store(k, names), 0
    while at < len(requests):
        request, at = request_at(requests, at)
        store.serve(request)
    store.back()
    return store


def judge(store, script, put, status):
    """What is wrong with these bytes, put of a script by `desk` over the store, and with its status, or nothing; and the maps that the
    file may have then."""
    desk = Desk(store)
    at, seen, count = 0, 0, 0
    while at < len(script):
        count += 1
        try:
            event, at = event_at(script, at)
        except NoText:
            last, wanted = b'fault request %d\n' % count, 2
            break
        answers = desk.answer(event)
        answer = next((a for a in answers if put.startswith(a, seen)), None)
        if answer is None:
            return 'event %d: %r, and not %r' % (count, put[seen:seen + 40], answers), []
        desk.went(event, answer)
        seen += len(answer)
    else:
        last, wanted = desk.end(), 0
    if put[seen:] != last:
        return 'the end: %r, and not %r' % (put[seen:seen + 60], last), []
    if status != wanted:
        return 'the status: %d, and not %d' % (status, wanted), []
    return None, [store.kept] if desk.hand is None else [desk.hand[2], store.kept]
