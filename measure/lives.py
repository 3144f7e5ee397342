"""Drawn requests of a session, the objects that they lead to, and the objects of a file. measure/full_size uses it."""
import functools
import hashlib
import os
import random
import subprocess
import time

BASIS, PRIME, M64 = 14695981039346656037, 1099511628211, (1 << 64) - 1


class Map:
    """The objects that are there now and those of the last checkpoint."""

    def __init__(self, objects=()):
        self.now = dict(objects)
        self.kept = dict(self.now)

    def after(self, request, reply):
        """Does what a request did that got this reply."""
        word, name, body = request
        if reply not in (b'ok', b'ok kept'):
            return
        if word == 'put':
            self.now[name] = body
        elif word == 'del':
            del self.now[name]
        elif word == 'back':
            self.now = dict(self.kept)
        if reply == b'ok kept':
            self.kept = dict(self.now)


def saved_by(objects, request, room=16):
    """The objects of the checkpoint that a request may save in a file with room for so many, or None if it saves none."""
    word, name, _ = request
    if word == 'back' or word == 'del' and name not in objects or word == 'put' and len(objects) >= room and name not in objects:
        return None
    it = Map(objects)
    it.after(request, b'ok')
    return it.now


def text(request):
    """The text of a request."""
    word, name, body = request
    if word == 'put':
        return b'put %s %d\n%s\n' % (name, len(body), body)
    return f'{word} {name.decode()}\n'.encode() if name else f'{word}\n'.encode()


def drawn(chance, names, count, most):
    """Drawn requests: of 16, ten are puts, three removals, two checkpoints, and one goes back to the last checkpoint."""
    for _ in range(count):
        name = b'o%d' % chance.randrange(names)
        kind = chance.randrange(16)
        if kind < 10:
            size = chance.choice([0, chance.randrange(1, 64), chance.randrange(1, most + 1)])
            yield ('put', name, chance.randbytes(size))
        elif kind < 13:
            yield ('del', name, b'')
        else:
            yield ('keep' if kind < 15 else 'back', b'', b'')


def replies(output):
    """The whole lines of an output, each a reply."""
    return output[:output.rfind(b'\n') + 1].splitlines()


@functools.lru_cache(maxsize=4096)
def hashed_object(name, body):
    """The hash of an object, as in measure/crash_images.c: FNV-1a over its record's name and size, and its bytes."""
    value = BASIS
    for byte in bytes([len(name)]) + name.ljust(63, b'\0') + len(body).to_bytes(8, 'little') + body:
        value = (value ^ byte) * PRIME & M64
    return value


def hashed(objects):
    """The hash of a map: the sum of the hashes of its objects."""
    return sum(hashed_object(name, body) for name, body in objects.items()) & M64


def objects_of(program, file):
    """The objects of a file, by `dump`."""
    ran = subprocess.run([program, 'dump', file], stdout=subprocess.PIPE, stderr=subprocess.PIPE)
    if ran.returncode:
        raise SystemExit(f'full_size: dump {file}: status {ran.returncode}: {ran.stderr.decode()}')
    at = ran.stdout.index(b'\n') + 1
    objects = {}
    while at < len(ran.stdout):
        end = ran.stdout.index(b'\n', at)
        _, name, size = ran.stdout[at:end].split()
        objects[name] = ran.stdout[end + 1:end + 1 + int(size)]
        at = end + 2 + int(size)
    return objects


def same(objects):
    """A short digest that tells maps apart, for messages."""
    return hashlib.sha256(repr(sorted(objects.items())).encode()).hexdigest()[:12]


def live(program, file, known, chance, names, most):
    """One life of a store: a session of drawn requests, killed at a drawn moment. Answers the map that is found then, whether
    it is that of the last acknowledged checkpoint or of the one that was being saved, and how many requests were
    answered."""
    asks = list(drawn(chance, names, chance.randrange(1, 120), most))
    with open(file + '.in', 'wb') as given:
        given.writelines(text(ask) for ask in asks)
    with open(file + '.in', 'rb') as given, open(file + '.out', 'wb') as put:
        it = subprocess.Popen([program, 'run', file], stdin=given, stdout=put, stderr=subprocess.DEVNULL)
        time.sleep(chance.random() ** 2 * 0.03)
        it.kill()
        it.wait()
    with open(file + '.out', 'rb') as put:
        answers = replies(put.read())
    acted = Map(known)
    for ask, answer in zip(asks, answers):
        acted.after(ask, answer)
    found = objects_of(program, file)
    if found == acted.kept:
        return found, 'acknowledged', len(answers)
    if len(answers) < len(asks) and found == saved_by(acted.now, asks[len(answers)]):
        return found, 'being saved', len(answers)
    raise SystemExit(f'full_size: {file}: {same(found)} is neither {same(acted.kept)} nor saved by the request after {len(answers)} replies')


def lives(program, folder, number, count):
    """So many lives of a store on a real file, with the map compared after each. Answers how often each outcome was found."""
    chance = random.Random(number)
    divisor = (2, 9, 17, 64)[number % 4]
    file = os.path.join(folder, f'lives{number}')
    if not os.path.exists(file):
        subprocess.run([program, 'format', file, str(divisor), '16'], check=True, stdout=subprocess.DEVNULL)
    known, told = objects_of(program, file), {'acknowledged': 0, 'being saved': 0, 'requests': 0}
    for _ in range(count):
        known, which, answered = live(program, file, known, chance, 20, 3000)
        told[which] += 1
        told['requests'] += answered
    return told
