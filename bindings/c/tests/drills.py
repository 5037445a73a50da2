"""Random drills over a map with actors: packets are lost, repeated and reordered, clients leave, reports lie."""
import random


class Drill:
    def __init__(self, seed, rounds, actors, size):
        self.random = random.Random(seed)
        self.clients, self.lag, self.rounds = self.random.randint(1, 5), self.random.randint(1, 4), rounds
        self.actors, self.size = actors, size
        self.lines = [f'match {self.clients} {self.lag} {self.random.randrange(1 << 32)}']
        self.sent, self.plays, self.left = [], [0] * self.clients, [False] * self.clients
        self.sealed, self.ticked = [0] * self.clients, [0] * self.clients
        self.have = [[set() for _ in range(self.clients)] for _ in range(self.clients)]

    def order(self):
        draw, actor = self.random, self.random.randint(1, self.actors)
        cell = f'{draw.randrange(self.size[0])} {draw.randrange(self.size[1])}'
        return draw.choice([f'move {actor} {cell}', f'move+ {actor} {cell}', f'harvest {actor} {cell}',
                            f'attack {actor} {draw.randint(1, self.actors)}', f'attack+ {actor} {draw.randint(1, self.actors)}',
                            f'stop {actor}', f'produce {actor} {draw.randrange(5)}', f'cancel {actor}',
                            f'donate {draw.randrange(self.clients + 1)} {draw.randrange(400)}', f'pace {draw.randint(0, 9)}'])

    def seal(self, peer):
        orders = ' ; '.join(self.order() for _ in range(self.random.choice([0, 0, 1, 1, 2, 5])))
        self.lines.append(f'seal {peer} {orders}'.rstrip())
        if self.sealed[peer] < self.ticked[peer] + self.lag and not self.has_left(peer, peer):
            self.sent.append((peer, self.sealed[peer]))
            self.sealed[peer] += 1

    def has_left(self, peer, client):
        return any(leaves for _, leaves in self.have[peer][client])

    def up(self, number):
        self.lines.append(f'up {number}')
        if number >= len(self.sent):
            return
        client, frame = self.sent[number]
        if frame is None:
            self.left[client] = True
        elif frame == self.plays[client] and not self.left[client]:
            self.plays[client] += 1

    def down(self, peer, client, frame):
        self.lines.append(f'down {peer} {client} {frame}')
        if frame < self.plays[client]:
            self.have[peer][client].add((frame, False))
        elif frame == self.plays[client] and self.left[client]:
            self.have[peer][client].add((frame, True))

    def tick(self, peer):
        self.lines.append(f'tick {peer}')
        frame, plays = self.ticked[peer], False
        for client in range(self.clients):
            if (frame, False) in self.have[peer][client]:
                plays = True
            elif not any(leaves and at <= frame for at, leaves in self.have[peer][client]):
                return
        self.ticked[peer] += plays

    def report(self, peer):
        self.lines.append(f'report {peer}')
        if self.ticked[peer]:
            self.sent.append((peer, -1))

    def rare(self, is_late):
        """A departure, in the last part of a match alone, or a report that lies."""
        draw, client = self.random, self.random.randrange(self.clients)
        it = draw.randrange(20)
        if it == 0 and is_late:
            self.lines.append(f'drop {client}')
            self.left[client] = True
        elif it == 1 and is_late:
            self.lines.append(f'bye {client}')
            self.sent.append((client, None))
        elif it == 2:
            frame = draw.choice([0, 1, self.plays[client], 262143, 262144, 4294967295])
            self.lines.append(f'forge {client} {frame} {draw.randrange(1 << 64):016x}')
            self.sent.append((client, -1))

    def round(self, is_late):
        draw, everybody = self.random, range(self.clients)
        for peer in everybody:
            for _ in range(draw.choice([0, 1, 1, 2])):
                self.seal(peer)
        self.rare(is_late)
        recent = range(max(0, len(self.sent) - 10 * self.clients), len(self.sent))
        for _ in range(self.clients):
            self.up(draw.randrange(recent.start, recent.stop + 1))
        # Most plays that are missing are sent again, in their order, and some of what is not.
        for number in recent:
            client, frame = self.sent[number]
            if draw.random() < (0.8 if frame is not None and frame >= self.plays[client] else 0.1):
                self.up(number)
        for peer in everybody:
            downs = [(client, frame) for client in everybody
                     for frame in range(max(0, self.ticked[peer] - 1), self.plays[client] + 1) if draw.random() < 0.8]
            draw.shuffle(downs)
            for client, frame in downs:
                self.down(peer, client, frame)
            for _ in range(draw.randint(1, 3)):
                self.tick(peer)
            if draw.random() < 0.7:
                self.report(peer)
        self.lines += ['tick server'] * draw.randint(1, 2)

    def text(self):
        for at in range(self.rounds):
            self.round(at > 2 * self.rounds / 3)
        return '\n'.join(self.lines) + '\n'


def random_drill(seed, rounds=60, actors=20, size=(16, 16)):
    return Drill(seed, rounds, actors, size).text()


if __name__ == '__main__':
    import sys
    sys.stdout.write(random_drill(int(sys.argv[1])))
