"""The made drill of a number as text: what `lockstep make` runs, as docs/FORMATS.md describes it."""

ROUNDS, CLIENTS, LAG, DEPARTURE = 400, 4, 3, 300


class Words:
    """The random words of MT19937 (Matsumoto and Nishimura 1998) of a seed, as draws below a number."""

    def __init__(self, seed):
        state = [seed]
        for at in range(1, 624):
            state.append((1812433253 * (state[-1] ^ state[-1] >> 30) + at) & 0xFFFFFFFF)
        self.state, self.at = state, 624

    def word(self):
        state = self.state
        if self.at == 624:
            for at in range(624):
                joined = state[at] & 0x80000000 | state[(at + 1) % 624] & 0x7FFFFFFF
                state[at] = state[(at + 397) % 624] ^ joined >> 1 ^ (0x9908B0DF if joined & 1 else 0)
            self.at = 0
        word = state[self.at]
        self.at += 1
        word ^= word >> 11
        word ^= word << 7 & 0x9D2C5680
        word ^= word << 15 & 0xEFC60000
        return word ^ word >> 18

    def below(self, most):
        return self.word() % 2147483647 % most


def orders(words):
    draw, actor = words.below(8), lambda: 1 + words.below(16)
    if draw in (0, 1):
        return f' {("move", "harvest")[draw]} {actor()} {words.below(16)} {words.below(16)}'
    if draw == 2:
        return f' produce {actor()} {words.below(8)}'
    if draw == 3:
        return f' donate {words.below(4)} {words.below(100)}'
    return f' attack {actor()} {actor()}' if draw == 4 else ''


def made_drill(number):
    words, sent, lines = Words(number), 0, [f'match {CLIENTS} {LAG} {number}']
    peers = range(CLIENTS)
    for at in range(ROUNDS):
        if at == DEPARTURE:
            lines.append(f'drop {CLIENTS - 1}')
        sealing = [c for c in peers if at < DEPARTURE or c < CLIENTS - 1]
        packet = {}
        for c in sealing:
            lines.append(f'seal {c}{orders(words)}')
            packet[c], sent = sent, sent + 1
        lines += [f'up {packet[c]}' for c in sealing if words.below(4)]
        lines += [f'up {packet[c]}' for c in reversed(sealing)]
        told = peers if at <= DEPARTURE else sealing
        lines += [f'down {p} {c} {at}' for p in peers for c in told if words.below(4)]
        lines += [f'tick {p}' for p in peers]
        lines += [f'down {p} {c} {at}' for p in reversed(peers) for c in reversed(told)]
        lines += [f'tick {p}' for p in peers]
        lines.append('tick server')
        first = sent
        for p in peers:
            lines.append(f'report {p}')
            sent += 1
        lines += [f'up {first + p}' for p in peers]
    return '\n'.join(lines) + '\n'


if __name__ == '__main__':
    import sys
    sys.stdout.write(made_drill(int(sys.argv[1])))
