#!/usr/bin/env python3
"""A player in another language: it joins a match over TCP and plays frames without orders, but for a donation.

usage: client.py ADDRESS FRAMES [--map MAP] [RULES ..]

Its packets are those of docs/FORMATS.md, and what it sends when is what docs/LOCKSTEP.md says of a client at its link. It
has no world, so it reports none. The rules number is made of what `lockstep yaml` prints.
"""
import argparse, os, shutil, socket, struct, subprocess

LOCKSTEP = shutil.which('lockstep') or os.path.join(os.path.dirname(os.path.abspath(__file__)), '../../lockstep')
HELLO, ORDERS, BYE = 1, 2, 4
WELCOME, PLAY, DEPARTURE = 17, 19, 20


def fnv(data):
    number = 14695981039346656037
    for byte in data:
        number = (number ^ byte) * 1099511628211 % 2**64
    return number


def rules_number(rules, map_file):
    def text(files):
        return subprocess.run([LOCKSTEP, 'yaml', *files], check=True, stdout=subprocess.PIPE).stdout if files else b''

    return fnv(text(rules) + b'\0' + text([map_file] if map_file else []))


def packets(link):
    """The payloads that come, until the link ends."""
    held = b''
    while piece := link.recv(4096):
        held += piece
        while len(held) >= 2 and len(held) >= 2 + int.from_bytes(held[:2], 'little'):
            end = 2 + int.from_bytes(held[:2], 'little')
            yield held[2:end]
            held = held[end:]


class Match:
    """What of each client has come down: how many plays, and whether its departure."""

    def __init__(self, clients):
        self.plays, self.left, self.ready = [0] * clients, [False] * clients, 0

    def take(self, entry):
        tag, client = entry[:2]
        if tag == PLAY:
            self.plays[client] += 1
        elif tag == DEPARTURE:
            self.left[client] = True
        # A world would be stepped by each frame that is ready.
        while self.ready < max(self.plays) and all(self.ready < n or gone for n, gone in zip(self.plays, self.left)):
            self.ready += 1


def play(link, number, frames):
    def send(payload):
        link.sendall(struct.pack('<H', len(payload)) + payload)

    send(struct.pack('<BHQ', HELLO, 2, number))
    down = packets(link)
    first = next(down, b'')
    if first[:1] != bytes([WELCOME]):
        raise SystemExit(f'client: the server answered {first}')
    _, me, clients, lag, _ = struct.unpack('<BBBBI', first)
    match, sealed, said_bye = Match(clients), 0, False
    while not all(match.left):
        while sealed < min(frames, match.ready + lag):
            # In frame 0 it gives 10 cash to the next client; else a play has no orders.
            orders = struct.pack('<BBBI', 1, 7, (me + 1) % clients, 10) if sealed == 0 else b'\0'
            send(struct.pack('<BI', ORDERS, sealed) + orders)
            sealed += 1
        if match.ready >= frames and not said_bye:
            send(bytes([BYE]))
            said_bye = True
        entry = next(down, None)
        if entry is None:
            raise SystemExit('client: the link ended before the match')
        match.take(entry)
    print(f'client {me} of {clients} frames {match.ready}')


def main():
    parser = argparse.ArgumentParser(description=__doc__, formatter_class=argparse.RawDescriptionHelpFormatter, usage=argparse.SUPPRESS)
    parser.add_argument('address')
    parser.add_argument('frames', type=int)
    parser.add_argument('--map')
    parser.add_argument('rules', nargs='*')
    options = parser.parse_intermixed_args()
    host, _, port = options.address.rpartition(':')
    with socket.create_connection((host, int(port))) as link:
        play(link, rules_number(options.rules, options.map), options.frames)


if __name__ == '__main__':
    main()
