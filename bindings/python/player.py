#!/usr/bin/env python3
"""Plays a match of a `serve` by a rule of its own, and prints the frames and the hash of its world in the end.

usage: player.py HOST:PORT FRAMES [--map MAP] RULES..

It lives by the calls of `lockstep.py` alone: put your own rule into `choose`. As any client it has to be greeted with the
server's rules and map. It leaves after FRAMES frames, and goes on until all have left.
"""
import argparse
import os
import socket
import sys
import time

sys.path.insert(0, os.path.dirname(os.path.realpath(__file__)))
import lockstep
from lockstep import Code, Traits


def choose(peer, me, kinds):
    """Each armed actor that has nothing to do attacks the nearest actor of another client; all else is the bot's choice."""
    play = peer.bot(me)
    actors = peer.actors()
    others = [it for it in actors if it.owner not in (me, lockstep.NOBODY) and it.health > 0]
    for actor in actors:
        if actor.owner != me or actor.acts or not kinds[actor.kind].traits & Traits.ARMAMENT or not others:
            continue
        if len(play) == lockstep.MAX_ORDERS:
            break
        nearest = min(others, key=lambda it: ((it.x - actor.x) ** 2 + (it.y - actor.y) ** 2, it.id))
        play.attack(actor.id, nearest.id)
    return play


def connected(host, port, seconds=30):
    """A link to the server, which may not listen yet."""
    end = time.monotonic() + seconds
    while True:
        try:
            return socket.create_connection((host, port))
        except ConnectionRefusedError:
            if time.monotonic() > end:
                raise
            time.sleep(0.05)


def packets(link):
    """The packets that come, each whole."""
    stream = b''
    while True:
        size = lockstep.packet_size(stream)
        if size == 0:
            came = link.recv(65536)
            if not came:
                raise ConnectionError('the link ended')
            stream += came
        else:
            yield stream[:size]
            stream = stream[size:]


class Player:
    """A client at its link."""

    def __init__(self, link, peer, terms, frames, rule):
        self.link, self.peer, self.terms, self.frames, self.rule = link, peer, terms, frames, rule
        self.sealed = self.ticked = 0
        self.is_done = False

    def seal(self):
        """Seals as many frames as the lag allows, and says farewell after the last was ticked."""
        while not self.is_done and self.sealed < min(self.frames, self.ticked + self.terms.lag):
            code, packet = self.peer.seal(self.rule(self.peer))
            if code is not Code.OK:
                self.is_done = code is not Code.TOO_EARLY
                return
            self.link.sendall(packet)
            self.sealed += 1
        if not self.is_done and self.ticked == self.frames:
            self.link.sendall(lockstep.bye())
            self.is_done = True

    def tick(self):
        """Ticks and reports all frames whose entries are there; gives whether the match is over."""
        while True:
            code, _ = self.peer.tick()
            if code is not Code.OK:
                return code is Code.OVER
            self.ticked += 1
            if not self.is_done:
                self.link.sendall(self.peer.report())

    def run(self, came):
        self.seal()
        for packet in came:
            if self.peer.deliver(packet).code > Code.REPEAT:
                raise ConnectionError('the server contradicts itself')
            if self.tick():
                return
            self.seal()


def main():
    words = argparse.ArgumentParser(description=__doc__.split('\n')[0])
    words.add_argument('address')
    words.add_argument('frames', type=int)
    words.add_argument('--map')
    words.add_argument('rules', nargs='*')
    words = words.parse_intermixed_args()
    if not 0 <= words.frames <= 262144:
        sys.exit('player.py: a match has 0 to 262,144 frames')
    host, _, port = words.address.rpartition(':')
    setup = lockstep.Setup.of_files(words.rules, words.map)
    kinds = setup.kinds()
    with connected(host, int(port)) as link:
        link.setsockopt(socket.IPPROTO_TCP, socket.TCP_NODELAY, 1)
        link.sendall(setup.hello())
        came = packets(link)
        terms = lockstep.welcomed(next(came))
        peer = setup.peer(terms)
        Player(link, peer, terms, words.frames, lambda peer: choose(peer, terms.me, kinds)).run(came)
    head = peer.head()
    print(f'frames {head.frames} hash {head.hash:016x}')


if __name__ == '__main__':
    main()
