#!/usr/bin/env python3
"""Packs recorded command lines into a file that the program `case_runs` reads.

usage: pack_cases.py FOLDER .. > FILE

Each FOLDER is a case, called after its folder. In it are

    args            the arguments, one a line
    files/          the files that are there before; a % in a name stands for a /
    expect-files/   those that must have been written
    gone            the names of those that must not be there after, one a line
    console         what the console gives (nothing without it)
    fails           a line `PART CALL REMAINS` for each call that is to fail, as `files 0 old`; or
                    `link I takes CALL REMAINS` and `link I puts ..` for one of a link
    stdout          what must be printed
    status          the status (0 without it)
    world           the world that the server of a drill must be left in, field by field
    endings/NAME/   in place of `stdout` and `status`, those of each way in which the case may end

A case `ref-hash` is a drill whose `stdout` may go on with that world. `ref-serve` and `ref-play`
are a server and a player over links: link i gives the bytes of the file of the i-th `--link`. Their
`stdout` goes on with what must be written, unless a file `sent` beside it has these lines. For a
server there is one for each link:

    sent columns N ..    the welcome, and of each column so many plays of its link, and a departure
    sent refused CODE    the refusal
    sent nothing
    sent bytes HEX

and for a player one, or none where it must write nothing:

    wrote HEX
    wrote beside reports HEX    what it must write without its reports
"""
import os
import sys

# The tags of packets.
ORDERS, WELCOME, REFUSED, PLAY, LEAVE = 2, 17, 18, 19, 20


def content(path):
    with open(path, "rb") as it:
        return it.read()


def content_or(path, other):
    return content(path) if os.path.exists(path) else other


def files_in(folder):
    names = sorted(os.listdir(folder)) if os.path.isdir(folder) else []
    return [(name.replace("%", "/"), content(os.path.join(folder, name))) for name in names]


def number(value, length):
    return value.to_bytes(length, "little")


def packet(*parts):
    payload = b"".join(parts)
    return number(len(payload), 2) + payload


def payloads(stream):
    """The payloads of the whole packets in a stream."""
    while len(stream) >= 2:
        end = 2 + int.from_bytes(stream[:2], "little")
        if end > len(stream):
            return
        yield stream[2:end]
        stream = stream[end:]


def first_plays(stream):
    """The orders of a client's first packet for each frame, as bytes."""
    plays = {}
    for payload in payloads(stream):
        if payload[:1] == bytes([ORDERS]) and len(payload) > 5:
            plays.setdefault(int.from_bytes(payload[1:5], "little"), payload[5:])
    return plays


def column(client, stream, length):
    """The entries of a column of so many plays."""
    plays, who = first_plays(stream), bytes([client])
    entries = [packet(bytes([PLAY]), who, number(n, 4), plays[n]) for n in range(length)]
    return b"".join(entries) + packet(bytes([LEAVE]), who, number(length, 4))


def option(words, name, default):
    return int(words[words.index(name) + 1]) if name in words else default


def sent_by_server(words, client, links, told):
    """What a server must write to a link, one column after another, with its kind."""
    if told[0] == b"nothing":
        return b"sent", b""
    if told[0] == b"bytes":
        return b"sent", bytes.fromhex(told[1].decode())
    if told[0] == b"refused":
        return b"sent", packet(bytes([REFUSED, int(told[1])]))
    lengths = [int(length) for length in told[1:]]
    clients, lag = option(words, "--clients", None), option(words, "--lag", 2)
    seed = number(option(words, "--seed", 1), 4)
    welcome = packet(bytes([WELCOME, client, clients, lag]), seed)
    columns = [column(*each) for each in zip(range(clients), links, lengths)]
    return b"columns", welcome + b"".join(columns)


def without_links(words):
    """The words without the options `--link`, and the names that these have."""
    places = [i for i, word in enumerate(words) if word == "--link"]
    dropped = {j for i in places for j in (i, i + 1)}
    return [w for i, w in enumerate(words) if i not in dropped], [words[i + 1] for i in places]


def split_text(text, first):
    """A printed text without the lines that begin with this word, and the words of those."""
    lines = text.splitlines(keepends=True)
    printed = b"".join(line for line in lines if line.split()[:1] != [first])
    return printed, [line.split()[1:] for line in lines if line.split()[:1] == [first]]


def sized(kind, data, name=b""):
    return b"%s %d%s\n%s\n" % (kind, len(data), name and b" " + name, data)


def sent(words, links, text, lines):
    """What is printed of this text, and what must be written to each link, with its kind. It is
    said by these lines, or where there are none by those that the text goes on with."""
    if not links:
        return text, []
    start = b"sent" if words[0] == "serve" else b"wrote"
    printed, told = split_text(text, start)
    if lines is not None:
        printed, told = text, split_text(lines, start)[1]
    if words[0] == "serve":
        return printed, [sent_by_server(words, i, links, told[i]) for i in range(len(links))]
    kind = b"beside-reports" if told and told[0][:-1] else b"sent"
    return printed, [(kind, bytes.fromhex(told[0][-1].decode()) if told else b"")]


def words_in(folder):
    """The arguments of a case."""
    words = content(f"{folder}/args").decode().split("\n")
    return words[:-1] if words[-1] == "" else words


def called(words):
    """The words of the command line."""
    if words[:1] == ["ref-hash"]:
        return ["drill"] + words[1:]
    if words[:1] in (["ref-serve"], ["ref-play"]):
        at = [] if "--at" in words else ["--at", "here"]
        return [words[0].removeprefix("ref-")] + at + words[1:]
    return words


def endings_in(folder):
    """The folders that have the ways in which a case may end."""
    names = sorted(os.listdir(f"{folder}/endings")) if os.path.isdir(f"{folder}/endings") else []
    return [f"{folder}/endings/{name}" for name in names] or [folder]


def without_world(text):
    """The text of a `ref-hash`, and the world that it goes on with, if it does."""
    report, end, rest = text.partition(b"\nend\n")
    return (report + end, rest) if end else (text.removesuffix(b"\n") + b"\n", b"")


def failing(lines, start):
    """The lines of those calls that are to fail whose lines begin so."""
    return [b"fails %s\n" % line.removeprefix(start) for line in lines if line.startswith(start)]


def packed(folder):
    """The lines of one case."""
    words, names = without_links(words_in(folder))
    files = dict(files_in(f"{folder}/files"))
    links = [files[name] for name in names]
    is_hashed = words[:1] == ["ref-hash"]
    world = content_or(f"{folder}/world", None)
    words = called(words)
    yield b"case %s\n" % os.path.basename(folder.rstrip("/")).encode()
    for word in words:
        yield b"word %s\n" % word.encode()
    for name, data in files.items():
        if name not in names:
            yield sized(b"file", data, name.encode())
    for name, data in files_in(f"{folder}/expect-files"):
        yield sized(b"written", data, name.encode())
    for name in content_or(f"{folder}/gone", b"").splitlines():
        yield b"gone %s\n" % name
    fails = content_or(f"{folder}/fails", b"").splitlines()
    for i, data in enumerate(links):
        yield sized(b"link", data)
        yield from failing(fails, b"link %d " % i)
    console = content_or(f"{folder}/console", b"")
    if console:
        yield sized(b"console", console)
    yield from failing([line for line in fails if not line.startswith(b"link ")], b"")
    for way in endings_in(folder):
        lines = content_or(f"{way}/sent", None)
        text, written = sent(words, links, content(f"{way}/stdout"), lines)
        if is_hashed:
            text, rest = without_world(text)
            world = rest or world
        yield b"status %s\n" % content_or(f"{way}/status", b"0").strip()
        yield sized(b"text", text)
        for kind, data in written:
            yield sized(kind, data)
    if world is not None:
        yield sized(b"world", world)


def main():
    for folder in sys.argv[1:]:
        for line in packed(folder):
            sys.stdout.buffer.write(line)


main()
