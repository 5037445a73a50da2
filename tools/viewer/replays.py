"""Reads the frames of a replay: how many there are, and the orders and departures of each."""
import struct

MAGIC = b'LSRP'
HEAD_LENGTH = 19
CLIENTS_AT = 18
END, FRAME, MARK = 0, 1, 2
MARK_LENGTH = 8
# Of each order its word, and the layout of its fields, of which a flag at the end says whether it is queued.
ORDERS = {1: ('move', '<IBB?'), 2: ('attack', '<II?'), 3: ('harvest', '<IBB?'), 4: ('stop', '<I'), 5: ('produce', '<IH'),
          6: ('cancel', '<I'), 7: ('donate', '<BI'), 8: ('pace', '<B')}


def order_at(data, at):
    """The words of the order that begins there, and where it ends."""
    word, layout = ORDERS[data[at]]
    fields = struct.unpack_from(layout, data, at + 1)
    if layout.endswith('?'):
        *fields, queued = fields
        word += '+' * queued
    return ' '.join(map(str, [word, *fields])), at + 1 + struct.calcsize(layout)


def frames_of(data):
    """For each frame a list with an entry of each client: None where it has departed, else the words of its orders.
    What is no replay has none: the program says so better."""
    frames = []
    try:
        at = HEAD_LENGTH if data.startswith(MAGIC) else len(data)
        while data[at] != END:
            is_frame = data[at] == FRAME
            at += 1 if is_frame else 1 + MARK_LENGTH
            if not is_frame:
                continue
            entries = []
            for _ in range(data[CLIENTS_AT]):
                plays, at = data[at], at + 1
                orders = [] if plays else None
                if plays:
                    count, at = data[at], at + 1
                    for _ in range(count):
                        order, at = order_at(data, at)
                        orders.append(order)
                entries.append(orders)
            frames.append(entries)
    except (IndexError, KeyError, struct.error):
        return []
    return frames


def order_lines(frames):
    """A line `N C WORDS` for each play of a client C in frame N that has orders, and `N C leave` where it departs."""
    lines, departed = [], set()
    for number, entries in enumerate(frames):
        for client, orders in enumerate(entries):
            if orders:
                lines.append(f'{number} {client} {" ; ".join(orders)}')
            elif orders is None and client not in departed:
                departed.add(client)
                lines.append(f'{number} {client} leave')
    return '\n'.join(lines)
