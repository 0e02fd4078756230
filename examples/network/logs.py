"""What the processes of nodes logged, put in one order and written as a trace.

A process answers each line with what its node sent, what it noted, and a stamp. Entries are put in the order of their stamps, and
those with one stamp in the order of their nodes: a message's stamp is below that of the entry to which it came, so each stands
behind the entry that sent it. docs/TRACES.md has the lines of a trace, docs/NODE.md those of a process.
"""
import hashlib
import struct

# Kinds of frames, by where a command's number stands in them: behind the node that gave it, or alone, in an answer to the receiver.
WITH_ORIGIN = {1, 3, 5, 19, 20, 21}
ANSWERS = {2, 4, 6, 22}
FIELDS = 46  # where the fields of a kind begin
INSERT = 3


class Entry:
    """What came to a node with one line, and what it made of that."""

    def __init__(self, node, line, answer):
        self.node = node
        self.line = line
        *self.said, done = answer
        self.stamp = int(done.split()[1])

    def sends(self):
        """Returns the frames that were sent, in order."""
        return [bytes.fromhex(line.split()[2]) for line in self.said if line.startswith("send ")]

    def notes(self):
        """Returns the notes, as lines."""
        return [line for line in self.said if not line.startswith("send ")]

    def frame(self):
        """Returns the bytes from the network, None for a command."""
        word, _, rest = self.line.partition(" ")
        return bytes.fromhex(rest.replace("-", "")) if word == "frame" else None


def sized(content):
    return struct.pack(">H", len(content)) + content


def content_of(word):
    """Returns the bytes that a word spells, `-` for none."""
    return b"" if word == "-" else bytes.fromhex(word)


def file_of(name, owner, salt):
    """Returns the identifier of a file."""
    return hashlib.sha1(name + b"\0" + owner + salt).digest()


def command_bytes(line):
    """Returns the bytes of a command."""
    word, *words = line.split()
    if word == "insert":
        name, owner, salt, content, copies = words
        file = file_of(content_of(name), content_of(owner), bytes.fromhex(salt))
        return bytes([3]) + file + bytes([int(copies)]) + sized(content_of(content))
    kind = {"join": 1, "lookup": 2, "fetch": 4, "giveup": 5, "reclaim": 6}[word]
    return bytes([kind]) + bytes.fromhex("".join(words))


def reply_bytes(words):
    """Returns the bytes of a reply, from its words in the report."""
    match words:
        case ["delivered", "by", node, "hops", hops]:
            return bytes([1]) + bytes.fromhex(node) + struct.pack(">H", int(hops))
        case ["stored", "at", *holders]:
            return bytes([2, len(holders)]) + bytes.fromhex("".join(holders))
        case ["found", "by", node, content]:
            return bytes([3]) + bytes.fromhex(node) + sized(content_of(content))
        case ["too", "few", "by", node, "known", known]:
            return bytes([6]) + bytes.fromhex(node) + struct.pack(">H", int(known))
        case ["busy", "by", node, "for", joiner]:
            return bytes([7]) + bytes.fromhex(node + joiner)
        case [*what, "by", node]:
            tags = {"missing": 4, "collision": 5, "not ready": 8, "full": 9, "gone": 10, "reclaimed": 11}
            return bytes([tags[" ".join(what)]]) + bytes.fromhex(node)


def answer_bytes(words):
    """Returns the bytes of an answer to a command."""
    match words:
        case ["joined", "between", left, "and", right]:
            return bytes([2]) + bytes.fromhex(left + right)
        case ["denied", "by", node, "busy", "with", joiner]:
            return bytes([3]) + bytes.fromhex(node) + bytes([1]) + bytes.fromhex(joiner)
        case ["denied", "by", node, "moved", "to", left, "and", right]:
            return bytes([3]) + bytes.fromhex(node) + bytes([2]) + bytes.fromhex(left + right)
        case ["denied", "by", node, "not", "ready"]:
            return bytes([3]) + bytes.fromhex(node) + bytes([3])
        case ["denied", "by", node, *own]:
            return bytes([4]) + bytes.fromhex(node) + bytes([{"given up": 1, "already": 2, "spent": 3}[" ".join(own)]])
        case ["gave", "up"]:
            return bytes([5])
        case ["nothing", "to", "give", "up"]:
            return bytes([6])
    return bytes([1]) + reply_bytes(words)


def inserted_content(entry):
    """Returns the bytes that an entry brought with a file."""
    frame = entry.frame()
    if frame is None:
        return content_of(entry.line.split()[4])
    at = FIELDS + 16 + 8 + 2 + 20 + 1
    return frame[at + 2:at + 2 + struct.unpack(">H", frame[at:at + 2])[0]]


class Numbers:
    """Each process counts its own commands from 1; in a trace no two commands have one number. So the commands are numbered anew,
    in the order of the entries: in their own lines, in frames, and in notes."""

    def __init__(self, entries):
        self.new = {}
        counts = {}
        for entry in entries:
            if entry.frame() is None:
                counts[entry.node] = counts.get(entry.node, 0) + 1
                self.new[entry.node, counts[entry.node]] = len(self.new) + 1
                entry.number = len(self.new)

    def of(self, node, number):
        return struct.pack(">Q", self.new[node, number])

    def in_frame(self, frame):
        """Returns the frame with the new number of the command that it speaks of, if it speaks of one."""
        kind = frame[1]
        at = FIELDS + 16 if kind in WITH_ORIGIN else FIELDS
        if kind not in WITH_ORIGIN | ANSWERS:
            return frame
        node = frame[FIELDS:FIELDS + 16] if kind in WITH_ORIGIN else frame[22:38]
        number = struct.unpack(">Q", frame[at:at + 8])[0]
        return frame[:at] + self.of(node.hex(), number) + frame[at + 8:]

    def note_bytes(self, entry, line):
        """Returns the bytes of a note."""
        match line.split():
            case ["accepted", file]:
                return bytes([1]) + bytes.fromhex(file) + sized(inserted_content(entry))
            case ["delivered", origin, number, "of", key, "hops", hops]:
                return bytes([2]) + bytes.fromhex(origin) + self.of(origin, int(number)) + bytes.fromhex(key) + struct.pack(">H", int(hops))
            case ["answered", origin, number, *reply]:
                return bytes([3]) + bytes.fromhex(origin) + self.of(origin, int(number)) + reply_bytes(reply)
            case ["closed", number, *answer]:
                return bytes([4]) + self.of(entry.node, int(number)) + answer_bytes(answer)
            case ["reclaimed", file]:
                return bytes([5]) + bytes.fromhex(file)


def in_order(entries):
    """Returns the entries of all nodes in one order."""
    return sorted(entries, key=lambda entry: (entry.stamp, entry.node))


def never_came(entries):
    """Returns how many messages were sent, and how many of them came to no node."""
    sent = [frame for entry in entries for frame in entry.sends()]
    came = {entry.frame() for entry in entries}
    return len(sent), sum(frame not in came for frame in sent)


def trace_of(nodes, founder, entries):
    """Returns the lines of a trace of what the nodes did. A frame that is none of those that were sent to its node is noise."""
    entries = in_order(entries)
    numbers = Numbers(entries)
    lines = ["trace 1", *(f"node {node}" for node in nodes), f"founder {founder}"]
    sent = {}
    count = 0
    for entry in entries:
        frame = entry.frame()
        if frame is None:
            lines.append(f"command {entry.node} {entry.number} {command_bytes(entry.line).hex()}")
        elif frame in sent and frame[22:38].hex() == entry.node:
            lines.append(f"deliver {sent[frame]}")
        else:
            lines.append(f"noise {entry.node}")
        for frame in entry.sends():
            sent.setdefault(frame, count)
            count += 1
            lines.append(f"sent {numbers.in_frame(frame).hex()}")
        lines += [f"note {numbers.note_bytes(entry, line).hex()}" for line in entry.notes()]
    return [*lines, "end 0"]
