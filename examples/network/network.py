#!/usr/bin/env python3
"""A ring of processes: each node is a process of its own, and their messages go over UDP, where some are lost.

    examples/network/network.py [--nodes 8] [--files 20] [--seed 1] ..

starts the nodes, has them join, stores files and fetches them, and ends once every command is closed and every message came. What the
processes logged is put in one order and written as a trace, which `./pastry draw` draws and `./pastry check` judges. README.md says what
that shows.
"""
import argparse
import asyncio
import hashlib
import random
import shlex
import struct
import subprocess
import sys
import time
from pathlib import Path

from logs import Entry, in_order, never_came, trace_of

TOP = Path(__file__).resolve().parents[2]
DATA, ACK, STRAY = range(3)  # what a datagram is: a message, the receipt for one, or bytes that are no message
MOST_BYTES = 60_000  # of a datagram


class Network:
    """Where datagrams go: each node's address, and what becomes of a datagram on its way."""

    def __init__(self, options):
        self.options = options
        self.chance = random.Random(options.seed)
        self.addresses = {}
        self.counts = {"sent": 0, "lost": 0, "repeated": 0, "cut short": 0}

    def happens(self, percent):
        return self.chance.random() * 100 < percent

    def send(self, transport, receiver, datagram):
        """Sends a datagram, which may be lost, come twice, and come late."""
        self.counts["sent"] += 1
        if self.happens(self.options.lose):
            self.counts["lost"] += 1
            return
        copies = 1
        if self.happens(self.options.repeat):
            self.counts["repeated"] += 1
            copies = 2
        for _ in range(copies):
            late = self.chance.uniform(0, self.options.delay / 1000)
            asyncio.get_running_loop().call_later(late, transport.sendto, datagram, self.addresses[receiver])


class Node(asyncio.DatagramProtocol):
    """A node: its process, its socket, what waits for its process, and what it sent that was not received yet."""

    def __init__(self, network, name):
        self.network = network
        self.name = name
        self.lines = asyncio.Queue()
        self.log = []
        self.closed = {}
        self.commands = 0
        self.unreceived = {}
        self.number = 0
        self.wakes = asyncio.Event()
        self.busy = False

    # ---- the process

    async def start(self, word):
        """Starts the process and names its node."""
        self.process = await asyncio.create_subprocess_exec(
            *shlex.split(self.network.options.node), stdin=subprocess.PIPE, stdout=subprocess.PIPE, cwd=TOP, limit=1 << 20)
        loop = asyncio.get_running_loop()
        self.transport, _ = await loop.create_datagram_endpoint(lambda: self, local_addr=("127.0.0.1", 0))
        self.network.addresses[self.name] = self.transport.get_extra_info("sockname")
        answer = await self.tell(f"{word} {self.name}")
        assert answer == ["done 0"], answer
        self.tasks = [asyncio.create_task(self.work()), asyncio.create_task(self.send_again())]

    async def tell(self, line):
        """Gives the process a line, and returns the lines of its answer, of which the last is `done STAMP` or `refused ..`."""
        self.process.stdin.write(line.encode() + b"\n")
        await self.process.stdin.drain()
        answer = []
        while not answer or answer[-1].split()[0] not in ("done", "refused"):
            answer.append((await self.process.stdout.readline()).decode().rstrip("\n"))
            if answer[-1] == "":
                raise SystemExit(f"the process of {self.name} has ended")
        return answer

    async def work(self):
        """Gives the process what waits for it, one line after another, and carries what it sends."""
        while True:
            line = await self.lines.get()
            self.busy = True
            answer = await self.tell(line)
            if answer[-1].startswith("refused"):
                raise SystemExit(f"{self.name} refused: {line[:80]}: {answer[-1]}")
            entry = Entry(self.name, line, answer)
            self.log.append(entry)
            for frame in entry.sends():
                self.carry(frame)
            for note in entry.notes():
                word, *words = note.split()
                if word == "closed":
                    self.closed[int(words[0])].set_result(" ".join(words[1:]))
            self.busy = False

    async def command(self, line):
        """Tells the node a command of its user, and returns how it was closed."""
        self.commands += 1
        closing = self.closed[self.commands] = asyncio.get_running_loop().create_future()
        self.lines.put_nowait(line)
        return await closing

    async def end(self):
        """Ends the process by ending its input, and returns its status."""
        for task in self.tasks:
            task.cancel()
        self.process.stdin.close()
        status = await self.process.wait()
        self.transport.close()
        return status

    # ---- the transport: each message is sent again until it was received

    def carry(self, frame):
        """Sends a frame to its receiver."""
        receiver = frame[22:38].hex()
        datagram = struct.pack(">BI", DATA, self.number) + bytes.fromhex(self.name) + frame
        if len(datagram) > MOST_BYTES:
            raise SystemExit(f"a frame of {len(frame)} bytes is too long for a datagram")
        self.unreceived[self.number] = (receiver, datagram)
        self.number += 1
        self.network.send(self.transport, receiver, datagram)
        if self.network.happens(self.network.options.cut):
            self.network.counts["cut short"] += 1
            self.network.send(self.transport, receiver, struct.pack(">BI", STRAY, 0) + bytes.fromhex(self.name) + frame[:-1])

    async def send_again(self):
        """Sends what was not received again, from time to time."""
        while True:
            await asyncio.sleep(self.network.options.again / 1000)
            for receiver, datagram in list(self.unreceived.values()):
                self.network.send(self.transport, receiver, datagram)

    def datagram_received(self, datagram, address):
        kind, number = struct.unpack(">BI", datagram[:5])
        sender = datagram[5:21].hex()
        if kind == ACK:
            self.unreceived.pop(number, None)
            return
        self.lines.put_nowait("frame " + datagram[21:].hex())
        if kind == DATA:
            self.network.send(self.transport, sender, struct.pack(">BI", ACK, number) + bytes.fromhex(self.name))

    def is_idle(self):
        return not self.busy and self.lines.empty() and not self.unreceived


class File:
    """A file that is stored: its words in an insert, and its bytes."""

    def __init__(self, chance, number):
        self.name = f"file {number}".encode().hex()
        self.owner = b"network".hex()
        self.salt = chance.randbytes(8).hex()
        self.content = chance.randbytes(chance.randint(1, 200)).hex()
        self.copies = chance.randint(1, 3)
        self.identifier = hashlib.sha1(bytes.fromhex(self.name) + b"\0" + bytes.fromhex(self.owner + self.salt)).hexdigest()

    def insert(self):
        return f"insert {self.name} {self.owner} {self.salt} {self.content} {self.copies}"


async def until(node, line, word, pause):
    """Tells a node a command until it is closed with this word; others join, and then a try may fail."""
    while True:
        answer = await node.command(line)
        if answer.startswith(word):
            return answer
        await asyncio.sleep(pause)


async def settle(nodes):
    """Waits until every message was received and answered."""
    while not all(node.is_idle() for node in nodes):
        await asyncio.sleep(0.05)


async def use(network, nodes, files):
    """Joins the nodes, a few at a time, stores the files, fetches each by some node, and reclaims a quarter."""
    chance = network.chance
    pause = network.options.again / 1000
    founder, *others = nodes

    async def join(node, wait):
        await asyncio.sleep(wait)
        await until(node, f"join {founder.name}", "joined", pause)

    await asyncio.gather(*(join(node, chance.uniform(0, pause * len(others))) for node in others))
    print(f"{len(nodes)} nodes are ready")
    await asyncio.gather(*(until(chance.choice(nodes), file.insert(), "stored", pause) for file in files))
    print(f"{len(files)} files are stored")
    found = await asyncio.gather(*(chance.choice(nodes).command(f"fetch {file.identifier}") for file in files))
    right = sum(answer.split()[-1] == file.content for answer, file in zip(found, files))
    print(f"{right} files are found, with their bytes")
    reclaimed = files[:len(files) // 4]
    await asyncio.gather(*(chance.choice(nodes).command(f"reclaim {file.identifier}") for file in reclaimed))
    gone = await asyncio.gather(*(chance.choice(nodes).command(f"fetch {file.identifier}") for file in reclaimed))
    print(f"{sum(answer.startswith('gone') for answer in gone)} files are reclaimed, and gone")
    await settle(nodes)


async def run(options):
    """Runs the network, and returns its nodes, each with its log."""
    network = Network(options)
    names = [network.chance.randbytes(16).hex() for _ in range(options.nodes)]
    files = [File(network.chance, number) for number in range(options.files)]
    nodes = [Node(network, name) for name in names]
    for number, node in enumerate(nodes):
        await node.start("node" if number else "founder")
    using = asyncio.create_task(use(network, nodes, files))
    # the first that ends is the use of the network, unless a process or a carrier fails
    await asyncio.wait([using, *(task for node in nodes for task in node.tasks)], return_when=asyncio.FIRST_COMPLETED)
    for task in [using, *(task for node in nodes for task in node.tasks)]:
        if task.done():
            task.result()
    statuses = [await node.end() for node in nodes]
    counts = ", ".join(f"{count} {what}" for what, count in network.counts.items())
    print(f"datagrams: {counts}; statuses of the processes: {sorted(set(statuses))}")
    return nodes


def write_logs(folder, nodes):
    """Writes what each process was told, and how it answered."""
    folder.mkdir(parents=True, exist_ok=True)
    for node in nodes:
        lines = [text for entry in node.log for text in (f"> {entry.line}", *entry.said, f"done {entry.stamp}")]
        (folder / f"{node.name}.log").write_text("\n".join(lines) + "\n")


def main():
    parser = argparse.ArgumentParser(description="Runs a ring of processes over UDP, and has what they did checked.")
    parser.add_argument("--nodes", type=int, default=8, help="how many processes (8)")
    parser.add_argument("--files", type=int, default=20, help="how many files are stored (20)")
    parser.add_argument("--seed", type=int, default=1, help="of identifiers, files, losses and delays (1)")
    parser.add_argument("--lose", type=float, default=20, help="datagrams that are lost, in percent (20)")
    parser.add_argument("--repeat", type=float, default=10, help="datagrams that come twice, in percent (10)")
    parser.add_argument("--cut", type=float, default=2, help="messages of which bytes come cut short beside them, in percent (2)")
    parser.add_argument("--delay", type=float, default=100, help="the most milliseconds that a datagram is on its way (100)")
    parser.add_argument("--again", type=float, default=250, help="milliseconds until what was not received is sent again (250)")
    parser.add_argument("--node", default="./pastry node", help="the command of a process (./pastry node)")
    parser.add_argument("--check", default="./pastry check", help="the command that judges the trace (./pastry check)")
    parser.add_argument("--draw", default="./pastry draw", help="the command that draws the trace (./pastry draw)")
    parser.add_argument("--out", type=Path, default=Path("network-run"), help="the folder for logs, trace and picture (network-run)")
    options = parser.parse_args()
    begun = time.monotonic()
    nodes = asyncio.run(run(options))
    write_logs(options.out, nodes)
    entries = in_order([entry for node in nodes for entry in node.log])
    trace = options.out / "trace"
    trace.write_text("\n".join(trace_of([node.name for node in nodes], nodes[0].name, entries)) + "\n")
    sent, missing = never_came(entries)
    print(f"{len(entries)} entries in {time.monotonic() - begun:.0f} seconds, with {sent} messages, {missing} of which never came; the trace is {trace}")
    sys.stdout.flush()
    with trace.open() as text, (options.out / "picture.svg").open("w") as picture:
        subprocess.run(shlex.split(options.draw), stdin=text, stdout=picture, cwd=TOP, check=True)
    with trace.open() as text:
        sys.exit(subprocess.run(shlex.split(options.check), stdin=text, cwd=TOP, check=False).returncode)


if __name__ == "__main__":
    main()
