#!/usr/bin/env python3
"""Runs a program on QEMU, instruction by instruction, and prints a record line for each.

    records.py [--records N] [--turn N] [--flip K:BIT] [--qemu PROGRAM] CONFIG

CONFIG is a configuration of one hart, as dromajo takes it; its program is looked for beside it. QEMU's board `spike`
is stopped after each instruction through its debugger port, and the lines (docs/REFERENCE.md, "Record lines") tell
what was seen: the pc, the word, the register that the instruction writes with the value that it has afterwards, and the
bytes that it stored, as memory has them afterwards. The script is the host: it looks at the window after so many
instructions as the configuration has in a turn (--turn gives another number), takes a word that sends a byte, which
goes to standard error, and ends with a word that ends the run. It serves what such a program does: machine mode alone,
no traps, no devices, no control and status registers.

--records N ends after N records. --flip K:BIT turns one bit of the last value of record K, which counts from 0: of what
it stored, else of the register's value, else of the word. It needs the standard library alone.
"""
import argparse
import json
import os
import socket
import struct
import subprocess
import sys
import time

SEND = 0x0101


class Unserved(Exception):
    """An instruction that this script does not serve."""


# ---- what an instruction writes

LOADS, STORES, BRANCHES, ATOMICS = 0x03, 0x23, 0x63, 0x2F
FENCES, SYSTEM = 0x0F, 0x73
WRITING = {LOADS, 0x13, 0x17, 0x1B, 0x33, 0x37, 0x3B, 0x67, 0x6F}


def signed(value, bits):
    return value - (1 << bits) if value >> (bits - 1) & 1 else value


def whole(word):
    """Of a 32-bit word: the register that it writes or None; base register, offset and size of a store or None."""
    op, rd, kind, base = word & 0x7F, word >> 7 & 31, word >> 12 & 7, word >> 15 & 31
    if op in WRITING:
        return rd, None
    if op == STORES:
        return None, (base, signed(word >> 25 << 5 | rd, 12), 1 << kind)
    if op == ATOMICS:
        loads_only = word >> 27 == 0x02  # lr
        return rd, None if loads_only else (base, 0, 1 << kind)
    if op in (BRANCHES, FENCES):
        return None, None
    raise Unserved(f"the word {word:08x} is not served")


def compressed_store(word, kind):
    """A store in quadrant 0 or 2."""
    doubles = kind == 7
    if word & 3 == 0:
        at = (word >> 10 & 7) << 3
        at |= (word >> 5 & 3) << 6 if doubles else (word >> 6 & 1) << 2 | (word >> 5 & 1) << 6
        return 8 + (word >> 7 & 7), at, 8 if doubles else 4
    if doubles:
        return 2, (word >> 10 & 7) << 3 | (word >> 7 & 7) << 6, 8
    return 2, (word >> 9 & 15) << 2 | (word >> 7 & 3) << 6, 4


def compressed(word):
    """The same of a 16-bit word."""
    quadrant, kind, rd = word & 3, word >> 13, word >> 7 & 31
    short_low, short_high = 8 + (word >> 2 & 7), 8 + (word >> 7 & 7)
    if quadrant != 1 and kind in (6, 7):
        return None, compressed_store(word, kind)
    if quadrant == 0 and kind in (0, 2, 3) and word:
        return short_low, None
    if quadrant == 1 and kind in (0, 1, 2, 3):
        return rd, None
    if quadrant == 1 and kind == 4:
        return short_high, None
    if quadrant == 1:  # j, beqz, bnez
        return None, None
    if quadrant == 2 and kind in (0, 2, 3):
        return rd, None
    if quadrant == 2 and kind == 4 and word != 0x9002:
        moves = word >> 2 & 31 != 0
        links = word >> 12 & 1 != 0
        return (rd if moves else 1 if links else None), None
    raise Unserved(f"the word {word:04x} is not served")


def may_fail(word):
    """A store-conditional may; it has 1 in its register then, and stored nothing."""
    return word & 0x7F == ATOMICS and word >> 27 == 0x03


def writes(word):
    """The register, and the place of the store, that a word writes."""
    return whole(word) if word & 3 == 3 else compressed(word)


# ---- the debugger's protocol


class Debugger:
    """A machine behind a debugger port."""

    def __init__(self, port, tries=100):
        for left in reversed(range(tries)):
            try:
                self.socket = socket.create_connection(("127.0.0.1", port))
                break
            except OSError:
                if not left:
                    raise
                time.sleep(0.05)
        self.socket.setsockopt(socket.IPPROTO_TCP, socket.TCP_NODELAY, 1)
        self.waiting = b""
        self.ask("QStartNoAckMode")
        self.socket.sendall(b"+")

    def more(self):
        came = self.socket.recv(4096)
        if not came:
            raise EOFError("the debugger port was closed")
        self.waiting += came

    def answer(self):
        """The next packet that comes."""
        while True:
            start = self.waiting.find(b"$")
            end = self.waiting.find(b"#", start)
            if start >= 0 and end >= 0 and len(self.waiting) >= end + 3:
                packet = self.waiting[start + 1:end]
                self.waiting = self.waiting[end + 3:]
                return packet.decode("ascii")
            self.more()

    def ask(self, text):
        self.socket.sendall(f"${text}#{sum(text.encode()) & 255:02x}".encode())
        answer = self.answer()
        if answer.startswith("E"):
            raise Unserved(f"the debugger port answers {answer} to {text}")
        return answer

    def step(self):
        self.ask("s")

    def registers(self):
        """x0 to x31 and the pc."""
        return struct.unpack_from("<33Q", bytes.fromhex(self.ask("g")))

    def set_registers(self, values):
        self.ask("G" + struct.pack("<33Q", *values).hex())

    def read(self, at, count):
        return bytes.fromhex(self.ask(f"m{at:x},{count:x}"))

    def write(self, at, data):
        self.ask(f"M{at:x},{len(data):x}:{data.hex()}")


# ---- the program


def symbol(program, name):
    """The value of a symbol of an ELF64 file, or 0."""
    at, = struct.unpack_from("<Q", program, 0x28)
    size, count = struct.unpack_from("<HH", program, 0x3A)
    sections = [struct.unpack_from("<IIQQQQIIQQ", program, at + size * n) for n in range(count)]
    for _, kind, _, _, start, length, link, _, _, entry in sections:
        for it in range(start, start + length, entry) if kind == 2 else ():
            text, _, _, _, value, _ = struct.unpack_from("<IBBHQQ", program, it)
            text += sections[link][4]
            if program[text:program.index(b"\0", text)] == name:
                return value
    return 0


def start_qemu(program, ram, path, port):
    """The board with twice the memory, since it puts its device tree near the end."""
    return subprocess.Popen(
        [program, "-machine", "spike", "-smp", "1", "-m", f"{2 * ram >> 20}M", "-bios", "none",
         "-device", f"loader,file={path},cpu-num=0", "-S", "-gdb", f"tcp:127.0.0.1:{port}",
         "-display", "none", "-serial", "none", "-monitor", "none"],
        stdin=subprocess.DEVNULL, stdout=sys.stderr)


def free_port():
    with socket.socket() as it:
        it.bind(("127.0.0.1", 0))
        return it.getsockname()[1]


# ---- records


class Machine:
    """One hart, which is watched as it goes."""

    def __init__(self, debugger, entry, tohost):
        self.debugger, self.tohost = debugger, tohost
        self.words = {}
        debugger.set_registers([0] * 32 + [entry])
        self.registers = debugger.registers()

    def word(self, pc):
        """The word at the pc, which is read once: the programs do not write their code."""
        if pc not in self.words:
            low, = struct.unpack("<H", self.debugger.read(pc, 2))
            high, = struct.unpack("<H", self.debugger.read(pc + 2, 2)) if low & 3 == 3 else (0,)
            self.words[pc] = high << 16 | low
        return self.words[pc]

    def commit(self):
        """Makes one step, and gives its line."""
        before, pc = self.registers, self.registers[32]
        word = self.word(pc)
        rd, store = writes(word)
        self.debugger.step()
        self.registers = self.debugger.registers()
        line = f"C 0 M {pc:016x} {word:08x}"
        if rd:
            line += f" x{rd} {self.registers[rd]:016x}"
        if store and not (may_fail(word) and self.registers[word >> 7 & 31]):
            base, offset, size = store
            at = before[base] + offset & (1 << 64) - 1
            value = int.from_bytes(self.debugger.read(at, size), "little")
            line += f" st {at:016x} {size} {value:0{2 * size}x}"
        return line

    def host(self):
        """Looks at the window: a word that was taken, and whether the run goes on."""
        word = int.from_bytes(self.debugger.read(self.tohost, 8), "little") if self.tohost else 0
        if word >> 48 == SEND:
            self.debugger.write(self.tohost, bytes(8))
            os.write(2, bytes([word & 255]))
            return f"H {word:016x}", True
        return None, word == 0


def lines(machine, turn):
    while True:
        for _ in range(turn):
            yield machine.commit()
        line, goes_on = machine.host()
        if line:
            yield line
        if not goes_on:
            return


def flipped(line, bit):
    """The line with one bit of its last value turned."""
    front, _, value = line.rpartition(" ")
    if bit >= 4 * len(value):
        raise SystemExit(f"records.py: the last value of this record has no bit {bit}: {line}")
    return f"{front} {int(value, 16) ^ 1 << bit:0{len(value)}x}"


def arguments():
    parser = argparse.ArgumentParser(usage=__doc__)
    parser.add_argument("--records", type=int)
    parser.add_argument("--turn", type=int)
    parser.add_argument("--flip")
    parser.add_argument("--qemu", default="qemu-system-riscv64")
    parser.add_argument("config")
    return parser.parse_args()


def main():
    words = arguments()
    with open(words.config, encoding="utf-8") as file:
        config = json.load(file)
    path = os.path.join(os.path.dirname(words.config), config["program"])
    with open(path, "rb") as file:
        program = file.read()
    entry, = struct.unpack_from("<Q", program, 0x18)
    record, bit = (int(it) for it in words.flip.split(":")) if words.flip else (None, None)
    sys.stdout.reconfigure(line_buffering=True)
    port = free_port()
    qemu = start_qemu(words.qemu, config["ram"], path, port)
    try:
        machine = Machine(Debugger(port), entry, config.get("tohost", symbol(program, b"tohost")))
        for number, line in enumerate(lines(machine, words.turn or config["slice"])):
            if number == words.records:
                break
            print(flipped(line, bit) if number == record else line)
    except BrokenPipeError:  # who reads the lines has seen enough
        os.dup2(os.open(os.devnull, os.O_WRONLY), 1)
    except Unserved as it:
        sys.exit(f"records.py: {it}")
    finally:
        qemu.kill()
        qemu.wait()


if __name__ == "__main__":
    main()
