#!/usr/bin/env python3
"""An office's round over the product table, by a script: the shared library through ctypes.

    ./build shared && python3 examples/office.py [LIBRARY]     in the repository: without a name, target/libproduct_table.so
    python3 office.py [LIBRARY]                                installed: without a name, lib/libproduct_table.so

The calls with their arguments, the names of statuses and outcomes, and what the statuses mean, are read from
product_table.h.
"""
import ctypes
import os
import re
import sys
import tempfile

FOLDER = os.path.dirname(os.path.abspath(__file__))
REPOSITORY = os.path.dirname(FOLDER)
PREFIX = os.path.abspath(os.path.join(FOLDER, *[os.pardir] * 4))  # above share/doc/product_table/examples
if os.path.exists(os.path.join(REPOSITORY, "include")):
    ROOT, SHARED = REPOSITORY, os.path.join(REPOSITORY, "target", "libproduct_table.so")
else:
    ROOT, SHARED = PREFIX, os.path.join(PREFIX, "lib", "libproduct_table.so")
TYPES = {"uint32_t": ctypes.c_uint32, "uint64_t": ctypes.c_uint64}
PLENTY = 1 << 16  # words lent to a set-up, which answers how many it takes


class Header:
    """The header's numbers, the texts of pt_message(), and its calls with the types of their arguments."""

    def __init__(self):
        with open(os.path.join(ROOT, "include", "product_table.h"), encoding="utf-8") as file:
            text = file.read()
        self.numbers = {name: int(value) for name, value in re.findall(r"^#define (PT_\w+) +(\d+)u\b", text, re.M)}
        messages = re.findall(r'case (PT_\w+): return "(.*)";', text)
        self.messages = {self.numbers[name]: message for name, message in messages}
        calls = re.findall(r"^uint32_t pt_(\w+)\([^)]*size_t answer_words([^)]*)\);", text, re.M)
        self.calls = {name: [TYPES[kind] for kind in re.findall(r"\w+_t", rest)] for name, rest in calls}


try:
    HEADER = Header()
except OSError as problem:
    sys.exit(f"office: {problem}")
OK, GOING, FOUND, IDLE, NOTHING_DONE, ANSWER_WORDS, LABEL_14 = (
    HEADER.numbers["PT_" + name] for name in "OK GOING FOUND IDLE NOTHING_DONE ANSWER_WORDS LABEL_14".split()
)


class Refused(Exception):
    """A call was refused, and changed nothing."""

    def __init__(self, status):
        super().__init__(HEADER.messages[status])
        self.status = status


class Library:
    """The shared library. `library("add", memory, lane, code, deposit, material)` makes a call on what is lent to it, a
    memory or a text, and gives the four words after the status or raises Refused."""

    def __init__(self, path):
        self.shared = ctypes.CDLL(path)

    def __call__(self, call, lent, *numbers):
        arguments = [kind(n) for kind, n in zip(HEADER.calls[call], numbers, strict=True)]
        if [a.value for a in arguments] != list(numbers):
            raise ValueError(f"{call} {numbers}: a number past its width, which C would cut")
        function = getattr(self.shared, "pt_" + call)
        function.restype = ctypes.c_uint32
        answer = (ctypes.c_uint32 * ANSWER_WORDS)()
        status = function(lent, ctypes.c_size_t(len(lent)), answer, ctypes.c_size_t(ANSWER_WORDS), *arguments)
        if status != OK:
            raise Refused(status)
        return list(answer)[1:]

    def code(self, label):
        """The code of a label. What is lent is its bytes with their number, and no closing NUL."""
        text = label.encode()
        low, high, _, _ = self("label_read", ctypes.create_string_buffer(text, len(text)))
        return high << 32 | low

    def label(self, code):
        """The code's shortest label, as text."""
        text = ctypes.create_string_buffer(LABEL_14)
        length = self("label_write", text, code)[0]
        return text[:length].decode()


class ProductTable:
    """A table in a memory of this script. `table("add", lane, label, deposit, material)` makes a call: where it takes a
    code, the text of a label is read, or a number is taken."""

    def __init__(self, library, yards, cabinets, lanes, slots):
        self.library = library
        self.memory = (ctypes.c_uint32 * PLENTY)()
        total = self("setup", yards, cabinets, lanes, slots)[0]
        self.memory = (ctypes.c_uint32 * total)(*self.memory[:total])

    def __call__(self, call, *arguments):
        numbers = [self.library.code(a) if isinstance(a, str) else a for a in arguments]
        return self.library(call, self.memory, *numbers)


def found(table, lane):
    """Slot, deposit and material that the lane's running lookup finds, or nothing."""
    outcome, *record = table("step", lane)
    while outcome == GOING:
        outcome, *record = table("step", lane)
    return record if outcome == FOUND else None


def hand_back_all(table, lane):
    """Hands back every slot that may be, and gives their numbers."""
    slots = []
    try:
        while True:
            slots.append(table("hand_back", lane)[0])
    except Refused as refusal:
        if refusal.status != NOTHING_DONE:
            raise
    return slots


# ---- what the office prints


def euros(cents):
    return f"{cents // 100}.{cents % 100:02}"


def print_products(table, lane, labels):
    """Looks the code of each label up, all in one section of the lane."""
    table("begin", lane)
    for label in labels:
        table("start", lane, label)
        record = found(table, lane)
        print(f"  {label:>14}  " + (f"{euros(record[1])}  material {record[2]}, slot {record[0]}" if record else "none"))
    table("end", lane)


def print_slots(table):
    """How many slots are free and retired, and which lanes are awaited; gives how many are retired."""
    awaited, lowest, free, retired = table("awaited")
    print(f"  slots: {free} free, {retired} retired; lanes awaited: {awaited}" + (f", the lowest {lowest}" if awaited else ""))
    return retired


def print_try(table, *call):
    """Makes a call that may be refused."""
    try:
        table(*call)
        print(" ", *call, "- done")
    except Refused as refusal:
        print(" ", *call, "- refused,", refusal)


# ---- the round

LANES = 2
OFFICE, CUSTOMER = 0, 1  # the office works by lane 0, a customer stands at lane 1
GLASS, PET = 1, 2
SMALL, LARGE, CRATE = "96385074", "5901234123457", "15901234123454"  # labels of 8, 13 and 14 digits
NEW = "73513537"  # of a product that comes later
PRODUCTS = [(SMALL, 8, GLASS), (LARGE, 25, PET), (CRATE, 150, PET), ("40170725", 8, GLASS), ("4006381333931", 15, GLASS)]
LABELS = [label for label, _, _ in PRODUCTS]


def main(library):
    table = ProductTable(library, yards=1, cabinets=1, lanes=LANES, slots=8)

    print("The office enters its products by their labels; a mistake is refused by name, and changes nothing.")
    for product in PRODUCTS:
        table("add", OFFICE, *product)
    print_try(table, "add", OFFICE, SMALL, 8, GLASS)
    print_try(table, "replace", OFFICE, NEW, 25, PET)
    print_try(table, "add", OFFICE, "5901234123475", 25, PET)  # two digits exchanged
    print_try(table, "add", OFFICE, "5901234l23457", 25, PET)  # a letter
    print_products(table, OFFICE, LABELS)

    print("It has labels printed, each as short as its code allows: zeros on the left change no code and no check digit.")
    for label in "0000096385074", "00000096385074", "05901234123457", CRATE:
        print(f"  {label:>14}  {library.label(library.code(label))}")

    print(f"A customer's lookup of {SMALL} starts. Meanwhile the office raises its deposit and deletes {CRATE}.")
    table("begin", CUSTOMER)
    table("start", CUSTOMER, SMALL)
    table("replace", OFFICE, SMALL, 15, GLASS)
    table("delete", OFFICE, CRATE)
    table("clock", OFFICE)
    print(f"  the customer gets {euros(found(table, CUSTOMER)[1])}: the lookup stood on the old record already")
    print_try(table, "hand_back", OFFICE)

    print(f"The customer takes the next bottle, {LARGE}, back and goes: the section ends, and the lookup is dropped.")
    table("start", CUSTOMER, LARGE)
    table("end", CUSTOMER)
    print_try(table, "step", CUSTOMER)

    print("The lanes pass and make clocks until no slot is retired. A display adds up what the clocks say they moved.")
    moved = 0
    while print_slots(table):
        for lane in range(LANES):
            table("pass", lane, IDLE)
            moved += table("clock", lane)[3]
        for slot in hand_back_all(table, OFFICE):
            print(f"  slot {slot} is handed back")
    print(f"  {moved} slots came to done queues")

    print("The memory is kept in a file overnight, and is another one in the morning: no word is a pointer.")
    with tempfile.TemporaryFile() as file:
        file.write(table.memory)
        file.seek(0)
        table.memory = type(table.memory).from_buffer_copy(file.read())
    print_try(table, "add", OFFICE, NEW, 8, GLASS)
    print_products(table, OFFICE, LABELS + [NEW])
    print_slots(table)


if __name__ == "__main__":
    try:
        shared = Library(os.path.abspath(sys.argv[1]) if len(sys.argv) > 1 else SHARED)
    except OSError as error:
        sys.exit(f"office: {error}\noffice: in the repository, ./build shared makes the library")
    try:
        main(shared)
    except Refused as refusal:
        sys.exit(f"office: {refusal}")
