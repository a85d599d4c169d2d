"""The bytes that the large script of mode `make` leaves on the disk: of the record of each commit, and of the image of each erasure.

docs/disk.md has the form of both. Beside them stands a plain copy of as many bytes, by memcpy in C.
"""
import sys

from made import erase

COPY = r"""
#include <stdio.h>
#include <stdlib.h>
#include <string.h>

/* Copies as many bytes as each number of the input says, but the first, which is the greatest: from one place in memory to another,
   both of which were written before. */
int main(void) {
    size_t most, length;
    if (scanf("%zu", &most) != 1) return 1;
    char *from = malloc(most), *to = malloc(most);
    if (!from || !to) return 1;
    memset(from, 'x', most);
    memset(to, 'y', most);
    while (scanf("%zu", &length) == 1) {
        memcpy(to, from, length);
        __asm__ volatile("" : : "r"(to) : "memory");
    }
    return 0;
}
"""


def value_bytes(value):
    return 1 if value is None else 9 if isinstance(value, int) else 5 + len(value.encode())


def row_bytes(values):
    return 4 + sum(map(value_bytes, values))


def record_bytes(*rows):
    """The bytes that a commit adds to the file: a record of changes that put these rows, whose first values are their keys."""
    return 1 + 4 + 1 + 4 + sum(4 + value_bytes(values[0]) + 1 + row_bytes(values) for values in rows)


def records(script):
    """The bytes of each commit of the large script before its erasures, but for its CREATEs. A transfer that leaves both notes as they
    were is no commit."""
    lengths = [record_bytes((person, "u")) for person in script.people]
    lengths += [record_bytes(note) for note in script.notes]
    for giver, taker, amount in script.transfers:
        if giver != taker and amount != 0:
            lengths.append(record_bytes((giver, 1, 1, 1), (taker, 1, 1, 1)))
    return lengths


def images(script, creates):
    """The bytes of the image that each erasure of the script writes, where the list of its CREATEs has so many."""
    notes = {note: list(told) for note, *told in script.notes}
    held = {}
    for note, first, second, _ in script.notes:
        for person in {first, second}:
            held.setdefault(person, []).append(note)
    length = 1 + 8 + creates + 4 + sum(row_bytes((person, "u")) for person in script.people) + 4 + sum(row_bytes((1, *told)) for told in notes.values())
    lengths = []
    for person in script.erased:
        some = {note: notes.pop(note) for note in held.get(person, ()) if note in notes}
        length -= row_bytes((person, "u")) + sum(row_bytes((1, *told)) for told in some.values())
        erase(some, person)
        length += sum(row_bytes((1, *told)) for told in some.values())
        notes.update(some)
        lengths.append(length)
    return lengths


def image_in(area):
    """The bytes of the image that stands in the file of an area, and those of the list of its CREATEs."""
    with open(area, "rb") as file:
        front = file.read(17 + 1 + 8)
        if len(front) != 26 or front[0] != 1 or front[17] != 1:
            sys.exit(f"{area} has no image")
        number = file.read(4)
        length = 4
        for _ in range(int.from_bytes(number)):
            head = file.read(5)
            length += 5 + len(file.read(int.from_bytes(head[1:])))
    return int.from_bytes(front[9:17]), length
