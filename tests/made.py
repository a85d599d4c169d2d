"""The large script that a number of people and a seed give, as events, and what its summary must be over an empty store,
worked out row by row."""


class Draws:
    """The numbers that are drawn from a seed."""

    def __init__(self, seed):
        self.number = seed

    def draw(self, most):
        self.number = self.number * 16807 % 2147483647
        return self.number % most


class Script:
    """Notes by number, each with two people and a number; transfers, each of a giver, a taker and an amount; and who is erased."""

    def __init__(self, people, seed):
        draws = Draws(seed)
        self.people = range(1, people + 1)
        self.notes = [(note, 1 + draws.draw(people), 1 + draws.draw(people), draws.draw(1000)) for note in self.people]
        self.transfers = [(1 + draws.draw(people), 1 + draws.draw(people), draws.draw(100)) for _ in self.people]
        self.erased = self.people[::4]


def erase(notes, person):
    """Takes a person's notes away: how many go, since nobody else owns them, and how many stay without that person."""
    removed = changed = 0
    for number, (first, second, amount) in list(notes.items()):
        if person not in (first, second):
            continue
        if {first, second} - {person, None}:
            notes[number] = [None, second, None] if first == person else [first, None, amount]
            changed += 1
        else:
            del notes[number]
            removed += 1
    return removed, changed


def summary(people, seed):
    script = Script(people, seed)
    notes = {note: list(told) for note, *told in script.notes}
    for giver, taker, amount in script.transfers:
        notes[giver][2] -= amount
        notes[taker][2] += amount
    got = removed = changed = 0
    for person in script.erased:
        got += 1 + sum(person in (first, second) for first, second, _ in notes.values())
        gone, left = erase(notes, person)
        removed, changed = removed + 1 + gone, changed + left
    calls = 3 + 2 * people + 4 * people + 2 * len(script.erased) + 1
    groups = {first for first, _, _ in notes.values()}
    total = sum(amount or 0 for _, _, amount in notes.values())
    return (f"calls {calls}\ndone {calls}\nrefused 0\nmemory 0\ngot {got}\n"
            f"forgot {removed} {changed}\nheld {len(groups)}\nsum {total}\n")
