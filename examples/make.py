#!/usr/bin/env python3
"""Makes the example books and works out what the program must print for them.

usage: examples/make.py        (from any folder; writes NAME.book and NAME.report beside itself, and copies of them into
                              crates/examples/data, where the gate runs a program on them)

The reports come from `report` below, which is written from the rules of docs/ and shares no code with the program:
it looks for groups over partings, where the program counts them for all sets.
"""
import os
import random


# ---- the bytes of a book -----------------------------------------------------------------------------------------

def bill(payer, amount, weights):
    line = [1, payer] + list(amount.to_bytes(4, "little"))
    for weight in weights:
        line += list(weight.to_bytes(2, "little"))
    return bytes(line)


def payment(sender, receiver, amount):
    return bytes([2, sender, receiver]) + amount.to_bytes(4, "little")


def take_back(number):
    return bytes([3]) + number.to_bytes(2, "little")


def book(people, lines):
    out = bytes([people])
    for line in lines:
        out += bytes([len(line)]) + line
    return out


# ---- the rules, for the expected reports -------------------------------------------------------------------------

ROOM = 512


def refused(people, taken, back, line, whole):
    """The number and place of the first rule that applies to a line, or None."""
    number = lambda at, size: int.from_bytes(line[at:at + size], "little")
    if len(taken) >= ROOM:
        return 11, 0
    if not line or line[0] not in (1, 2, 3):
        return 2, 0
    kind = line[0]
    if not whole or len(line) != {1: 6 + 2 * people, 2: 7, 3: 3}[kind]:
        return 3, len(line)
    for at in {1: [1], 2: [1, 2], 3: []}[kind]:
        if line[at] >= people:
            return 4, at
    for at in {1: [2], 2: [3], 3: []}[kind]:
        if not 1 <= number(at, 4) <= 1_000_000_000:
            return 5, at
    if kind == 1:
        weights = [number(6 + 2 * i, 2) for i in range(people)]
        for i, weight in enumerate(weights):
            if weight > 1000:
                return 6, 6 + 2 * i
        if not any(weights):
            return 7, 6
    if kind == 2 and line[1] == line[2]:
        return 8, 2
    if kind == 3:
        k = number(1, 2)
        if k >= len(taken) or taken[k][0] == 3 or k in back:
            return 9, 1
    return None


def cents(people, taken, back):
    """Each person's balance over the lines that stand: above 0 is owed, below 0 owes."""
    balance = [0] * people
    for k, line in enumerate(taken):
        if k in back:
            continue
        if line[0] == 1:
            amount = int.from_bytes(line[2:6], "little")
            weights = [int.from_bytes(line[6 + 2 * i:8 + 2 * i], "little") for i in range(people)]
            balance[line[1]] += amount
            fallen = 0
            for i in range(people):
                up_to = amount * sum(weights[:i + 1]) // sum(weights)
                balance[i] -= up_to - fallen
                fallen = up_to
        elif line[0] == 2:
            amount = int.from_bytes(line[3:7], "little")
            balance[line[1]] += amount
            balance[line[2]] -= amount
    return balance


def groups(balance):
    """The groups in their order, each a set of people as a number, by a search over partings into even groups."""
    people = len(balance)
    total = [0] * (1 << people)
    for s in range(1, 1 << people):
        low = (s & -s).bit_length() - 1
        total[s] = total[s & (s - 1)] + balance[low]
    opened = sum(1 << i for i in range(people) if balance[i])
    even = [s for s in range(1, 1 << people) if s & ~opened == 0 and total[s] == 0]
    known = {0: (0, [])}

    def best(left):
        if left not in known:
            low = left & -left
            top = None
            for s in even:
                if s & low and s & ~left == 0:
                    count, rest = best(left & ~s)
                    if top is None or count + 1 > top[0]:
                        top = (count + 1, [s] + rest)
            known[left] = top
        return known[left]

    return best(opened)[1]


def payments(balance, group):
    """In a group the smallest who still owes pays the smallest who is still owed the lesser of the two amounts."""
    balance = list(balance)
    people = [i for i in range(len(balance)) if group >> i & 1]
    out = []
    while any(balance[i] for i in people):
        sender = next(i for i in people if balance[i] < 0)
        receiver = next(i for i in people if balance[i] > 0)
        amount = min(-balance[sender], balance[receiver])
        balance[sender] += amount
        balance[receiver] -= amount
        out.append((sender, receiver, amount))
    return out


def report(data):
    """All that the program prints for an input."""
    people = data[0] if data else 0
    if not 1 <= people <= 16:
        return "refused 1 at 0\n"
    text, taken, back, at = [], [], set(), 1
    while at < len(data):
        size = data[at]
        line = data[at + 1:at + 1 + size]
        why = refused(people, taken, back, line, len(line) == size)
        if why:
            text.append("line refused %d at %d" % why)
        else:
            text.append("line %d" % len(taken))
            taken.append(line)
            if line[0] == 3:
                back.add(int.from_bytes(line[1:3], "little"))
        at += 1 + size
    balance = cents(people, taken, back)
    for i, amount in enumerate(balance):
        if amount:
            text.append("%d %s %d" % (i, "is owed" if amount > 0 else "owes", abs(amount)))
    for group in groups(balance):
        for paid in payments(balance, group):
            text.append("%d pays %d %d" % paid)
    return "".join(line + "\n" for line in text)


# ---- the books ---------------------------------------------------------------------------------------------------

def cab():
    """Three people: a bill of 100 for all, and a payment of 10 that was made already."""
    return book(3, [bill(0, 100, [1, 1, 1]), payment(1, 0, 10)])


def week():
    """Six people for a week: skipper 0, mate 1, cook 2, and three who came for some of the days."""
    everybody, crew = [1] * 6, [1, 1, 1, 0, 0, 0]
    return book(6, [
        bill(0, 42000, everybody),             # diesel at the start
        bill(2, 18635, everybody),             # food
        bill(1, 3600, [1, 1, 0, 0, 0, 0]),     # a cab to the chandler
        bill(0, 5200, everybody),              # berth, first night
        bill(3, 5450, [1, 1, 1, 1, 0, 0]),     # berth, two had gone by train
        bill(4, 2400, [0, 0, 0, 1, 1, 0]),     # train
        payment(5, 0, 10000),                  # paid on the quay
        bill(2, 9120, everybody),              # food again
        bill(2, 9120, everybody),              # the same slip entered twice
        take_back(8),
        bill(1, 7700, [2, 2, 2, 1, 1, 1]),     # fenders, the crew's share is double
        bill(5, 31000, everybody),             # last tank of diesel
        bill(0, 6100, [1, 1, 1, 1, 1, 0]),     # berth, the last night
        payment(3, 2, 2500),
        bill(2, 1, crew),                      # a cent for the tin
    ])


def season():
    """Sixteen people and four hundred lines over a season, with lines taken back and payments made."""
    rng = random.Random(1877)
    lines, plain, gone = [], [], set()
    while len(lines) < 396:
        roll = rng.random()
        if roll < 0.05 and len(plain) > 10:
            k = rng.choice([k for k in plain[-8:] if k not in gone] or [plain[-1]])
            if k in gone:
                continue
            gone.add(k)
            lines.append(take_back(k))
            continue
        plain.append(len(lines))
        if roll < 0.20:
            sender, receiver = rng.sample(range(16), 2)
            lines.append(payment(sender, receiver, rng.randrange(5, 400) * 100))
        else:
            aboard = rng.sample(range(16), rng.choice([2, 3, 6, 8, 10, 12, 16]))
            weights = [rng.choice([1, 1, 1, 2]) if i in aboard else 0 for i in range(16)]
            lines.append(bill(rng.randrange(16), rng.randrange(400, 60000), weights))
    # on the last day four settle up with person 11, so that they are left with what one other person is owed or owes
    for i, j in ((0, 3), (5, 2), (6, 1), (7, 4)):
        balance = cents(16, lines, gone)
        over = balance[i] + balance[j]
        lines.append(payment(i, 11, -over) if over < 0 else payment(11, i, over))
    return book(16, lines)


def main():
    here = os.path.dirname(os.path.abspath(__file__))
    for make in (cab, week, season):
        data = make()
        for folder in here, os.path.join(here, "..", "crates", "examples", "data"):
            with open(os.path.join(folder, make.__name__ + ".book"), "wb") as f:
                f.write(data)
            with open(os.path.join(folder, make.__name__ + ".report"), "w") as f:
                f.write(report(data))


if __name__ == "__main__":
    main()
