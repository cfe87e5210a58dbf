#!/usr/bin/env python3
"""A second reading of the rules, beside the proved code: what the program `instances` tells of some books.

    instances.py DIR        prints, for the repository in DIR, the output that the program is held to

It builds the tasks anew, and their books by instantiate.py."""
import sys

from instantiate import Task, book, scenario


def atom(predicate, kind, terms):
    return [("Atom", predicate)] + [(kind, t) for t in terms]


def fact(predicate, *objects):
    return atom(predicate, "Object", objects)


def adds(predicate, *variables):
    return atom(predicate, "Variable", variables)


def deletes(predicate, *variables):
    return [("Not", 0)] + adds(predicate, *variables)


def task(objects, arities, facts, goal, parameters, precondition, effect):
    """One type with all objects, and one operator; precondition and effect are ANDs of what is listed."""
    rows = [("TypeSet", 2 ** objects - 1)] + [("Predicate", a) for a in arities]
    rows += [row for f in facts for row in f] + goal
    rows += [("Operator", parameters)] + [("Parameter", 0)] * parameters
    for parts in (precondition, effect):
        rows += [("And", len(parts))] + [row for part in parts for row in part]
    return Task([objects, 1, len(arities), len(facts), 1, len(rows)], rows)


def tower(discs):
    """Pegs are objects 0 to 2; smaller, on and clear are predicates 0, 1 and 2."""
    n = discs + 3
    order = list(range(3, n))
    smaller = [fact(0, d, o) for d in order for o in range(n) if o < 3 or o > d]

    def stack(peg):
        return [fact(1, d, below) for d, below in zip(order, order[1:] + [peg])]

    goal = [("And", discs)] + [row for f in stack(2) for row in f]
    facts = smaller + stack(0) + [fact(2, o) for o in (1, 2, 3)]
    return task(n, [2, 2, 1], facts, goal, 3, [adds(0, 0, 2), adds(1, 0, 1), adds(2, 0), adds(2, 2)],
                [adds(2, 1), adds(1, 0, 2), deletes(1, 0, 1), deletes(2, 2)])


def path():
    links = [fact(0, i, i + 1) for i in range(19)]
    return task(20, [2, 1], links + [fact(1, 0)], fact(1, 19), 4, [adds(0, 0, 1), adds(0, 1, 2), adds(0, 2, 3), adds(1, 0)],
                [deletes(1, 0), adds(1, 3)])


def pairs():
    return task(32, [2], [fact(0, 0, 1)], fact(0, 1, 0), 3, [adds(0, 0, 1), adds(0, 1, 2), adds(0, 0, 2)],
                [deletes(0, 0, 1), deletes(0, 1, 2), deletes(0, 0, 2), adds(0, 1, 0), adds(0, 2, 1)])


def tell(words, sizes):
    atoms, relevant, always, actions, entries = sizes
    print(f"{words}: {atoms} atoms, {relevant} relevant, {always} always true, {actions} actions, {entries} entries")


def main(top):
    source = f"{top}/crates/middleware/src/"
    tell("the scenario", book(Task(*scenario(source + "lib.rt")))[0])
    print("its book is the one that stands beside it, entry for entry")
    tell("a tower of 3 discs", book(tower(3))[0])
    tell("a tower of 8 discs", book(tower(8))[0])
    tell("a path of 20 places", book(path())[0])
    tell("pairs of 32 objects", book(pairs())[0])


if __name__ == "__main__":
    main(sys.argv[1])
