#!/usr/bin/env python3
"""An independent reading of book tables, for comparison: the refusal that each damage of the program `damaged_books` must meet.

    damaged_books.py | diff - crates/damaged_books/stdout
    damaged_books.py --cases > crates/damaged_books/src/cases.rt      (then rt fmt)
"""
import sys

TRUE, FALSE, NOT, AND, OR, OBJECT, WHEN, FACT = 0, 1, 4, 5, 6, 10, 12, 13
TYPE, ACTION, STARTS_TRUE, STARTS_FALSE, ALWAYS = 14, 18, 19, 20, 21
FORMULA = {TRUE, FALSE, NOT, AND, OR, FACT}

# Eight atoms: three relevant, two always true. The goal at place 5; actions at places 11, 24, 32 and 38.
BOOK = [
    (STARTS_TRUE, 1), (STARTS_FALSE, 3), (STARTS_TRUE, 5), (ALWAYS, 2), (ALWAYS, 6),
    (AND, 2), (FACT, 0), (NOT, 0), (OR, 2), (FACT, 1), (FALSE, 0),
    # an action of operator 0 with objects 0 and 1: a literal that adds, one that deletes
    (ACTION, 0), (OBJECT, 0), (OBJECT, 1), (TRUE, 0), (AND, 3), (FACT, 0), (NOT, 0), (FACT, 1),
    (WHEN, 0), (FACT, 2), (AND, 1), (NOT, 0), (FACT, 2),
    # the same with one object more
    (ACTION, 0), (OBJECT, 0), (OBJECT, 1), (OBJECT, 2), (OBJECT, 3), (NOT, 0), (FACT, 0), (AND, 0),
    # operator 0 with objects 0 and 2
    (ACTION, 0), (OBJECT, 0), (OBJECT, 2), (FACT, 2), (AND, 1), (FACT, 1),
    # operator 31 with no objects, and a WHEN with two literals
    (ACTION, 31), (OR, 2), (FACT, 0), (FACT, 1), (AND, 2), (WHEN, 0), (AND, 0), (AND, 2), (FACT, 0), (NOT, 0), (FACT, 1),
    (FACT, 2),
]
SIZES = [8, 3, 2, 4, len(BOOK)]


class Refused(Exception):
    pass


class Reader:
    def __init__(self, sizes, kinds, operands):
        self.atoms, self.r, self.c, self.a, self.e = sizes
        self.kinds, self.operands, self.at = kinds, operands, 0

    def entry(self, kinds, inside):
        """One entry that stands inside so many others."""
        i = self.at
        if i >= self.e:
            raise Refused(4, i)
        kind, x = self.kinds[i], self.operands[i]
        if kind not in kinds:
            raise Refused(3, i)
        if inside > 512:
            raise Refused(6, i)
        fine = {AND: True, OR: True, FACT: x < self.r, ACTION: x < 32, STARTS_TRUE: x < self.atoms,
                STARTS_FALSE: x < self.atoms, ALWAYS: x < self.atoms}.get(kind, x == 0)
        if not fine:
            raise Refused(5, i)
        self.at += 1
        return kind, x

    def formula(self, inside):
        kind, x = self.entry(FORMULA, inside)
        for _ in range({NOT: 1, AND: x, OR: x}.get(kind, 0)):
            self.formula(inside + 1)

    def literal_after(self, kind, inside):
        if kind == NOT:
            self.entry({FACT}, inside + 1)

    def clause(self):
        kind, _ = self.entry({NOT, FACT, WHEN}, 1)
        if kind != WHEN:
            return self.literal_after(kind, 1)
        self.formula(2)
        start = self.at
        _, m = self.entry({AND}, 2)
        if m == 0:
            raise Refused(5, start)
        for _ in range(m):
            self.literal_after(self.entry({NOT, FACT}, 3)[0], 3)

    def name(self):
        name = [self.entry({ACTION}, 0)[1]]
        while self.at < self.e and self.kinds[self.at] == OBJECT:
            if len(name) == 5 or self.operands[self.at] >= 32:
                raise Refused(5, self.at)
            name.append(self.operands[self.at])
            self.at += 1
        return name

    def group(self, count, kinds, taken):
        found = []
        for _ in range(count):
            start = self.at
            _, x = self.entry(kinds, 0)
            if found and x <= found[-1] or x in taken:
                raise Refused(8, start)
            found.append(x)
        return found

    def book(self):
        first = self.group(self.r, {STARTS_TRUE, STARTS_FALSE}, [])
        self.group(self.c, {ALWAYS}, first)
        self.formula(0)
        before = []
        for _ in range(self.a):
            name = self.name()
            if not before < name:
                raise Refused(8, self.at - 1)
            before = name
            self.formula(0)
            for _ in range(self.entry({AND}, 0)[1]):
                self.clause()
        if self.at < self.e:
            raise Refused(4, self.at)


def opened(sizes, kinds, operands):
    atoms, r, c, a, e = sizes
    for fails, place in ((atoms > 65536, 0), (r + c > atoms, 2), (a > 1048576, 3), (not 1 <= e <= 1048576, 4)):
        if fails:
            return f"refused 1 book {place}"
    for array in (kinds, operands):
        if len(array) < e:
            return f"refused 2 book {len(array)}"
    try:
        Reader(sizes, kinds, operands).book()
    except Refused as refused:
        return "refused {} book {}".format(*refused.args)
    return "opens"


DAMAGES = [
    ("nothing", 0, STARTS_TRUE, 1),
    ("an atom that is not there", 2, STARTS_FALSE, 8),
    ("a relevant atom that comes again", 1, STARTS_FALSE, 1),
    ("relevant atoms that do not rise", 2, STARTS_TRUE, 2),
    ("an always true atom among the relevant", 1, ALWAYS, 3),
    ("a relevant atom among the always true", 4, STARTS_TRUE, 6),
    ("an always true atom that comes again", 4, ALWAYS, 2),
    ("an always true atom that is not there", 4, ALWAYS, 8),
    ("an always true atom that is relevant too", 4, ALWAYS, 5),
    ("the first always true atom is relevant too", 3, ALWAYS, 1),
    ("a goal with one part too many", 5, AND, 3),
    ("a goal with one part too few", 5, AND, 1),
    ("a goal with very many parts", 5, AND, 4294967295),
    ("a goal that is a WHEN", 5, WHEN, 0),
    ("a goal that is an atom", 5, 2, 0),
    ("a goal with a quantifier", 6, 8, 0),
    ("a kind that does not exist", 6, 22, 0),
    ("the highest kind", 6, 255, 0),
    ("a fact that is not there", 6, FACT, 3),
    ("NOT with an operand", 7, NOT, 1),
    ("FALSE with an operand", 10, FALSE, 1),
    ("a formula where an action should stand", 11, TRUE, 0),
    ("an action of no operator", 38, ACTION, 32),
    ("an object beyond the last", 13, OBJECT, 32),
    ("an action without its precondition", 14, AND, 3),
    ("an effect that is a fact", 15, FACT, 0),
    ("an effect that is an OR", 15, OR, 3),
    ("a part of an effect that is TRUE", 16, TRUE, 0),
    ("an AND in an effect", 16, AND, 0),
    ("an effect on a fact that is not there", 16, FACT, 3),
    ("NOT NOT in an effect", 18, NOT, 0),
    ("a WHEN with an operand", 19, WHEN, 1),
    ("a WHEN with no literals", 21, AND, 0),
    ("a WHEN with an OR of literals", 21, OR, 1),
    ("a WHEN with one literal too many", 21, AND, 2),
    ("a WHEN inside a WHEN", 22, WHEN, 0),
    ("a literal that is FALSE", 22, FALSE, 0),
    ("a literal on a fact that is not there", 23, FACT, 7),
    ("a name that is a fifth object longer", 29, OBJECT, 4),
    ("a name that comes before the one before it", 26, OBJECT, 0),
    ("a name whose last object comes too early", 34, OBJECT, 0),
    ("a name that begins the one before it", 34, OBJECT, 1),
    ("a name that is the one before it", 27, TRUE, 0),
    ("an operator that comes before the one before it", 11, ACTION, 1),
    ("a type", 38, TYPE, 0),
    ("a last entry that is no literal", 49, OBJECT, 0),
]
RESIZES = [
    ("65537 atoms", 0, 65537),
    ("fewer atoms than are listed", 0, 4),
    ("as many atoms as the highest that is listed", 0, 6),
    ("one relevant atom more", 1, 4),
    ("one relevant atom fewer", 1, 2),
    ("more relevant atoms than atoms", 1, 9),
    ("relevant atoms past all bounds", 1, 4294967295),
    ("one always true atom more", 2, 3),
    ("no always true atoms", 2, 0),
    ("1048577 actions", 3, 1048577),
    ("one action more", 3, 5),
    ("one action fewer", 3, 3),
    ("no actions", 3, 0),
    ("no entries", 4, 0),
    ("1048577 entries", 4, 1048577),
    ("one entry fewer", 4, len(BOOK) - 1),
    ("one entry more", 4, len(BOOK) + 1),
]


def answers():
    kinds, operands = [k for k, _ in BOOK], [x for _, x in BOOK]
    assert opened(SIZES, kinds, operands) == "opens"
    for words, at, kind, operand in DAMAGES:
        ks, xs = kinds[:], operands[:]
        ks[at], xs[at] = kind, operand
        yield f"{words}: {opened(SIZES, ks, xs)}"
    for words, position, size in RESIZES:
        sizes = SIZES[:]
        sizes[position] = size
        yield f"{words}: {opened(sizes, kinds, operands)}"
    yield f"a short array of kinds: {opened(SIZES, kinds[:-1], operands)}"
    yield f"a short array of operands: {opened(SIZES, kinds, operands[:-2])}"


KINDS = ("True False Atom Equal Not And Or Imply Forall Exists Object Variable When Fact TypeSet Predicate Operator Parameter "
         "Action StartsTrue StartsFalse Always").split()
PARTS = {0: "relevant atoms", 3: "atoms that are always true", 5: "the goal, from place 5"}
PARTS.update({i: f"an action, from place {i}" for i, (kind, _) in enumerate(BOOK) if kind == ACTION})
GROUPS = ("atoms", "relevant", "always", "actions", "entries")


def cases():
    """The cases of the program, in Rattle. A damage may have a kind that does not exist: its kinds are numbers."""
    code = lambda kind: f"Kind::{KINDS[kind]} as u8" if kind < len(KINDS) else kind
    print("// A small book table, and the ways in which it is damaged.\nuse book::Sizes;\nuse table::Kind;")
    print("use trials::{Damage, Resize};\n")
    print(f"pub const ENTRIES: usize = {len(BOOK)};\n")
    print("pub const SIZES: Sizes = Sizes { " + ", ".join(f"{g}: {n}" for g, n in zip(GROUPS, SIZES)) + " };\n")
    print("pub const TABLE: [(Kind, u32); ENTRIES] = [")
    for i, (kind, operand) in enumerate(BOOK):
        if i in PARTS:
            print(f"    // {PARTS[i]}")
        print(f"    (Kind::{KINDS[kind]}, {operand}),")
    print("];\n")
    print(f"pub const DAMAGES: [Damage; {len(DAMAGES)}] = [")
    for words, at, kind, operand in DAMAGES:
        print(f'    Damage {{ words: "{words}", at: {at}, kind: {code(kind)}, operand: {operand} }},')
    print("];\n")
    print(f"pub const RESIZES: [Resize<Sizes>; {len(RESIZES)}] = [")
    for words, position, size in RESIZES:
        print(f'    Resize {{ words: "{words}", sizes: Sizes {{ {GROUPS[position]}: {size}, ..SIZES }} }},')
    print("];")


if __name__ == "__main__":
    if sys.argv[1:] == ["--cases"]:
        cases()
    else:
        print("\n".join(answers()))
