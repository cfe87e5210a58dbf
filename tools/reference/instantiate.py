#!/usr/bin/env python3
"""A second reading of the rules, beside the proved code: the book of ground actions of a task table.

    instantiate.py FILE        prints, as rows of a table, the book of the scenario's task table in FILE (crates/middleware/src/lib.rt)

It knows nothing of limits and refusals: the table has to be a good one."""
import itertools
import re
import sys

KINDS = ("True False Atom Equal Not And Or Imply Forall Exists Object Variable When Fact TypeSet Predicate Operator Parameter "
         "Action StartsTrue StartsFalse Always").split()
CODE = {k: i for i, k in enumerate(KINDS)}
TRUE, FALSE = ("True",), ("False",)


class Task:
    """A task as trees, read from its sizes and entries."""

    def __init__(self, sizes, entries):
        self.entries, self.at = entries, 0
        self.n, types, predicates, facts, operators, _ = sizes
        self.types = [self.take()[1] for _ in range(types)]
        self.arities = [self.take()[1] for _ in range(predicates)]
        self.facts = {self.number(p, [self.take()[1] for _ in range(self.arities[p])])
                      for p in (self.take()[1] for _ in range(facts))}
        self.goal = self.formula()
        self.operators = [self.operator() for _ in range(operators)]
        self.atoms = sum(self.n ** a for a in self.arities)

    def take(self):
        self.at += 1
        return self.entries[self.at - 1]

    def terms(self, count):
        return [self.take() for _ in range(count)]

    def formula(self):
        kind, x = self.take()
        if kind == "Atom":
            return kind, x, self.terms(self.arities[x])
        if kind == "Equal":
            return kind, self.terms(2)
        if kind in ("Not", "Imply", "And", "Or"):
            return kind, [self.formula() for _ in range({"Not": 1, "Imply": 2}.get(kind, x))]
        if kind in ("Forall", "Exists"):
            return kind, x, self.formula()
        return (kind,)

    def effect(self):
        kind, x = self.take()
        if kind == "Atom":
            return "change", True, x, self.terms(self.arities[x])
        if kind == "Not":
            p = self.take()[1]
            return "change", False, p, self.terms(self.arities[p])
        if kind == "And":
            return "and", [self.effect() for _ in range(x)]
        if kind == "Forall":
            return "forall", x, self.effect()
        return "when", self.formula(), self.effect()

    def operator(self):
        count = self.take()[1]
        parameters = [self.take()[1] for _ in range(count)]
        return parameters, self.formula(), self.effect()

    def members(self, ty):
        return [o for o in range(self.n) if self.types[ty] >> o & 1]

    def number(self, p, objects):
        value = 0
        for o in objects:
            value = value * self.n + o
        return sum(self.n ** a for a in self.arities[:p]) + value

    def atom(self, sheet, p, terms):
        return self.number(p, [x if k == "Object" else sheet[x] for k, x in terms])

    def predicate(self, atom):
        for p, a in enumerate(self.arities):
            if atom < self.n ** a:
                return p
            atom -= self.n ** a

    def names(self):
        for i, (parameters, _, _) in enumerate(self.operators):
            for objects in itertools.product(*(self.members(ty) for ty in parameters)):
                if len(set(objects)) == len(objects):
                    yield i, list(objects)

    def parts(self, sheet, effect):
        """Condition, sheet and literals of each part of an effect, in order."""
        if effect[0] == "change":
            return [(TRUE, sheet, [(effect[1], self.atom(sheet, effect[2], effect[3]))])]
        if effect[0] == "and":
            return [p for e in effect[1] for p in self.parts(sheet, e)]
        if effect[0] == "forall":
            return [p for o in self.members(effect[1]) for p in self.parts(sheet + [o], effect[2])]
        literals = [l for _, _, ls in self.parts(sheet, effect[2]) for l in ls]
        return [(effect[1], sheet, literals)]


def changes(effect):
    """Every change in an effect, also under WHEN."""
    if effect[0] == "change":
        return [(effect[1], effect[2])]
    if effect[0] == "and":
        return [c for e in effect[1] for c in changes(e)]
    return changes(effect[2])


def combine(junction, parts):
    decides, drops = (FALSE, TRUE) if junction == "And" else (TRUE, FALSE)
    if decides in parts:
        return decides
    left = [p for p in parts if p != drops]
    return drops if not left else left[0] if len(left) == 1 else (junction, left)


def opposite(g):
    return FALSE if g == TRUE else TRUE if g == FALSE else ("Not", [g])


def simplify(task, verdict, sheet, f):
    kind = f[0]
    if kind == "Atom":
        return verdict(task.atom(sheet, f[1], f[2]))
    if kind == "Equal":
        a, b = (x if k == "Object" else sheet[x] for k, x in f[1])
        return TRUE if a == b else FALSE
    if kind == "Not":
        return opposite(simplify(task, verdict, sheet, f[1][0]))
    if kind in ("And", "Or"):
        return combine(kind, [simplify(task, verdict, sheet, g) for g in f[1]])
    if kind == "Imply":
        first, second = (simplify(task, verdict, sheet, g) for g in f[1])
        return combine("Or", [opposite(first), second])
    if kind in ("Forall", "Exists"):
        parts = [simplify(task, verdict, sheet + [o], f[2]) for o in task.members(f[1])]
        return combine("And" if kind == "Forall" else "Or", parts)
    return f


def book(task):
    """Sizes and entries of the book of a task."""
    touched = {c for _, _, e in task.operators for c in changes(e)}

    def judge(atom, can_change, fact):
        is_fact = atom in task.facts
        return fact(atom) if can_change(not is_fact, atom) else TRUE if is_fact else FALSE

    def one(atom):
        return judge(atom, lambda adds, k: (adds, task.predicate(k)) in touched, lambda k: ("Fact", k))

    reached = set()
    for i, objects in task.names():
        _, precondition, effect = task.operators[i]
        if simplify(task, one, objects, precondition) != FALSE:
            for condition, sheet, literals in task.parts(objects, effect):
                if simplify(task, one, sheet, condition) != FALSE:
                    reached.update(literals)

    def can_change_two(adds, atom):
        return (adds, atom) in reached

    relevant = [k for k in range(task.atoms) if can_change_two(k not in task.facts, k)]
    always = [k for k in range(task.atoms) if k in task.facts and k not in relevant]
    place = {k: j for j, k in enumerate(relevant)}

    def two(atom):
        return judge(atom, can_change_two, lambda k: ("Fact", place[k]))

    out = [("StartsTrue" if k in task.facts else "StartsFalse", k) for k in relevant] + [("Always", k) for k in always]

    def write(g):
        if g[0] == "Fact":
            out.append(g)
        elif g[0] in ("And", "Or", "Not"):
            out.append((g[0], 0 if g[0] == "Not" else len(g[1])))
            for part in g[1]:
                write(part)
        else:
            out.append((g[0], 0))

    def write_literals(literals):
        for adds, k in literals:
            if not adds:
                out.append(("Not", 0))
            out.append(("Fact", place[k]))

    write(simplify(task, two, [], task.goal))
    actions = 0
    for i, objects in task.names():
        _, precondition, effect = task.operators[i]
        g = simplify(task, two, objects, precondition)
        if g == FALSE:
            continue
        actions += 1
        out.append(("Action", i))
        out.extend(("Object", o) for o in objects)
        write(g)
        clauses = []
        for condition, sheet, literals in task.parts(objects, effect):
            c = simplify(task, two, sheet, condition)
            kept = [l for l in literals if l[1] in place]
            if c == TRUE:
                clauses.extend((None, [l]) for l in kept)
            elif c != FALSE and kept:
                clauses.append((c, kept))
        out.append(("And", len(clauses)))
        for c, literals in clauses:
            if c is not None:
                out.append(("When", 0))
                write(c)
                out.append(("And", len(literals)))
            write_literals(literals)
    return [task.atoms, len(relevant), len(always), actions, len(out)], out


def scenario(path):
    """Sizes and entries of the first table in a Rattle source."""
    text = open(path).read()
    constants = {n: int(v, 0) for n, v in re.findall(r"const (\w+): u32 = (\w+);", text)}
    table = text[text.index("const TABLE"):]
    table = table[:table.index("];")]
    entries = [(k, constants[x] if x in constants else int(x, 0)) for k, x in re.findall(r"\(Kind::(\w+), (\w+)\)", table)]
    sizes = text[text.index("const SIZES"):]
    sizes = [int(x) for x in re.findall(r"\w+: (\d+),", sizes)[:6]]
    return sizes, entries


if __name__ == "__main__":
    sizes, entries = book(Task(*scenario(sys.argv[1])))
    print(sizes)
    for kind, operand in entries:
        print(f"    (Kind::{kind}, {operand}),")
