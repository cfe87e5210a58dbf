#!/usr/bin/env python3
"""A second reading of the rules, beside the proved code: what a task and its book answer to lists of calls.

    both.py scenario | diff - crates/scenario/stdout
    both.py lists_on_both | diff - crates/lists_on_both/stdout

The tables and the calls with their words are read from the sources of the programs; what a task and a book mean is read here. The book of
the scenario is made here, and its actions are told in words that stand here; those of the lists are tables, which are compared."""
import pathlib
import re
import sys

from instantiate import Task, book

CRATES = pathlib.Path(__file__).resolve().parents[2] / "crates"
LIMIT = 65535
CALL = r'\(\s*"([^"]*)",\s*Call::(\w+)(?:\((?:Name \{\s*operator: ([^,]*),\s*objects: &\[([^\]]*)\],?\s*\}|([^)]*))\))?,?\s*\)'


class Source:
    """Tables and lists of calls, read from Rattle sources."""

    def __init__(self, *paths):
        self.path = CRATES / paths[0]
        self.text = "\n".join((CRATES / p).read_text() for p in paths)
        self.numbers = {"u32::MAX": 2 ** 32 - 1}
        for name, value in re.findall(r"const (\w+): u32 = ([^;]*);", self.text):
            self.numbers[name] = self.number(value)

    def number(self, words):
        return sum(self.numbers[w] if w in self.numbers else int(w, 0) for w in (x.strip() for x in words.split("+")))

    def body(self, name):
        return re.search(rf"const {name}: [^=]*= (.*?);\n", self.text, re.S).group(1)

    def list(self, name):
        """Words and call of each line of a list; a line is written out, or it is the name of one."""
        whole = re.sub(r"(?m)^ +([A-Z_]+),$", lambda m: self.body(m.group(1)) + ",", self.body(name))
        return [(words, (kind, self.name(operator, objects) if operator else self.number(number) if number else None))
                for words, kind, operator, objects, number in re.findall(CALL, whole)]

    def name(self, operator, objects):
        return self.number(operator), [self.number(o) for o in objects.split(",") if o.strip()]

    def table(self, name):
        return [(kind, self.number(x)) for kind, x in re.findall(r"\(Kind::(\w+), ([^)]*)\)", self.body(name))]

    def sizes(self, name):
        return [self.number(x) for x in re.findall(r"\w+: ([^,]*),", self.body(name))]


class OfTask:
    """A task: the state is the set of its true atoms."""

    def __init__(self, task):
        self.task, self.atoms, self.room, self.first, self.unfit = task, task.atoms, task.atoms, task.facts, "refused 23 run 0"

    def value(self, state, sheet, f):
        kind = f[0]
        if kind == "Atom":
            return self.task.atom(sheet, f[1], f[2]) in state
        if kind == "Equal":
            a, b = (x if k == "Object" else sheet[x] for k, x in f[1])
            return a == b
        if kind in ("Forall", "Exists"):
            values = [self.value(state, sheet + [o], f[2]) for o in self.task.members(f[1])]
            return all(values) if kind == "Forall" else any(values)
        if kind in ("True", "False"):
            return kind == "True"
        values = [self.value(state, sheet, g) for g in f[1]]
        return {"Not": lambda: not values[0], "And": lambda: all(values), "Or": lambda: any(values),
                "Imply": lambda: not values[0] or values[1]}[kind]()

    def literals(self, state, sheet, e):
        if e[0] == "change":
            return [(e[1], self.task.atom(sheet, e[2], e[3]))]
        if e[0] == "and":
            return [l for part in e[1] for l in self.literals(state, sheet, part)]
        if e[0] == "forall":
            return [l for o in self.task.members(e[1]) for l in self.literals(state, sheet + [o], e[2])]
        return self.literals(state, sheet, e[2]) if self.value(state, sheet, e[1]) else []

    def find(self, name):
        """Precondition and effect of a name that fits, each with its objects."""
        operator, objects = name
        if operator >= len(self.task.operators):
            return None
        parameters, precondition, effect = self.task.operators[operator]
        fits = (len(objects) == len(parameters) == len(set(objects))
                and all(o in self.task.members(ty) for o, ty in zip(objects, parameters)))
        return (lambda state: self.value(state, objects, precondition), lambda state: self.literals(state, objects, effect)) if fits else None

    def holds(self, state, atom):
        return atom in state

    def goal(self, state):
        return self.value(state, [], self.task.goal)


class OfBook:
    """A book, read from its sizes and entries: the state is the set of its true facts."""

    def __init__(self, sizes, entries):
        self.entries, self.at, self.unfit = entries, 0, None
        self.atoms, self.room, always, actions, _ = sizes
        starts = [self.take() for _ in range(self.room)]
        self.fact_of = {atom: j for j, (_, atom) in enumerate(starts)}
        self.first = {j for j, (kind, _) in enumerate(starts) if kind == "StartsTrue"}
        self.always = [self.take()[1] for _ in range(always)]
        self.formula_of_goal = self.formula()
        self.actions = [self.action() for _ in range(actions)]

    def take(self):
        self.at += 1
        return self.entries[self.at - 1]

    def formula(self):
        kind, x = self.take()
        return (kind, x, [self.formula() for _ in range({"Not": 1, "And": x, "Or": x}.get(kind, 0))])

    def literal(self):
        kind, x = self.take()
        return (True, x) if kind == "Fact" else (False, self.take()[1])

    def part(self):
        if self.entries[self.at][0] != "When":
            return None, [self.literal()]
        self.take()
        return self.formula(), [self.literal() for _ in range(self.take()[1])]

    def action(self):
        operator, objects = self.take()[1], []
        while self.entries[self.at][0] == "Object":
            objects.append(self.take()[1])
        return (operator, objects), self.formula(), [self.part() for _ in range(self.take()[1])]

    def value(self, state, f):
        kind, x, parts = f
        if kind == "Fact":
            return x in state
        values = [self.value(state, g) for g in parts]
        return {"True": True, "False": False, "Not": not all(values), "And": all(values), "Or": any(values)}[kind]

    def find(self, name):
        for which, precondition, parts in self.actions:
            if which == name:
                return (lambda state: self.value(state, precondition),
                        lambda state: [l for c, ls in parts if c is None or self.value(state, c) for l in ls])
        return None

    def holds(self, state, atom):
        return self.fact_of[atom] in state if atom in self.fact_of else atom in self.always

    def goal(self, state):
        return self.value(state, self.formula_of_goal)


def perform(subject, steps, state, name):
    """Answer and state."""
    found = subject.find(name)
    if not found and subject.unfit:
        return subject.unfit, state
    if not found or not found[0](state):
        return f"refused 24 run {steps}", state
    literals = found[1](state)
    return "done", (state - {k for adds, k in literals if not adds}) | {k for adds, k in literals if adds}


def answers(subject, store, image, calls):
    """The answers to a list of calls, over a store and an image of these sizes."""
    run, state, out = None, set(), []
    for kind, x in calls:
        if kind == "Begin" and store >= subject.room:
            run, state, answer = 0, set(subject.first), "done"
        elif kind != "Begin" and run is None:
            answer = "no run"
        elif kind == "End":
            run, answer = None, f"{run} steps"
        elif kind == "Perform" and run == LIMIT:
            answer = f"refused 26 run {LIMIT}"
        elif store < subject.room:
            answer = f"refused 21 run {subject.room}"
        elif kind == "Holds":
            answer = str(subject.holds(state, x)).lower() if x < subject.atoms else f"refused 25 run {x}"
        elif image < subject.room:
            answer = f"refused 22 run {subject.room}"
        elif kind == "Goal":
            answer = str(subject.goal(state)).lower()
        else:
            answer, state = perform(subject, run, state, x)
            run += answer == "done"
        out.append(answer)
    return out


def tell(words, lines, of_task, of_book, rooms, places=(64, 64)):
    """A list with both columns. A room is the size of a store and the length of an image; places are those for answers."""
    print(f"{words:<40}task | book")
    calls = [call for _, call in lines]
    columns = [answers(subject, *room, calls) for subject, room in zip((of_task, of_book), rooms)]
    if min(places) < len(lines):
        print("too few places for answers")
        columns = [["no run"] * n for n in places]
    for (text, _), in_task, in_book in zip(lines, *columns):
        print(f"{text:<40}{in_task} | {in_book}")


def both_of(source):
    task = Task(source.sizes("SIZES"), source.table("TABLE"))
    sizes, entries = source.sizes("BOOK_SIZES"), source.table("BOOK_TABLE")
    if (sizes, entries) != book(task):
        sys.exit(f"{source.path}: the book that stands there is not the book of its task")
    return OfTask(task), OfBook(sizes, entries)


def in_words(name):
    """A name of the scenario."""
    operator, objects = name
    if operator == 3:
        return "the timeout handler fires"
    objects = ["the " + ("publisher", "reader", "mutex", "heading", "track")[o] for o in objects]
    return f"{objects[0]} {('locks', 'unlocks', 'writes', '', 'copies')[operator]} {objects[-1]}"


def tell_scenario(source):
    task = Task(source.sizes("SIZES"), source.table("TABLE"))
    sizes, entries = book(task)
    of_task, of_book = OfTask(task), OfBook(sizes, entries)
    print(f"the task is loaded: {of_task.atoms} atoms")
    print("its book is written: of {} atoms {} are relevant and {} always true; {} actions, {} entries".format(*sizes))
    print(f"its book is opened: {of_book.room} relevant atoms")
    print("its actions:")
    for name, _, _ in of_book.actions:
        print("    " + in_words(name))
    print("the bad state: the display shows the new heading with the old track")
    tell("", source.list("STORY"), of_task, of_book, ((64, 64), (16, 16)))


def tell_lists(source):
    pair = both_of(source)
    for words, name in (("begins again", "BEGINS"), ("names", "NAMES"), ("numbers", "NUMBERS"), ("no run", "NO_RUN")):
        tell(words, source.list(name), *pair, ((48, 45), (9, 9)))
    for words, rooms, places in (("four places for the task's answers", ((48, 45), (9, 9)), (4, 5)),
                                 ("four places for the book's answers", ((48, 45), (9, 9)), (5, 4)),
                                 ("a small store for the task", ((40, 45), (9, 9)), (5, 5)),
                                 ("a small store for the book", ((48, 45), (8, 9)), (5, 5)),
                                 ("a short image for the task", ((48, 44), (9, 9)), (5, 5)),
                                 ("a short image for the book", ((48, 45), (9, 8)), (5, 5))):
        tell(words, source.list("SHORT"), *pair, rooms, places)
    source = Source("lists_on_both/src/subscriptions.rt")
    tell("subscriptions", source.list("SUBSCRIPTIONS"), *both_of(source), ((12, 12), (8, 2)))


if __name__ == "__main__":
    task = "middleware/src/lib.rt"
    if sys.argv[1] == "scenario":
        tell_scenario(Source(task, "middleware/src/story.rt"))
    else:
        tell_lists(Source(task, "middleware/src/ground_actions.rt", "lists_on_both/src/lists.rt"))
