#!/usr/bin/env python3
"""Runs `simplify` with many workers by the program of crates/copro_journal, which prints its journal, and folds the journal plainly.

    journals.py PROGRAM [COUNT [SEED]]
    journals.py rows

COUNT formulas (24 where it isn't given) of each kind and size of workers.py are simplified with each number of workers, and with one. What is
checked goes by the definitions and holds in every interleaving:

- each post is legal where it stands: its clauses are there under their numbers, its technique is chosen and fits, its new clauses
  have the next numbers, and the budget isn't spent;
- the posts of the workers come first, each with a worker and a round that were, and each shift lists just the positions of its
  worker's posts in its round; its rounds rise;
- each post of a worker is the first entry of the search, where it stands, at a variable that the shift took, in the order in which it
  took them; and one worker posts just what visits of all variables in turn give, round by round;
- in each round each variable was taken once, or at most once where a shift stopped, and no round followed one in which a shift stopped;
- the posts of the sweep are those of its definition, up to where nothing applies or the run stops, and the stop is the right one;
- the formula, the pairs and the log of the fold are the texts that were written.

A run that fails prints its command, its formula and what was expected, and its folder is kept. At the end stands what the journals
had, since a run in which one worker did all shows little. `rows` checks the checker: it takes stated journals, and refuses those that
a change makes of them, each for what the change makes wrong.
"""
import collections
import itertools
import os
import random
import shutil
import sys

import cases
import check
import workers

EMPTY = frozenset()
NUMBER_LIMIT = 2**40

# The clauses that each entry names, in the order in which they are told.
ROLES = {"t": ("gone",), "s": ("by", "gone"), "x": ("by", "on", "new"), "b": ("gone",), "e": ("pos", "neg", "new")}
LISTS = {"taken": 1, "commits": 1, "busy": 3, "late": 2, "wide": 2}

Named = collections.namedtuple("Named", "number clause")
# What it is at, a literal or a variable, if it says so, and for each role of its clauses a list.
Entry = collections.namedtuple("Entry", "kind at lists")
Post = collections.namedtuple("Post", "worker round entry")
Shift = collections.namedtuple("Shift", "worker round stopped taken commits busy late wide")
Rules = collections.namedtuple("Rules", "letters bound budget")
# The number of variables, and what the words of a run ask for.
Asked = collections.namedtuple("Asked", "variables workers rounds hood form", defaults=("text",))


class Fault(Exception):
    """What isn't as it should be."""


def wants(holds, *what):
    if not holds:
        raise Fault(what[0] % what[1:])


# Reading what the program tells.


def entry_of(kind, words):
    at = int(next(words)) if kind in "xbe" else None
    lists = {role: [] for role in ROLES[kind]}
    for role in words:
        number = int(next(words))
        lists[role].append(Named(number, frozenset(map(int, iter(words.__next__, "0")))))
    wants(kind == "e" or all(len(named) == 1 for named in lists.values()), "one clause for each role of an entry %s", kind)
    return Entry(kind, at, tuple(map(tuple, lists.values())))


def post_of(words):
    words = iter(words)
    worker, round_, kind = int(next(words)), int(next(words)), next(words)
    return Post(worker, round_, entry_of(kind, words))


def shift_of(words):
    """Each word of LISTS begins such an item or such a list of numbers."""
    worker, round_, stopped = int(words[0]), int(words[1]), words[2]
    lists, name = {name: [] for name in LISTS}, None
    for word in words[3:]:
        if word in LISTS:
            name = word
            lists[name].append([])
        else:
            lists[name][-1].append(int(word))
    wants(all(len(lists[name]) == 1 for name in ("taken", "commits")), "one list of what a shift took and one of its commits")
    wants(all(len(item) == LISTS[name] for name in ("busy", "late", "wide") for item in lists[name]), "items of a shift's lists")
    return Shift(worker, round_, stopped, lists["taken"][0], lists["commits"][0], lists["busy"], lists["late"], lists["wide"])


def journal_of(text):
    """The posts, the shifts and the stop."""
    lines = [line.split(" ") for line in text.decode("ascii").splitlines()]
    posts = [post_of(words[1:]) for words in lines if words[0] == "post"]
    shifts = [shift_of(words[1:]) for words in lines if words[0] == "shift"]
    order = ["post"] * len(posts) + ["shift"] * len(shifts) + ["stopped"]
    wants([words[0] for words in lines] == order and len(lines[-1]) == 2, "posts, then shifts, then the stop")
    return posts, shifts, lines[-1][1]


# The fold, and which entries are legal in it.


class Fold:
    """The clauses by their numbers, the pairs, and the log, to which posts lead from the clauses of a formula."""

    def __init__(self, variables, clauses):
        self.variables = variables
        self.clauses = {}
        self.having = collections.defaultdict(set)
        self.tautologies = set()
        self.next = 1
        self.pairs, self.log = [], []
        self.posts = 0
        self.is_refuted = False
        # Variables at which nothing applied when they were searched last, and whose clauses stand as they stood then.
        self.quiet = set()
        for clause in clauses:
            self.place(Named(self.next, clause))

    def place(self, named):
        self.clauses[named.number] = named.clause
        self.next = named.number + 1
        self.is_refuted = self.is_refuted or named.clause == EMPTY
        self.touch(named, set.add)

    def take(self, named):
        del self.clauses[named.number]
        self.touch(named, set.discard)

    def touch(self, named, change):
        if cases.is_tautology(named.clause):
            change(self.tautologies, named.number)
        for literal in named.clause:
            change(self.having[literal], named.number)
            self.quiet.discard(abs(literal))

    def stands(self, named):
        return self.clauses.get(named.number) == named.clause

    def clauses_with(self, *literals):
        """Those that have one of the literals, by ascending number."""
        return tuple(Named(n, self.clauses[n]) for n in sorted(set().union(*(self.having[literal] for literal in literals))))

    def clauses_with_all(self, literals):
        """Those that have each of the literals, by ascending number."""
        numbers = set.intersection(*sorted((self.having[literal] for literal in literals), key=len))
        return tuple(Named(n, self.clauses[n]) for n in sorted(numbers))

    def has_tautology_at(self, variable):
        return any(variable in self.clauses[n] or -variable in self.clauses[n] for n in self.tautologies)

    def is_blocked(self, named, literal):
        others = (self.clauses[n] for n in self.having[-literal])
        return all(cases.is_tautology(cases.resolvent(named.clause, other, literal)) for other in others)

    def apply(self, entry):
        self.posts += 1
        for rule, named, literal in rules_of(entry):
            if (False, EMPTY) not in self.log[-1:]:
                self.log.append((rule != "add", named.clause))
            if rule == "add":
                self.place(named)
                continue
            self.take(named)
            if rule == "weaken":
                self.pairs.append((literal, named.clause))


def rules_of(entry):
    """The rules that an entry stands for, in their order: a clause is added, dropped, or weakened on a literal."""
    named = dict(zip(ROLES[entry.kind], entry.lists))
    if entry.kind in "ts":
        return [("drop", *named["gone"], None)]
    if entry.kind == "x":
        return [("add", *named["new"], None), ("drop", *named["on"], None)]
    if entry.kind == "b":
        return [("weaken", *named["gone"], entry.at)]
    weakened = [(c, entry.at) for c in named["pos"]] + [(c, -entry.at) for c in named["neg"]]
    return [("add", c, None) for c in named["new"]] + [("weaken", c, literal) for c, literal in weakened]


def resolvents(variable, positive, negative):
    """Those that are no tautologies, by the first clause and then the second."""
    new = (cases.resolvent(c.clause, d.clause, variable) for c in positive for d in negative)
    return (clause for clause in new if not cases.is_tautology(clause))


def want_tautology(fold, entry, bound):
    ((gone,),) = entry.lists
    wants(cases.is_tautology(gone.clause), "that clause %d is a tautology", gone.number)


def want_subsumption(fold, entry, bound):
    (by,), (gone,) = entry.lists
    wants(by.number != gone.number, "that clause %d isn't removed by itself", by.number)
    wants(by.clause <= gone.clause, "that clause %d is within %d", by.number, gone.number)


def want_strengthening(fold, entry, bound):
    (by,), (on,), (new,) = entry.lists
    wants(by.number != on.number, "that clause %d isn't strengthened by itself", by.number)
    wants(entry.at in on.clause, "the literal %d in clause %d", entry.at, on.number)
    wants(-entry.at in by.clause, "the literal %d in clause %d", -entry.at, by.number)
    wants(by.clause - {-entry.at} <= on.clause - {entry.at}, "that clause %d strengthens %d on %d", by.number, on.number, entry.at)
    wants(new.clause == on.clause - {entry.at}, "clause %d without %d as the new one", on.number, entry.at)


def want_blocked(fold, entry, bound):
    ((gone,),) = entry.lists
    wants(entry.at in gone.clause, "the literal %d in clause %d", entry.at, gone.number)
    wants(not fold.has_tautology_at(abs(entry.at)), "no tautology with the variable %d", abs(entry.at))
    wants(fold.is_blocked(gone, entry.at), "that clause %d is blocked on %d", gone.number, entry.at)


def want_elimination(fold, entry, bound):
    positive, negative, new = entry.lists
    wants(positive == fold.clauses_with(entry.at), "all clauses with %d", entry.at)
    wants(negative == fold.clauses_with(-entry.at), "all clauses with %d", -entry.at)
    wants(positive or negative, "a clause with the variable %d", entry.at)
    wants(not fold.has_tautology_at(entry.at), "no tautology with the variable %d", entry.at)
    wants([c.clause for c in new] == list(resolvents(entry.at, positive, negative)), "all resolvents on %d in their order", entry.at)
    wants(len(new) <= len(positive) + len(negative) + bound, "resolvents on %d within the bound", entry.at)


TECHNIQUES = {"t": want_tautology, "s": want_subsumption, "x": want_strengthening, "b": want_blocked, "e": want_elimination}


def want_legal(fold, rules, entry):
    named = dict(zip(ROLES[entry.kind], entry.lists))
    new = [c.number for c in named.pop("new", ())]
    for c in itertools.chain(*named.values()):
        wants(fold.stands(c), "that clause %d stands as it is told", c.number)
    wants(not fold.is_refuted, "no entry behind the empty clause")
    wants(entry.kind in rules.letters, "that the technique %s is chosen", entry.kind)
    TECHNIQUES[entry.kind](fold, entry, rules.bound)
    wants(new == list(range(fold.next, fold.next + len(new))), "new clauses numbered from %d on", fold.next)
    wants(fold.next + len(new) <= NUMBER_LIMIT, "numbers below the limit")
    wants(not is_spent(fold, rules), "that the budget isn't spent")


def is_spent(fold, rules):
    return rules.budget != 0 and fold.posts == rules.budget


def variables_at(entry):
    """Those that the entry is at."""
    if entry.kind in "ts":
        ((first, *_), *_) = entry.lists
        return sorted({abs(literal) for literal in first.clause})
    return [abs(entry.at)]


# The sweep: the first entry at the first variable that has one, going upwards and around from that of the last entry.


def candidates(fold, variable, letters, bound):
    """The entries at the variable, in the order of the search, and among them all that are legal."""
    near = fold.clauses_with(variable, -variable)
    if "t" in letters:
        yield from (Entry("t", None, ((c,),)) for c in near if c.number in fold.tautologies)
    if "s" in letters:
        yield from (Entry("s", None, ((by,), (c,))) for by in near for c in fold.clauses_with_all(by.clause) if c != by)
    if "x" in letters:
        for by in near:
            for literal in (variable, -variable):
                if -literal in by.clause and literal not in by.clause:
                    others = fold.clauses_with_all(by.clause - {-literal} | {literal})
                    yield from (strengthening(fold, by, on, literal) for on in others)
    if "b" in letters:
        yield from (Entry("b", literal, ((c,),)) for c in near for literal in (variable, -variable) if literal in c.clause)
    if "e" in letters:
        positive, negative = fold.clauses_with(variable), fold.clauses_with(-variable)
        most = len(near) + bound
        new = list(itertools.islice(resolvents(variable, positive, negative), most + 1))
        if len(new) <= most:
            yield Entry("e", variable, (positive, negative, tuple(Named(*c) for c in enumerate(new, fold.next))))


def strengthening(fold, by, on, literal):
    return Entry("x", literal, ((by,), (on,), (Named(fold.next, on.clause - {literal}),)))


def is_legal(fold, rules, entry):
    try:
        want_legal(fold, rules, entry)
    except Fault:
        return False
    return True


def first_at(fold, rules, variable):
    """The first legal entry at the variable, or None."""
    return next((e for e in candidates(fold, variable, rules.letters, rules.bound) if is_legal(fold, rules, e)), None)


def next_of_sweep(fold, rules, mark):
    """The variable and the entry, or two times None. The formula isn't refuted, and the budget isn't spent."""
    for variable in list(range(mark, fold.variables + 1)) + list(range(1, mark)):
        if variable not in fold.quiet:
            found = first_at(fold, rules, variable)
            if found is not None:
                return variable, found
            fold.quiet.add(variable)
    return None, None


def stop_after(fold, rules, mark):
    if fold.is_refuted:
        return "refuted"
    if is_spent(fold, rules):
        return "spent"
    _, entry = next_of_sweep(fold, rules, mark)
    wants(entry is None, "that the sweep goes on with an entry %s", entry and entry.kind)
    return "none"


def folded(fold, rules, posts, stopped):
    """Checks each post where it stands, those of the sweep by its definition, and the stop. For each post of a worker the variables at which
    it is what the search gives first."""
    mark = 1
    searched = []
    for at, post in enumerate(posts):
        try:
            want_legal(fold, rules, post.entry)
            if post.worker == 0:
                mark, entry = next_of_sweep(fold, rules, mark)
                wants(entry == post.entry, "the sweep's %s", entry and entry.kind)
            else:
                searched.append({x for x in variables_at(post.entry) if first_at(fold, rules, x) == post.entry})
        except Fault as fault:
            raise Fault("%s, at post %d" % (fault, at)) from None
        fold.apply(post.entry)
    stop = stop_after(fold, rules, mark)
    wants(stopped == stop, "the stop %s", stop)
    return searched


# The workers.


def want_workers_first(asked, posts, begun):
    own = [at for at, post in enumerate(posts) if post.worker == 0]
    wants(own == list(range(len(posts) - len(own), len(posts))), "the posts of the sweep behind those of the workers")
    for at, post in enumerate(posts):
        if post.worker == 0:
            wants(post.round == 0, "the round 0 of the sweep at post %d", at)
        else:
            wants(1 <= post.worker <= asked.workers and 1 <= post.round <= begun, "a worker and a round that were at post %d", at)


def neighbourhood(fold, variable):
    return {variable}.union(*({abs(literal) for literal in c.clause} for c in fold.clauses_with(variable, -variable)))


def posts_alone(fold, asked, rules, begun):
    """What one worker posts in so many rounds: at each variable in turn, where its neighbourhood is within the limit, the first entry of
    the search until there is none."""
    for number in range(1, begun + 1):
        for variable in range(1, asked.variables + 1):
            is_wide = len(neighbourhood(fold, variable)) > asked.hood
            while not is_wide and (entry := first_at(fold, rules, variable)) is not None:
                yield Post(1, number, entry)
                fold.apply(entry)


def want_alone(clauses, asked, rules, posts, shifts):
    """The run of one worker is that of the plain order."""
    expected = posts_alone(Fold(asked.variables, clauses), asked, rules, len(shifts))
    for at, (post, other) in enumerate(itertools.zip_longest((p for p in posts if p.worker != 0), expected)):
        wants(post == other, "the %s of the one worker at post %d", other and other.entry.kind, at)


def want_shifts(asked, posts, shifts, stopped, searched):
    """The shifts stand by round and then worker. Each post of a worker is what the search gives at one of the variables searched."""
    wants(len(shifts) % asked.workers == 0, "a shift of each worker in each round")
    begun = len(shifts) // asked.workers
    wants(begun <= asked.rounds, "at most %d rounds", asked.rounds)
    want_workers_first(asked, posts, begun)
    who = [(shift.round, shift.worker) for shift in shifts]
    wants(who == [(r + 1, w + 1) for r in range(begun) for w in range(asked.workers)], "the shifts by round and then worker")
    rounds = [shifts[r * asked.workers : (r + 1) * asked.workers] for r in range(begun)]
    for number, team in enumerate(rounds, 1):
        have_stopped = any(shift.stopped != "none" for shift in team)
        wants(have_stopped or begun == asked.rounds or number < begun, "%d rounds, as no shift stopped", asked.rounds)
        wants(not have_stopped or number == begun, "no round behind one in which a shift stopped")
        want_taken(asked, sorted(x for shift in team for x in shift.taken), have_stopped)
    for shift in shifts:
        want_shift(asked, posts, shift, searched)
        wants(shift.stopped in ("none", stopped), "the stop of the run, %s, of each shift that stopped", stopped)
    for worker in range(asked.workers):
        commits = [position for shift in shifts[worker :: asked.workers] for position in shift.commits]
        wants(commits == sorted(commits), "rising rounds of worker %d", worker + 1)


def want_taken(asked, taken, have_stopped):
    wants(len(set(taken)) == len(taken) and set(taken) <= set(range(1, asked.variables + 1)), "each variable taken once in a round")
    wants(have_stopped or len(taken) == asked.variables, "each variable taken in a round")


def want_shift(asked, posts, shift, searched):
    who = "worker %d in round %d" % (shift.worker, shift.round)
    own = [at for at, post in enumerate(posts) if (post.worker, post.round) == (shift.worker, shift.round)]
    wants(shift.commits == own, "the commits %r of %s", own, who)
    left = [item[0] for item in shift.busy + shift.late + shift.wide]
    wants(len(set(left)) == len(left) and set(left) <= set(shift.taken), "candidates, each left once, of %s", who)
    for cause in (shift.busy, shift.late, shift.wide):
        at = [item[0] for item in cause]
        wants(at == [x for x in shift.taken if x in at], "candidates left in the order in which %s took them", who)
    met = [item[-1] for item in shift.busy + shift.late]
    wants(all(1 <= by <= asked.workers and by != shift.worker for by in met), "another worker that was met by %s", who)
    wants(all(1 <= var <= asked.variables for _, var, _ in shift.busy), "a variable whose lock was met by %s", who)
    wants(all(asked.hood < count <= asked.variables for _, count in shift.wide), "a neighbourhood too wide for %s", who)
    without_posts = {item[0] for item in shift.busy + shift.wide}
    visited = iter([x for x in shift.taken if x not in without_posts])
    x = next(visited, None)
    for position in shift.commits:
        while x is not None and x not in searched[position]:
            x = next(visited, None)
        wants(x is not None, "post %d as the search gives it at a variable that %s took, in their order", position, who)


# The texts.


def ordered(clause):
    return sorted(clause, key=lambda literal: (abs(literal), literal < 0))


def line_of(literals):
    return "".join("%d " % literal for literal in literals) + "0\n"


def stack_of(fold):
    lines = [line_of([literal] + ordered(clause - {literal})) for literal, clause in fold.pairs]
    return ("p stack 1 %d %d\n" % (fold.variables, len(lines)) + "".join(lines)).encode()


def reduced_of(fold):
    clauses = [EMPTY] if fold.is_refuted else [clause for _, clause in sorted(fold.clauses.items())]
    return cases.text_of(fold.variables, clauses)


def proof_of(fold):
    return "".join(("d " if deletes else "") + line_of(ordered(clause)) for deletes, clause in fold.log).encode()


def want_texts(fold, form, texts):
    """The texts of the formula, the stack and the proof in its form; and the status."""
    status = 20 if fold.is_refuted else 0 if fold.clauses else 10
    wants(texts["status"] == status, "the status %d of the fold", status)
    wants(texts["reduced"] == reduced_of(fold), "the reduced formula of the fold")
    wants(texts["stack"] == stack_of(fold), "the pairs of the fold")
    if form == "text":
        wants(texts["proof"] == proof_of(fold), "the log of the fold")
    else:
        items = [(deletes, ordered(clause)) for deletes, clause in fold.log]
        wants(check.binary_proof_of(texts["proof"]) == items, "the log of the fold")


def fault_of(clauses, asked, rules, told, texts):
    """What is wrong with what a run on the clauses told and wrote, or nothing."""
    try:
        posts, shifts, stopped = journal_of(told)
        fold = Fold(asked.variables, clauses)
        searched = folded(fold, rules, posts, stopped)
        want_shifts(asked, posts, shifts, stopped, searched)
        if asked.workers == 1:
            want_alone(clauses, asked, rules, posts, shifts)
        want_texts(fold, asked.form, texts)
    except Fault as fault:
        return str(fault)
    except (ValueError, KeyError, IndexError, StopIteration) as error:
        return "lines of a journal: %r" % error
    return ""


# Stated runs of two workers in two rounds, worked by hand: what they are given, their journals and their texts.
Stated = collections.namedtuple("Stated", "cnf asked rules told texts")

WHOLE = Stated(
    b"p cnf 6 6\n1 -1 2 0\n3 4 0\n3 4 5 0\n-3 4 6 0\n5 6 0\n-5 2 0\n",
    Asked(variables=6, workers=2, rounds=2, hood=4),
    Rules(letters="tsxbe", bound=0, budget=0),
    """\
post 1 1 t gone 1 1 -1 2 0
post 2 1 s by 2 3 4 0 gone 3 3 4 5 0
post 2 1 x -3 by 2 3 4 0 on 4 -3 4 6 0 new 7 4 6 0
post 1 2 e 5 pos 5 5 6 0 neg 6 2 -5 0 new 8 2 6 0
post 2 2 b 3 gone 2 3 4 0
post 0 0 b 2 gone 8 2 6 0
post 0 0 b 4 gone 7 4 6 0
shift 1 1 none taken 1 2 5 commits 0 busy 5 6 2
shift 2 1 none taken 3 4 6 commits 1 2 late 6 1
shift 1 2 none taken 4 5 1 commits 3
shift 2 2 none taken 2 3 6 commits 4 wide 6 5
stopped none
""",
    {
        "status": 10,
        "reduced": b"p cnf 6 0\n",
        "stack": b"p stack 1 6 5\n5 6 0\n-5 2 0\n3 4 0\n2 6 0\n4 6 0\n",
        "proof": b"d 1 -1 2 0\nd 3 4 5 0\n4 6 0\nd -3 4 6 0\n2 6 0\nd 5 6 0\nd 2 -5 0\nd 3 4 0\nd 2 6 0\nd 4 6 0\n",
    },
)

REFUTED = Stated(
    b"p cnf 1 2\n1 0\n-1 0\n",
    Asked(variables=1, workers=2, rounds=2, hood=4),
    Rules(letters="x", bound=0, budget=0),
    """\
post 2 1 x -1 by 1 1 0 on 2 -1 0 new 3 0
shift 1 1 none taken commits
shift 2 1 none taken 1 commits 0
shift 1 2 none taken 1 commits
shift 2 2 none taken commits
stopped refuted
""",
    {"status": 20, "reduced": b"p cnf 1 1\n0\n", "stack": b"p stack 1 1 0\n", "proof": b"0\n"},
)

# One worker, which posts the subsumption by the lesser number, and then at the second variable.
ALONE = Stated(
    b"p cnf 2 3\n1 2 0\n1 2 0\n2 -2 0\n",
    Asked(variables=2, workers=1, rounds=1, hood=4),
    Rules(letters="ts", bound=0, budget=0),
    """\
post 1 1 s by 1 1 2 0 gone 2 1 2 0
post 1 1 t gone 3 2 -2 0
shift 1 1 none taken 1 2 commits 0 1
stopped none
""",
    {"status": 0, "reduced": b"p cnf 2 1\n1 2 0\n", "stack": b"p stack 1 2 0\n", "proof": b"d 1 2 0\nd 2 -2 0\n"},
)

# What is changed in the journal that is whole, each time a piece of it and what stands there then, and what is wrong with it.
CHANGES = [
    # An entry that isn't legal where it stands.
    ([("t gone 1 1 -1 2", "t gone 2 3 4")], "that clause 2 is a tautology, at post 0"),
    ([("t gone 1 1 -1 2", "t gone 1 1 2")], "that clause 1 stands as it is told, at post 0"),
    ([("t gone 1 1 -1 2", "t gone 9 1 -1 2")], "that clause 9 stands as it is told, at post 0"),
    ([("s by 2 3 4 0", "s by 5 5 6 0")], "that clause 5 is within 3, at post 1"),
    ([("s by 2 3 4 0", "s by 3 3 4 5 0")], "that clause 3 isn't removed by itself, at post 1"),
    ([("x -3 by 2 3 4", "x -3 by 5 5 6")], "the literal 3 in clause 5, at post 2"),
    ([("x -3", "x 3")], "the literal 3 in clause 4, at post 2"),
    ([("x -3 by 2 3 4 0 on 4 -3 4 6 0 new 7 4 6", "x 5 by 6 -5 2 0 on 5 5 6 0 new 7 6")],
     "that clause 6 strengthens 5 on 5, at post 2"),
    ([("new 7 4 6", "new 7 4")], "clause 4 without -3 as the new one, at post 2"),
    ([("new 7 4 6", "new 9 4 6")], "new clauses numbered from 7 on, at post 2"),
    ([("new 8 2 6", "new 7 2 6")], "new clauses numbered from 8 on, at post 3"),
    ([("new 8 2 6", "new 8 2 4 6")], "all resolvents on 5 in their order, at post 3"),
    ([(" new 8 2 6 0", "")], "all resolvents on 5 in their order, at post 3"),
    ([(" neg 6 2 -5 0", "")], "all clauses with -5, at post 3"),
    ([("e 5 pos 5 5 6 0 neg 6 2 -5 0 new 8 2 6 0", "e 1")], "a clause with the variable 1, at post 3"),
    ([("b 3 gone 2 3 4", "b 6 gone 2 3 4")], "the literal 6 in clause 2, at post 4"),
    ([("e 5 pos 5 5 6 0 neg 6 2 -5 0 new 8 2 6 0", "b 5 gone 5 5 6 0")], "that clause 5 is blocked on 5, at post 3"),
    ([("t gone 1 1 -1 2", "b 2 gone 6 -5 2")], "no tautology with the variable 2, at post 0"),
    # A post that is dropped, told twice, or told elsewhere.
    ([("post 2 1 x -3 by 2 3 4 0 on 4 -3 4 6 0 new 7 4 6 0\n", "")], "new clauses numbered from 7 on, at post 2"),
    ([("post 2 1 s by 2 3 4 0 gone 3 3 4 5 0\n", "")], "all clauses with 5, at post 2"),
    ([("post 2 1 s by 2 3 4 0 gone 3 3 4 5 0\n", 2 * "post 2 1 s by 2 3 4 0 gone 3 3 4 5 0\n")],
     "that clause 3 stands as it is told, at post 2"),
    ([("post 2 2 b 3 gone 2 3 4 0\n", "")], "the sweep's b, at post 5"),
    ([("post 0 0 b 4 gone 7 4 6 0\n", "")], "that the sweep goes on with an entry b"),
    ([("t gone 1 1 -1 2", "s by 2 3 4 0 gone 3 3 4 5"), ("post 2 1 s by 2 3 4 0 gone 3 3 4 5", "post 2 1 t gone 1 1 -1 2")],
     "post 0 as the search gives it at a variable that worker 1 in round 1 took, in their order"),
    # Two posts in the other order, of which the search gives the later one first.
    ([("s by 2 3 4 0 gone 3 3 4 5 0\npost 2 1 x -3 by 2 3 4 0 on 4 -3 4 6 0 new 7 4 6 0",
       "x -3 by 2 3 4 0 on 4 -3 4 6 0 new 7 4 6 0\npost 2 1 s by 2 3 4 0 gone 3 3 4 5 0")],
     "post 1 as the search gives it at a variable that worker 2 in round 1 took, in their order"),
    ([("post 1 1 t gone 1 1 -1 2 0\npost 2 1 s by 2 3 4 0 gone 3 3 4 5 0",
       "post 2 1 s by 2 3 4 0 gone 3 3 4 5 0\npost 1 1 t gone 1 1 -1 2 0")], "the commits [1] of worker 1 in round 1"),
    # The sweep.
    ([("b 2 gone 8", "b 6 gone 8")], "the sweep's b, at post 5"),
    ([("post 0 0 b 2 gone 8 2 6 0\npost 0 0 b 4 gone 7 4 6 0", "post 0 0 b 4 gone 7 4 6 0\npost 0 0 b 2 gone 8 2 6 0")],
     "the sweep's b, at post 5"),
    ([("post 0 0 b 4", "post 0 1 b 4")], "the round 0 of the sweep at post 6"),
    ([("post 0 0 b 4", "post 1 2 b 4"), ("commits 3", "commits 3 6")], "the posts of the sweep behind those of the workers"),
    ([("stopped none", "stopped spent")], "the stop none"),
    # Who posted, and when.
    ([("post 1 1", "post 3 1")], "a worker and a round that were at post 0"),
    ([("post 1 1", "post 1 3")], "a worker and a round that were at post 0"),
    ([("post 1 1", "post 1 0")], "a worker and a round that were at post 0"),
    ([("post 1 1", "post 2 1")], "the commits [] of worker 1 in round 1"),
    ([("post 1 1", "post 1 2")], "the commits [] of worker 1 in round 1"),
    ([("commits 0 busy", "commits busy"), ("commits 1 2", "commits 0 1 2")], "the commits [0] of worker 1 in round 1"),
    ([("commits 1 2", "commits 2 1")], "the commits [1, 2] of worker 2 in round 1"),
    ([("commits 1 2", "commits 1")], "the commits [1, 2] of worker 2 in round 1"),
    ([("commits 1 2", "commits 1 1 2")], "the commits [1, 2] of worker 2 in round 1"),
    ([("post 1 1", "post 1 2"), ("post 1 2 e", "post 1 1 e"), ("taken 1 2 5 commits 0 busy 5 6 2", "taken 1 2 5 commits 3"),
      ("commits 3\nshift 2 2", "commits 0\nshift 2 2")], "rising rounds of worker 1"),
    # What the shifts took.
    ([("taken 1 2 5", "taken 1 2 6")], "each variable taken once in a round"),
    ([("taken 4 5 1", "taken 4 5 3")], "each variable taken once in a round"),
    ([("taken 1 2 5", "taken 1 2 5 7")], "each variable taken once in a round"),
    ([("taken 3 4 6", "taken 3 4"), (" late 6 1", "")], "each variable taken in a round"),
    ([("taken 1 2 5", "taken 5"), ("taken 3 4 6", "taken 3 4 6 1 2")],
     "post 0 as the search gives it at a variable that worker 1 in round 1 took, in their order"),
    ([("commits 3\nshift 2 2", "commits 3 busy 5 3 2\nshift 2 2")],
     "post 3 as the search gives it at a variable that worker 1 in round 2 took, in their order"),
    ([("busy 5 6 2", "busy 4 6 2")], "candidates, each left once, of worker 1 in round 1"),
    ([("busy 5 6 2", "busy 5 6 2 late 5 2")], "candidates, each left once, of worker 1 in round 1"),
    ([("busy 5 6 2", "busy 5 6 2 busy 2 6 2")], "candidates left in the order in which worker 1 in round 1 took them"),
    ([("busy 5 6 2", "busy 5 6 1")], "another worker that was met by worker 1 in round 1"),
    ([("busy 5 6 2", "busy 5 7 2")], "a variable whose lock was met by worker 1 in round 1"),
    ([("late 6 1", "late 6 0")], "another worker that was met by worker 2 in round 1"),
    ([("wide 6 5", "wide 6 4")], "a neighbourhood too wide for worker 2 in round 2"),
    ([("wide 6 5", "wide 6 7")], "a neighbourhood too wide for worker 2 in round 2"),
    ([("shift 1 2", "shift 2 2"), ("shift 2 2 none taken 2", "shift 1 2 none taken 2")], "the shifts by round and then worker"),
    ([("shift 1 2 none taken 4 5 1 commits 3\nshift 2 2 none taken 2 3 6 commits 4 wide 6 5\n", "")],
     "a worker and a round that were at post 3"),
    ([("shift 2 2 none taken 2 3 6 commits 4 wide 6 5\n", "")], "a shift of each worker in each round"),
    ([("shift 1 1 none", "shift 1 1 spent")], "no round behind one in which a shift stopped"),
    ([("shift 1 2 none", "shift 1 2 spent")], "the stop of the run, none, of each shift that stopped"),
    # Lines.
    ([("stopped none\n", "")], "posts, then shifts, then the stop"),
    ([("t gone 1 1 -1 2 0", "look 1")], "lines of a journal: KeyError('look')"),
    ([("s by 2 3 4 0 gone", "s gone")], "one clause for each role of an entry s"),
]

# A run with another piece in the place of its own, and what is wrong with it.
OTHERS = [
    (WHOLE, ""),
    (WHOLE._replace(rules=Rules("tsxe", 0, 0)), "that the technique b is chosen, at post 4"),
    (WHOLE._replace(rules=Rules("tsxbe", 0, 7)), "the stop spent"),
    (WHOLE._replace(rules=Rules("tsxbe", 0, 6)), "that the budget isn't spent, at post 6"),
    (WHOLE._replace(asked=Asked(6, 2, 1, 4)), "at most 1 rounds"),
    (WHOLE._replace(asked=Asked(6, 2, 3, 4)), "3 rounds, as no shift stopped"),
    (WHOLE._replace(texts={**WHOLE.texts, "status": 0}), "the status 10 of the fold"),
    (WHOLE._replace(texts={**WHOLE.texts, "reduced": b"p cnf 6 1\n4 6 0\n"}), "the reduced formula of the fold"),
    (WHOLE._replace(texts={**WHOLE.texts, "stack": b"p stack 1 6 5\n5 6 0\n-5 2 0\n3 4 0\n4 6 0\n2 6 0\n"}), "the pairs of the fold"),
    (WHOLE._replace(texts={**WHOLE.texts, "proof": b""}), "the log of the fold"),
    (ALONE, ""),
    (ALONE._replace(told=ALONE.told.replace("s by 1 1 2 0 gone 2", "s by 2 1 2 0 gone 1")),
     "post 0 as the search gives it at a variable that worker 1 in round 1 took, in their order"),
    (ALONE._replace(told=ALONE.told.replace("post 1 1 t", "post 0 0 t").replace("commits 0 1", "commits 0")),
     "the t of the one worker at post 1"),
    (REFUTED, ""),
    (REFUTED._replace(told=REFUTED.told.replace("shift 1 1", "post 2 1 x 1 by 2 -1 0 on 1 1 0 new 4 0\nshift 1 1")),
     "that clause 2 stands as it is told, at post 1"),
    (REFUTED._replace(rules=Rules("xb", 0, 0), told=REFUTED.told.replace("shift 1 1", "post 0 0 b 1 gone 1 1 0\nshift 1 1")),
     "no entry behind the empty clause, at post 1"),
    (REFUTED._replace(told=REFUTED.told.replace("stopped refuted", "stopped none")), "the stop refuted"),
    (REFUTED._replace(texts={**REFUTED.texts, "proof": b"0\nd -1 0\n"}), "the log of the fold"),
    (REFUTED._replace(asked=Asked(1, 2, 2, 4, "binary"), texts={**REFUTED.texts, "proof": b"a\0"}), ""),
    (REFUTED._replace(asked=Asked(1, 2, 2, 4, "binary"), texts={**REFUTED.texts, "proof": b"a\0d\3\0"}), "the log of the fold"),
]


def changed(told, changes):
    for old, new in changes:
        if told.count(old) != 1:
            return "%r stands %d times" % (old, told.count(old))
        told = told.replace(old, new)
    return told


def fault_of_stated(stated):
    clauses = check.clauses_of(stated.cnf)
    return fault_of(clauses, stated.asked, stated.rules, stated.told.encode(), stated.texts)


def check_rows():
    rows = [(changes, wanted, fault_of_stated(WHOLE._replace(told=changed(WHOLE.told, changes)))) for changes, wanted in CHANGES]
    rows += [(stated, wanted, fault_of_stated(stated)) for stated, wanted in OTHERS]
    failed = [row for row in rows if row[1] != row[2]]
    for row in failed:
        print("FAILED %r\n  wanted %r\n  got    %r" % row)
    print("journals: %d rows passed, %d failed" % (len(rows) - len(failed), len(failed)))
    return 1 if failed else 0


# The runs.


class Tally:
    """What the journals of all runs have."""

    def __init__(self):
        self.posts = collections.Counter()
        self.together = 0
        self.left = 0
        self.stopped = 0

    def count(self, told):
        posts, shifts, _ = journal_of(told)
        by = [post.worker for post in posts]
        self.posts.update("workers" if worker else "the sweep" for worker in by)
        self.together += len(set(by) - {0}) > 1
        self.left += sum(len(shift.busy) + len(shift.late) for shift in shifts)
        self.stopped += sum(shift.stopped != "none" for shift in shifts)

    def __str__(self):
        posts = self.posts["workers"], self.together, self.posts["the sweep"]
        text = "%d posts by workers, in %d runs by more than one, and %d by the sweep; " % posts
        return text + "%d candidates left at a lock or a turn; %d shifts that stopped" % (self.left, self.stopped)


def options(rng, count):
    """Those of workers.py, in one run of eight with a budget."""
    letters, bound, words = workers.options(rng)
    budget = rng.randint(1, 3 * count) if rng.random() < 0.125 else 0
    return Rules(letters, bound, budget), words + ["--budget", str(budget)]


def tried(rng, program, kind, size, count_of_workers, tally):
    """Whether a run on a formula of the kind is as it should be."""
    clauses, _ = workers.made(rng, kind, size)
    rules, words = options(rng, size)
    variables = max(abs(literal) for clause in clauses for literal in clause)
    rounds, hood, form = (words[words.index(name) + 1] for name in ("--rounds", "--hood", "--proof-form"))
    asked = Asked(variables, count_of_workers, int(rounds), int(hood), form)
    text = workers.cnf_text(variables, clauses)
    run = workers.Run(program, ["--workers", str(count_of_workers)] + words, text)
    texts = {**run.text, "status": run.status}
    fault = fault_of([frozenset(clause) for clause in clauses], asked, rules, run.said, texts)
    if not fault:
        tally.count(run.said)
        shutil.rmtree(run.folder)
        return True
    print("FAILED %s\n  in     %s (kept)\n  formula, a %s: %r" % (" ".join(run.command), run.folder, kind, text[:1500]))
    print("  told   %r\n  wanted %s" % (run.said[:3000], fault))
    return False


def main():
    if sys.argv[1:] == ["rows"]:
        return check_rows()
    program = os.path.abspath(sys.argv[1])
    count = int(sys.argv[2]) if len(sys.argv) > 2 else 24
    rng = random.Random(int(sys.argv[3]) if len(sys.argv) > 3 else 17)
    tally = Tally()
    results = [
        tried(rng, program, kind, size, number, tally)
        for kind in workers.KINDS for size in (workers.SMALL, workers.LARGE) for number in (1,) + workers.WORKERS for _ in range(count)
    ]
    print("journals: %d passed, %d failed" % (sum(results), len(results) - sum(results)))
    print("journals: %s" % tally)
    return 0 if all(results) and tally.posts["workers"] else 1


if __name__ == "__main__":
    sys.exit(main())
