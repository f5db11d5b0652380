#!/usr/bin/env python3
"""Makes the table of lists of happenings that the engine's test walks.

The guest is `trio`: process 1 makes two children, waits for both and ends with 0; each child ends with 7. Its listing
is taken instruction by instruction, and turns by the rule alone: a process owes a segment, or has run one. A segment
may run where its process lives and owes one. The head of the queue is admitted where it owes none and no verdict
stands; it pays for its segment, its call is served, and it goes to the tail, a child behind it. Of a list as many
happenings come as may. This script reads nothing of this repository.

    python3 vectors/happenings.py > crates/dt_tests_parts/src/happenings.rt

In a list a digit is the process that runs its segment, and `a` admits the head.
"""
import copy
import random

LISTING = """li a0 17; li a1 0; li a7 220; ecall; beqz a0 22; li a0 17; li a1 0; li a7 220; ecall; beqz a0 22; li a0 -1;
li a1 0; li a2 0; li a3 0; li a7 260; ecall; li a0 -1; ecall; li a0 0; li a7 93; ecall; li a0 7; li a7 93; ecall"""
CODE = [line.split() for line in LISTING.replace("\n", " ").split(";")]
CLONE, EXIT, WAIT4 = 220, 93, 260
SHOWN = ["exit 2 code 7\n", "exit 3 code 7\n", "exit 1 code 0\n"]
AMPLE = 1000

# Budgets and lists that were thought of, by what they try.
LISTS = [
    # Nothing, or at once what may not come.
    (AMPLE, "", "a", "2", "0", "9a"),
    # A segment runs once.
    (AMPLE, "1", "11", "1a11"),
    # The head's turn comes once its segment has run.
    (AMPLE, "1a", "1aa", "1a2", "1a2a", "1a12aa", "1a21aa2"),
    # A child may run ahead once it is born.
    (AMPLE, "12", "1a3", "1a1a3", "1a1a321aaa", "1a1a321aa3"),
    # Who has ended runs no more.
    (AMPLE, "1a1a2a2", "1a1a2a1a3a3"),
    # The whole run: turn by turn, and with segments ahead.
    (AMPLE, "1a1a2a1a3a1a1a", "1a12a3a1aa1a1a", "1a21a31aaa1a1a", "1a12a31aaa1a1a"),
    # Nothing comes once it is over.
    (AMPLE, "1a1a2a1a3a1a1aa", "1a1a2a1a3a1a1a1", "1a1a2a1a3a1a1", "1a1a2a1a3a1a"),
    # The budget pays for a turn, or lacks a step.
    (4, "1a"),
    (3, "1a", "1aa", "1a1"),
    (9, "1a12a31a", "1a12aa31"),
    (8, "1a1a", "1a1a2", "1a21a"),
    (13, "1a21aa1a", "1a21aa1a3"),
    (12, "1a21aa", "1a213aaa", "1a21a3a"),
    (20, "1a1a2a1a3a"),
    (24, "1a1a2a31aa1a"),
    (26, "1a1a2a31aa1a1a"),
    (28, "1a1a2a1a3a1a1a", "1a12a3a1aa1a1aa"),
    (29, "1a1a2a1a3a1a1a", "1a21a31aaa1a1aa"),
]


class Process:
    def __init__(self, at, registers, parent):
        self.at, self.registers, self.parent, self.owes, self.cost = at, dict(registers), parent, True, 0


class Run:
    def __init__(self, budget):
        self.queue, self.processes, self.zombies = [1], {1: Process(1, {}, 0)}, {}
        self.left, self.next, self.verdict, self.shown = budget, 2, None, ""

    def may(self, happening):
        if happening == "a":
            return self.verdict is None and not self.processes[self.queue[0]].owes
        return int(happening) in self.queue and self.processes[int(happening)].owes

    def happen(self, happening):
        if happening == "a":
            self.turn()
        else:
            self.run(self.processes[int(happening)])

    def run(self, process):
        process.owes, process.cost = False, 1
        while CODE[process.at - 1] != ["ecall"]:
            word, register, number = CODE[process.at - 1]
            process.at += 1
            process.cost += 1
            if word == "li":
                process.registers[register] = int(number)
            elif process.registers.get(register, 0) == 0:
                process.at = int(number)

    def turn(self):
        vpid = self.queue[0]
        process = self.processes[vpid]
        if process.cost > self.left:
            self.verdict = "Budget"
            return
        self.left -= process.cost
        self.queue.pop(0)
        call = process.registers["a7"]
        process.at += 1
        process.owes = True
        if call == EXIT:
            self.shown += f"exit {vpid} code {process.registers['a0']}\n"
            self.zombies[vpid] = process.parent
            if vpid == 1:
                assert not self.queue
                self.verdict = "Ended"
            return
        self.queue.append(vpid)
        if call == CLONE:
            child = Process(process.at, process.registers, vpid)
            child.registers["a0"] = 0
            process.registers["a0"] = self.next
            self.processes[self.next] = child
            self.queue.append(self.next)
            self.next += 1
        else:
            assert call == WAIT4
            ended = min(zombie for zombie in self.zombies if self.zombies[zombie] == vpid)
            del self.zombies[ended]
            process.registers["a0"] = ended


def play(budget, happenings):
    """How many of them come, and the run then."""
    run = Run(budget)
    for count, happening in enumerate(happenings):
        if not run.may(happening):
            return count, run
        run.happen(happening)
    return len(happenings), run


def answer(run):
    """What an admission answers."""
    run = copy.deepcopy(run)
    if run.verdict is None:
        if not run.may("a"):
            return f"NotArrived({run.queue[0]})"
        run.turn()
    return "Turn" if run.verdict is None else f"Over(Verdict::{run.verdict})"


def drawn(count):
    """More budgets and lists: mostly what may happen, then what may or may not."""
    random.seed(20)
    lists = []
    while len(lists) < count:
        budget, happenings = random.choice([AMPLE, AMPLE, 29, 28, 25, 13]), ""
        run = Run(budget)
        for _ in range(random.randint(4, 15)):
            allowed = [happening for happening in "a123" if run.may(happening)]
            if not allowed:
                break
            happenings += random.choice(allowed)
            run.happen(happenings[-1])
        happenings += random.choice(["", "a", "1", "2a", "33", "a1"])
        if len(happenings) > 5:
            lists.append((budget, happenings))
    return lists


def main():
    print("// Lists of happenings on `trio`, made by vectors/happenings.py, which models them apart from the program.")
    print("use dt_base::Verdict;\nuse dt_run::Admitted;\nuse dt_run::Admitted::{NotArrived, Over, Turn};\n")
    print("/// A row a list: the budget, the list, how many of it come, how many processes show their end, who owes a")
    print("/// segment then, and what an admission answers then. In a list a digit is the process that runs its")
    print("/// segment, and `a` admits the head.")
    print("pub const CASES: &[(u64, &str, usize, usize, &[u32], Admitted)] = &[")
    thought_of = [(budget, happenings) for budget, *lists in LISTS for happenings in lists]
    for budget, happenings in dict.fromkeys(thought_of + drawn(16)):
        count, run = play(budget, happenings)
        ends = run.shown.count("\n")
        assert run.shown == "".join(SHOWN[:ends])
        owing = ", ".join(str(vpid) for vpid in run.queue if run.processes[vpid].owes)
        print(f'    ({budget}, "{happenings}", {count}, {ends}, &[{owing}], {answer(run)}),')
    print("];")


main()
