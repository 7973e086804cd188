#!/usr/bin/env python3
"""Makes tables of real size, the same at each call with the same words.

    tables.py trace FOLDER MACHINES ROWS LOAD [SEED]    a cluster's trace with so many rows of tasks
    tables.py picky FOLDER MACHINES ROWS LOAD [SEED]    the same, but that most tasks ask for one machine in a hundred
    tables.py steady FOLDER MACHINES HOURS LOAD [SEED] [--rate RATE] [--map-reduce PERCENT]
                                                        a cell that is as full at the beginning as at the end
    tables.py SHAPE FOLDER SIZE                         tables of one extreme shape; without words they are listed

SEED, which may also be said by --seed SEED, is 3 where it is left out. Tables that stand in FOLDER are overwritten, and
beside them is a file `workload` with the words, without the folder and the seed: traces with the same one differ by
chance alone. LOAD is in per cent of the CPU of all machines. In a steady cell it is what the tasks that run at a time
ask for, on an average. In the other two it says how fast jobs come: the CPU time of all tasks is so much of what the
machines have while jobs come. Many tasks live on when no more come, so what is in use at a time is less. The figures
that the trace is made by are rough ones for a cluster of a few machine types in which most jobs have one task, a few
have many, and services run long.

In a steady cell what stands at the beginning is two jobs of the last scheduler, which stand in `mapreduce_jobs` without
activities; from 600 seconds on services and batch jobs come. With --rate 2 twice as many batch jobs come and each lives
for half as long, so that the load stays; RATE is a number such as 0.125. With --map-reduce 10 one in ten batch jobs is a
MapReduce job.
"""
import math
import os
import random
import sys

SECOND = 1_000_000
BEGIN = 600 * SECOND            # the published traces begin at 600 s; time 0 is for what was there before
TABLES = ('machine_events', 'machine_attributes', 'task_events', 'task_constraints', 'mapreduce_jobs',
          'machine_disk')

# In a hundred machines so many have this CPU and this memory.
TYPES = ((54, 0.5, 0.4995), (31, 0.5, 0.2493), (8, 0.5, 0.749), (5, 1.0, 1.0), (2, 0.25, 0.2498))


class Dice:
    """Draws from `random.Random.random` alone, which gives the same numbers in every version of Python."""

    def __init__(self, seed):
        self.random = random.Random(seed).random

    def below(self, n):
        return int(self.random() * n)

    def in_hundred(self, percent):
        return self.random() * 100 < percent

    def life(self, mean):
        """What is left is as long as the whole, on an average, whenever one looks."""
        return -mean * math.log(1 - self.random())

    def between(self, low, high):
        """Evenly in the logarithm, so that small values are common and large ones come."""
        return low * (high / low) ** self.random()


class Files:
    """The six tables of a folder, open for writing."""

    def __init__(self, folder):
        os.makedirs(folder, exist_ok=True)
        self.files = {table: open(os.path.join(folder, table + '.csv'), 'w', encoding='ascii')
                      for table in TABLES}

    def put(self, table, *fields):
        self.files[table].write(','.join(map(str, fields)) + '\n')

    def machine(self, number, cpu=1, mem=1):
        self.put('machine_events', 0, number, 0, 'p', cpu, mem)

    def task(self, time, job, index, code, size, prio=1, differ=0):
        self.put('task_events', time, '', job, index, '', code, 'u', 0, prio, size, size, '', differ)

    def close(self):
        for file in self.files.values():
            file.close()


class Job:
    """One job: what its tasks ask for, and how long each runs, in seconds."""

    def __init__(self, dice, number, most_tasks):
        self.number = number
        self.service = dice.in_hundred(12)
        self.tasks = 1 if dice.in_hundred(70) else int(dice.between(2, 60))
        if dice.in_hundred(2):
            self.tasks = int(dice.between(100, 2000))
        self.tasks = min(self.tasks, most_tasks)
        many = self.tasks > 60
        self.klass = 2 + dice.below(2) if self.service else dice.below(2)
        self.prio = 8 + dice.below(4) if self.service else dice.below(9)
        self.life = dice.between(4000, 100_000) if self.service else dice.between(60, 3000 if many else 20_000)
        self.cpu = dice.between(0.006, 0.06 if many else 0.15)
        self.mem = min(0.2, self.cpu * dice.between(0.3, 1.6))
        self.disk = dice.between(0.00001, 0.002)
        self.differ = int(dice.in_hundred(4))
        self.activities = self.tasks * (2 + dice.below(6)) if dice.in_hundred(5) and not self.service else 0
        self.constraint = dice.below(4) if dice.in_hundred(6) else None
        self.submit = 0

    def work(self):
        return self.tasks * self.cpu * self.life


def jobs_for(dice, rows):
    """Jobs with about so many rows in all: each task is submitted, scheduled and ended."""
    jobs, left, number = [], rows, 3_000_000
    while left > 0:
        number += 1 + dice.below(40_000)
        jobs.append(Job(dice, number, left // 3 + 1))
        left -= 3 * jobs[-1].tasks
    return jobs


def events_of(dice, jobs, rows):
    """The first rows in order of time, each as its time, its job, the task's index and the code."""
    events = []
    for job in jobs:
        for index in range(job.tasks):
            begin = job.submit + (0 if job.submit == 0 else (1 + dice.below(200)) * SECOND)
            end = begin + int(job.life * (0.7 + 0.6 * dice.random()) * SECOND)
            events.append((job.submit, job, index, 0))
            events.append((begin, job, index, 1))
            events.append((end, job, index, 5 if job.service else (4, 4, 4, 5, 3)[dice.below(5)]))
    events.sort(key=lambda event: event[0])
    return events[:rows]


def type_of(draw):
    """The CPU and the memory of a machine that drew a number below 100."""
    for percent, cpu, mem in TYPES:
        if draw < percent:
            break
        draw -= percent
    return cpu, mem


def machines_of(dice, files, count, span):
    """The machines and their attributes; one in a hundred goes and comes back. Answers the whole CPU."""
    whole, later = 0.0, []
    for number in range(1, count + 1):
        cpu, mem = type_of(dice.below(100))
        whole += cpu
        files.machine(number, cpu, mem)
        files.put('machine_attributes', 0, number, 'kernel', 15 + dice.below(8), 0)
        files.put('machine_attributes', 0, number, 'rack', 'r%d' % dice.below(40), 0)
        files.put('machine_disk', number, '0.0%d' % (2 + dice.below(7)))
        if dice.in_hundred(1):
            gone = dice.random()
            later.append((gone, (number, 1, 'p', cpu, mem)))
            later.append((gone + 0.02, (number, 0, 'p', cpu, mem)))
    later.sort()
    span = span(whole)
    for part, fields in later:
        files.put('machine_events', BEGIN + int(part * span), *fields)
    return span


CONSTRAINTS = ((3, 'kernel', 17), (2, 'kernel', 20), (1, 'rack', 'r7'), (0, 'rack', 'r3'))


def trace(folder, machines, rows, load, seed=3):
    files = Files(folder)
    put_trace(files, machines, rows, load, seed)
    files.close()


def picky(folder, machines, rows, load, seed=3):
    """A trace in which each machine is in one of a hundred pools, and four jobs of five ask for a pool."""
    dice, files = Dice(seed + 1), Files(folder)
    jobs = put_trace(files, machines, rows, load, seed)
    for number in range(1, machines + 1):
        files.put('machine_attributes', 0, number, 'pool', 'p%d' % dice.below(100), 0)
    for job in jobs:
        if dice.in_hundred(80):
            pool = 'p%d' % dice.below(100)
            for index in range(job.tasks):
                files.put('task_constraints', job.submit, job.number, index, 0, 'pool', pool)
    files.close()


def put_trace(files, machines, rows, load, seed):
    """Writes the rows of a trace, and answers its jobs."""
    dice = Dice(seed)
    jobs = jobs_for(dice, rows)
    work = sum(job.work() for job in jobs)
    span = machines_of(dice, files, machines, lambda whole: work / (whole * load / 100) * SECOND)
    for job in jobs:
        before = job.service and dice.in_hundred(30)
        job.submit = 0 if before else BEGIN + int(dice.random() * span)
    out = files.files['task_events']
    for time, job, index, code in events_of(dice, jobs, rows):
        out.write('%d,,%d,%d,,%d,u,%d,%d,%.4f,%.5f,%.7f,%d\n' % (
            time, job.number, index, code, job.klass, job.prio, job.cpu, job.mem, job.disk, job.differ))
    for job in jobs:
        if job.constraint is not None:
            for index in range(job.tasks):
                files.put('task_constraints', job.submit, job.number, index, *CONSTRAINTS[job.constraint])
        if job.activities:
            files.put('mapreduce_jobs', job.number, min(10_000, job.activities))
    return jobs


# A cell in a steady state: as many jobs of a kind come as end, and where the first of them comes as many tasks are
# there as at any time after. So what a scheduler does doesn't depend on when one looks.

class Kind:
    """Services or batch jobs: their part of the load, how many tasks they have at most, how long these live
    on an average, in seconds, their class and their priority."""

    def __init__(self, part, most_tasks, life, klass, prio):
        self.part, self.most_tasks, self.life, self.klass, self.prio = part, most_tasks, life, klass, prio

    def tasks(self, dice):
        """What each task of a job asks for, of CPU and of memory."""
        cpu = dice.between(*CPU)
        mem = min(0.2, cpu * dice.between(0.3, 1.6))
        return [(cpu, mem)] * int(dice.between(1, self.most_tasks + 1))

    def mean_of_job(self):
        """The CPU that all tasks of a job ask for, on an average."""
        most = self.most_tasks
        tasks = sum(n * math.log((n + 1) / n) for n in range(1, most + 1)) / math.log(most + 1)
        return tasks * (CPU[1] - CPU[0]) / math.log(CPU[1] / CPU[0])


CPU = (0.006, 0.15)
SERVICES = Kind(0.6, 30, 86_400, 2, 9)
BATCH = Kind(0.4, 60, 600, 0, 1)
STANDING = {SERVICES: 1, BATCH: 2}      # the numbers of the jobs that are there at the beginning
MOST_ACTIVITIES_OF_TASK = 20


def steady(folder, machines, hours, load, seed=3, rate=1.0, map_reduce=0):
    dice, files = Dice(seed), Files(folder)
    span, number = hours * 3600, 1000
    whole, rows = steady_machines(files, machines), []
    for kind in (SERVICES, BATCH):
        times = rate if kind is BATCH else 1.0
        life, cpu = kind.life / times, kind.part * whole * load / 100
        rows += standing_rows(dice, kind, cpu, life)
        files.put('mapreduce_jobs', STANDING[kind], 0)
        for _ in range(round(cpu / kind.mean_of_job() * span / life)):
            number += 1 + dice.below(1000)
            tasks = kind.tasks(dice)
            rows += job_rows(dice, kind, number, BEGIN + int(dice.random() * span * SECOND), tasks, life)
            if kind is BATCH and map_reduce and dice.in_hundred(map_reduce):
                each = dice.between(1, MOST_ACTIVITIES_OF_TASK)
                files.put('mapreduce_jobs', number, int(len(tasks) * each))
        number += 1000
    last = BEGIN + int(span * SECOND)
    out = files.files['task_events']
    for row in sorted(row for row in rows if row[0] <= last):
        out.write('%d,,%d,%d,,%d,u,%d,%d,%.4f,%.5f,,0\n' % row)
    files.close()


def steady_machines(files, machines):
    """Puts the machines, and answers the CPU of all of them."""
    whole = 0.0
    for machine in range(1, machines + 1):
        cpu, mem = type_of(machine * 61 % 100)
        whole += cpu
        files.machine(machine, cpu, mem)
    return whole


def standing_rows(dice, kind, cpu, life):
    """The rows of what is there at the beginning: one job, submitted at time 0, whose tasks live on from when others
    come. What is left of a life is as long as the whole, on an average."""
    there = []
    while cpu > 0:
        tasks = kind.tasks(dice)
        there += tasks
        cpu -= len(tasks) * tasks[0][0]
    for index, (each, mem) in enumerate(there):
        end = BEGIN + 1 + int(dice.life(life) * SECOND)
        for time, code in ((0, 0), (end, 4)):
            yield time, STANDING[kind], index, code, kind.klass, kind.prio, each, mem


def job_rows(dice, kind, number, submit, tasks, life):
    """A job's rows: each task is submitted and ends."""
    for index, (cpu, mem) in enumerate(tasks):
        yield submit, number, index, 0, kind.klass, kind.prio, cpu, mem
        yield submit + 1 + int(dice.life(life) * SECOND), number, index, 4, kind.klass, kind.prio, cpu, mem


TRACES = {kind.__name__: kind for kind in (trace, picky, steady)}

# Extreme shapes, each a function of the files and a size to which the rows are in proportion.

ROUND = 300 * SECOND


def one_job(files, size):
    """One job of many tasks on 2,000 machines"""
    for number in range(1, 2001):
        files.machine(number)
    for index in range(size):
        files.task(0, 10, index, 0, 0.01)


def apart(files, size):
    """One job whose tasks must be on different machines"""
    for number in range(1, size + 1):
        files.machine(number)
    for index in range(size):
        files.task(0, 10, index, 0, 0.01, differ=1)


def never_fits(files, size):
    """Jobs that fit nowhere and are tried again in 20 rounds"""
    files.machine(1, 0.1, 0.1)
    for place in range(size):
        files.task(place * 20 // size * ROUND, place, 0, 0, 0.5)


def one_machine(files, size):
    """All tasks on one machine, and all of them end"""
    files.machine(1)
    for job in range(size):
        files.task(job, job, 0, 0, 0)
    for job in range(size):
        files.task(2 * ROUND + job, job, 0, 4, 0)


def long_runs(files, size):
    """Tasks that run through 300 rounds on 2,000 machines"""
    for number in range(1, 2001):
        files.machine(number)
    for job in range(size):
        files.task(0, job, 0, 0, 0.01)
    for number in range(1, 300):
        files.task(number * ROUND, 0, 0, 8, 0.01)


def attributes(files, size):
    """One machine with many attributes"""
    files.machine(1)
    for number in range(size):
        files.put('machine_attributes', 0, 1, 'name%d' % number, 'v', 0)


def scarce(files, size):
    """Jobs of rising priority on a full cell of 100 machines, for runs that evict"""
    for number in range(1, 101):
        files.machine(number)
    for job in range(size):
        files.task(job * 20 // size * ROUND, job, 0, 0, 0.2, prio=job * 20 // size)


def map_reduce(files, size):
    """MapReduce jobs of one task that ask for extra tasks on 2,000 machines"""
    for number in range(1, 2001):
        files.machine(number)
    for job in range(size):
        files.task(job * 20 // size * ROUND, job, 0, 0, 0.001)
        files.put('mapreduce_jobs', job, 8)


# What a stranger could choose so that a loop of the program is long.


def rounds_of(files, count, job):
    """So many rounds, each of which has a row that changes nothing."""
    for number in range(count):
        files.task(number * ROUND, job, 0, 8, 0)


def victims(files, size):
    """One task that evicts all tasks of its machine"""
    files.machine(1)
    for index in range(size):
        files.task(0, 10, index, 0, 0.5 / size)
    files.task(ROUND, 11, 0, 0, 1, prio=9)


def one_by_one(files, size):
    """Jobs each of which evicts one task of as many on one machine"""
    files.machine(1)
    for index in range(size):
        files.task(0, 10, index, 0, 1 / size)
    for job in range(size):
        files.task(ROUND, 11 + job, 0, 0, 1 / size, prio=9)


def updates(files, size):
    """One machine with many tasks, and as many updates that leave it as it is"""
    files.machine(1)
    for index in range(size):
        files.task(0, 10, index, 0, 0.5 / size)
    for number in range(size):
        files.put('machine_events', ROUND + number, 1, 2, 'p', 1, 1)


def shrinking(files, size):
    """One machine with many tasks that becomes smaller by one of them at a time"""
    files.machine(1)
    for index in range(size):
        files.task(0, 10, index, 0, '1e-6')
    for left in range(size - 1, -1, -1):
        files.put('machine_events', ROUND + size - left, 1, 2, 'p', '%de-6' % left, 1)


def crowded(files, size):
    """Jobs of one task on one machine, of which evictions have been asked for once"""
    files.machine(1)
    files.task(0, 0, 0, 0, 1000, prio=9)
    for job in range(1, size + 1):
        files.task(ROUND, job, 0, 0, 0.5 / size)


PRIORITIES = 255


def levels(files, size):
    """Eight jobs of each of 255 priorities that are too large for every machine, for runs that evict"""
    for number in range(1, size + 1):
        files.machine(number, 0.5, 0.5)
    for job in range(8 * PRIORITIES):
        files.task(0, job, 0, 0, 0.9, prio=1 + job // 8)


def ranks(files, size):
    """Jobs of 255 priorities in one round, each of which evicts one of 10,000 tasks on one machine"""
    full_of_tasks(files)
    for job in range(size):
        files.task(ROUND, 11 + job, 0, 0, 0.0001, prio=1 + job % PRIORITIES)


def ranks_in_turn(files, size):
    """Jobs of 255 priorities, one in each round, each of which evicts one of 10,000 tasks on one machine"""
    full_of_tasks(files)
    for job in range(size):
        files.task((1 + job) * ROUND, 11 + job, 0, 0, 0.0001, prio=1 + job % PRIORITIES)


def full_of_tasks(files):
    """One machine full of tasks of the least priority."""
    files.machine(1)
    for index in range(10_000):
        files.task(0, 10, index, 0, 0.0001, prio=0)


def taking_over(files, size):
    """Jobs of one task on one machine, for runs on threads"""
    files.machine(1)
    for job in range(size):
        files.task(0, job, 0, 0, 0)


def same_tree(files, size):
    """Jobs of one task whose numbers are equal modulo 262,144, on 2,000 machines"""
    for number in range(1, 2001):
        files.machine(number)
    for job in range(size):
        files.task(0, job * 262_144, 0, 0, 0)


def other_trees(files, size):
    """Jobs of one task whose numbers follow one another, on 2,000 machines"""
    for number in range(1, 2001):
        files.machine(number)
    for job in range(size):
        files.task(0, job, 0, 0, 0)


# With which a number is multiplied before the place that is noted for it is looked up.
SPREAD = 0x9E37_79B9_7F4A_7C15


def one_note(files, size):
    """Jobs of one task on 100 machines, with numbers that share a note"""
    back = pow(SPREAD, -1, 2 ** 64)
    for number in range(1, 101):
        files.machine(number * back % 2 ** 64)
    for job in range(1, size + 1):
        files.task(0, job * back % 2 ** 64, 0, 0, 0)


def machines_apart(files, size):
    """Machines whose numbers are equal modulo 2^44, each with a task"""
    for number in range(size):
        files.machine(number << 44)
        files.task(0, number, 0, 0, 0.6)


def machines_in_row(files, size):
    """Machines whose numbers follow one another, each with a task"""
    for number in range(size):
        files.machine(number)
        files.task(0, number, 0, 0, 0.6)


def constraints(files, size):
    """One task with many constraints that waits on 100 machines in 20 rounds"""
    for number in range(1, 101):
        files.machine(number)
    files.task(0, 10, 0, 0, 0.1)
    for number in range(size):
        files.put('task_constraints', 0, 10, 0, 1, 'name%d' % number, 'v')
    files.put('task_constraints', 0, 10, 0, 0, 'rack', 'r')
    rounds_of(files, 20, 11)


def matched(files, size):
    """One machine with many attributes, and one task with a constraint on each"""
    attributes(files, size)
    files.task(0, 10, 0, 0, 0.1)
    for number in range(size):
        files.put('task_constraints', 0, 10, 0, 0, 'name%d' % number, 'v')


def unset_in_order(files, size):
    """One machine with many attributes, which are unset again in the order in which they were set"""
    attributes(files, size)
    for number in range(size):
        files.put('machine_attributes', ROUND, 1, 'name%d' % number, '', 1)


def unset_backwards(files, size):
    """One machine with many attributes, which are unset again from the last one on"""
    attributes(files, size)
    for number in reversed(range(size)):
        files.put('machine_attributes', ROUND, 1, 'name%d' % number, '', 1)


def set_in_turn(files, size):
    """One machine with many attributes, and another one that is set and unset as often"""
    attributes(files, size)
    for number in range(size):
        files.put('machine_attributes', ROUND, 1, 'other', number, 0)
        files.put('machine_attributes', ROUND, 1, 'other', '', 1)


def nowhere(files, size):
    """Jobs with a constraint that no machine meets, on as many machines"""
    for number in range(1, size + 1):
        files.machine(number)
        files.task(0, number, 0, 0, 0.1)
        files.put('task_constraints', 0, number, 0, 0, 'rack', 'r')


def lopsided(files, size):
    """Jobs on as many machines, of which half have no memory and half no CPU"""
    for number in range(1, size + 1):
        files.machine(number, number % 2, 1 - number % 2)
        files.task(0, number, 0, 0, 0.1)


def many_rounds(files, size):
    """20 jobs that fit nowhere, in many rounds"""
    files.machine(1, 0.1, 0.1)
    for job in range(20):
        files.task(0, job, 0, 0, 0.5)
    rounds_of(files, size, 20)


def overtaken(files, size):
    """Jobs that fit nowhere, and then a round in each of a fifth as many seconds"""
    files.machine(1, 0.1, 0.1)
    for job in range(size):
        files.task(0, job, 0, 0, 0.5)
    for number in range(1, size // 5 + 1):
        files.task(number * SECOND, 0, 0, 8, 0.5)


def due_at_once(files, size):
    """One job of many tasks that are due to end at one time, beside a fourth as many jobs that fit nowhere"""
    files.machine(1, 0.1, 0.1)
    for index in range(size):
        files.task(0, 0, index, 0, 0)
    for job in range(1, size // 4 + 1):
        files.task(0, job, 0, 0, 0.5)
    for index in range(size):
        files.task(20_000 * SECOND, 0, index, 4, 0)
    files.task(100_000 * SECOND, 0, 0, 8, 0)


def held_back(files, size):
    """Ten tasks that come again very often before they have ended for the first time"""
    files.machine(1)
    for job in range(10):
        files.task(0, job, 0, 0, 0.01)
    for number in range(size // 10):
        for job in range(10):
            files.task(SECOND + 2 * number, job, 0, 4, 0.01)
            files.task(SECOND + 2 * number + 1, job, 0, 0, 0.01)
    files.task(1_000_000 * SECOND, 0, 0, 8, 0.01)


def ends_beside_extras(files, size):
    """One job of many tasks that are due to end at one time, beside a fifth as many MapReduce jobs without extra tasks"""
    files.machine(1)
    for index in range(size):
        files.task(0, 0, index, 0, 0)
    for job in range(1, size // 5 + 1):
        files.task(0, job, 0, 0, '1e-6')
        files.put('mapreduce_jobs', job, 8)
    for index in range(size):
        files.task(20_000 * SECOND, 0, index, 4, 0)
    files.task(100_000 * SECOND, 0, 0, 8, 0)


def comes_back(files, size):
    """One machine with many tasks, which goes and comes back in each of 50 rounds"""
    window = 300 * SECOND
    files.machine(1)
    for index in range(size):
        files.task(0, 1, index, 0, 0.9 / size)
    for turn in range(1, 51):
        files.put('machine_events', turn * window, 1, 1, 'p', '', '')
        files.put('machine_events', turn * window + 1, 1, 0, 'p', 1, 1)


def given_up(files, size):
    """Jobs that are given up, in as many rounds"""
    files.machine(1, 0.1, 0.1)
    for job in range(size):
        files.task(0, job, 0, 0, 0.5)
    rounds_of(files, size, size)


def large_job(files, size):
    """One job of very many tasks, one of which fits nowhere, in 20 rounds"""
    files.machine(1)
    for index in range(size):
        files.task(0, 10, index, 0, 0 if index else 1000)
    rounds_of(files, 20, 11)


def one_waits(files, size):
    """One job of which one task waits, in as many rounds as it has tasks"""
    files.machine(1)
    for index in range(size):
        files.task(0, 10, index, 0, 0 if index else 1000)
    rounds_of(files, size, 11)


def restarts(files, size):
    """One job of which one task ends and is submitted anew in as many rounds as it has tasks"""
    files.machine(1)
    for index in range(size):
        files.task(0, 10, index, 0, 0)
    for number in range(1, size):
        files.task(number * ROUND, 10, size - 1, 4, 0)
        files.task(number * ROUND, 10, size - 1, 0, 0)


def last_restarts(files, size, each):
    """A job of which each task but one of so many has ended, and the last one ends and is submitted anew in a round
    for each 20 tasks"""
    files.machine(1)
    for index in range(size):
        files.task(0, 10, index, 0, 0)
    for index in range(1, size - 1):
        if index % each:
            files.task(ROUND, 10, index, 4, 0)
    for number in range(2, size // 20):
        files.task(number * ROUND, 10, size - 1, 4, 0)
        files.task(number * ROUND, 10, size - 1, 0, 0)


def most_ended(files, size):
    """One job of which the first task is left and the last is submitted anew, in a round for each 20 tasks"""
    last_restarts(files, size, size)


def left_apart(files, size):
    """One job of which each 64th task is left and the last is submitted anew, in a round for each 20 tasks"""
    last_restarts(files, size, 64)


def short_rounds(files, size):
    """Jobs of one task, each in a round of its own of a microsecond, on 100 machines"""
    for number in range(1, 101):
        files.machine(number)
    for job in range(size):
        files.task(job, job, 0, 0, 0)


def extras(files, size):
    """MapReduce jobs of one task that ask for 10,000 extra tasks on a full cell, in 20 rounds"""
    files.machine(1)
    for job in range(size):
        files.task(0, job, 0, 0, 1)
        files.put('mapreduce_jobs', job, 10_000)
    rounds_of(files, 20, size)


def many_extras(files, size):
    """MapReduce jobs of one task that ask for 10,000 extra tasks each, all in one round, on a full cell"""
    files.machine(1)
    for job in range(size):
        files.task(0, job, 0, 0, 1)
        files.put('mapreduce_jobs', job, 10_000)


def extras_alike(files, size):
    """One MapReduce task with many constraints that asks for 10,000 extra tasks"""
    files.machine(1)
    files.task(0, 10, 0, 0, 0)
    files.put('mapreduce_jobs', 10, 10_000)
    for number in range(size):
        files.put('task_constraints', 0, 10, 0, 1, 'name%d' % number, 'v')


def commas(files, size):
    """One row of very many fields"""
    files.files['machine_events'].write(',' * size + '\n')


def commas_quoted(files, size):
    """One row of very many fields, of which the first is quoted"""
    files.files['machine_events'].write('""' + ',' * size + '\n')


def too_many_rows(files, size):
    """Rows of attributes, more than all tables may have"""
    for _ in range(size // 100):
        files.files['machine_attributes'].write('0,1,a,b,0\n' * 100)


def quotes(files, size):
    """One field of very many quotes"""
    files.put('machine_events', 0, 1, 0, '"' + '""' * size + '"', 1, 1)


def long_text(files, size):
    """One attribute of a long text, and a task with a constraint as long, which waits in 20 rounds"""
    files.machine(1)
    files.put('machine_attributes', 0, 1, 'name', 'v' * size, 0)
    files.task(0, 10, 0, 0, 1000)
    files.put('task_constraints', 0, 10, 0, 0, 'name', 'v' * size)
    rounds_of(files, 20, 11)


# 100,000 jobs of one task (20,000 in the last shape), each a plan of its own, on a cell of so many machines:
# here the size is that of the cell, and the plans are as many for each.

PLANS = 100_000


def half_full(files, size):
    """Plans on a cell that is half full"""
    for number in range(1, size + 1):
        files.machine(number)
        files.task(0, number, 0, 0, 0.5)
    for job in range(PLANS):
        files.task(ROUND, 1_000_000 + job, 0, 0, 0.004)


def full(files, size):
    """Plans on a cell on which nothing fits"""
    for number in range(1, size + 1):
        files.machine(number)
        files.task(0, number, 0, 0, 0.9)
    for job in range(PLANS):
        files.task(ROUND, 1_000_000 + job, 0, 0, 0.5)


def evicting(files, size):
    """Plans each of which needs one eviction"""
    share = size / PLANS
    for number in range(1, size + 1):
        files.machine(number)
    for job in range(PLANS):
        files.task(0, job, 0, 0, share)
    for job in range(PLANS):
        files.task(ROUND, 1_000_000 + job, 0, 0, share, prio=9)


def too_little(files, size):
    """20,000 plans for which evictions could free too little"""
    for number in range(1, size + 1):
        files.machine(number)
        files.task(0, number, 0, 0, 0.7, prio=9)
        files.task(0, 100_000 + number, 0, 0, 0.25, prio=0)
    for job in range(20_000):
        files.task(ROUND, 1_000_000 + job, 0, 0, 0.5, prio=4 + job % 4)


SHAPES = {shape.__name__: shape for shape in (
    one_job, apart, never_fits, one_machine, long_runs, attributes, scarce, map_reduce, half_full, full, evicting,
    too_little, victims, one_by_one, updates, shrinking, crowded, levels, ranks, ranks_in_turn, taking_over,
    same_tree, other_trees, one_note, machines_apart, machines_in_row, constraints, matched, unset_in_order, unset_backwards, set_in_turn,
    nowhere, lopsided, many_rounds, overtaken, due_at_once, held_back, ends_beside_extras, comes_back, given_up, large_job,
    one_waits, restarts, most_ended, left_apart, short_rounds, extras, many_extras, extras_alike, commas, commas_quoted,
    too_many_rows, quotes, long_text)}


def are_numbers(words):
    """Whether words are whole numbers, all above 0 but for a seed."""
    return all(word.isascii() and word.isdigit() for word in words) and all(map(int, words[:3]))


def put_workload(folder, *words):
    """The words of tables but for the folder and the seed, in a line beside them."""
    with open(os.path.join(folder, 'workload'), 'w', encoding='ascii') as file:
        file.write(' '.join(map(str, words)) + '\n')


# Each option of a trace with its least and its greatest value, and whether only a steady one has it.
OPTIONS = {'--seed': (int, 0, 2 ** 64 - 1, False), '--rate': (float, 0.001, 1000, True),
           '--map-reduce': (int, 0, 100, True)}


def options_of(kind, words):
    """The values of options by name, or nothing where they are none or don't belong to the kind of trace."""
    found = {}
    for name, word in zip(words[::2], words[1::2]):
        if name not in OPTIONS or name in found:
            return None
        form, least, most, of_steady = OPTIONS[name]
        if not word.isascii() or not word.replace('.', '', form is float).isdigit():
            return None
        value = form(word)
        if not least <= value <= most or of_steady and kind is not steady:
            return None
        found[name] = value
    return {name[2:].replace('-', '_'): value for name, value in found.items()} if len(words) % 2 == 0 else None


def make_trace(words):
    """Makes a trace and its workload, and answers whether its words are as they should be."""
    kind, count = TRACES[words[0]], next((at for at, word in enumerate(words) if word.startswith('--')), len(words))
    plain, said = words[2:count], words[count:]
    options = options_of(kind, said)
    if len(plain) not in (3, 4) or not are_numbers(plain) or options is None or len(plain) == 4 and 'seed' in options:
        return False
    kind(words[1], *map(int, plain), **options)
    others = [word for pair in zip(said[::2], said[1::2]) if pair[0] != '--seed' for word in pair]
    put_workload(words[1], words[0], *plain[:3], *others)
    return True


def main(words):
    if len(words) >= 5 and words[0] in TRACES and make_trace(words):
        return 0
    if len(words) == 3 and words[0] in SHAPES and are_numbers(words[2:]):
        files = Files(words[1])
        SHAPES[words[0]](files, int(words[2]))
        files.close()
        put_workload(words[1], words[0], words[2])
    elif words in (['--help'], ['-h']):
        print(__doc__, end='')
    elif not words:
        for name, shape in SHAPES.items():
            print('%s: %s' % (name, shape.__doc__))
    else:
        print(__doc__, file=sys.stderr)
        return 2
    return 0


if __name__ == '__main__':
    sys.exit(main(sys.argv[1:]))
