"""Measures a program that rehearses scripts of replication jobs: jobs.py PROGRAM REPOSITORIES JOBS

The scripts are those of make_jobs.py, each at a quarter and at the whole. What plans take is the difference of a run with them
and one that only makes the repositories ready, and of runs with many and with one; what jobs take is the difference of a run in
which they are worked and one in which they are only planned. Each reply is looked at: where a line is refused, a plan does not
have a job of each repository, or a job does not end completed, nothing is measured.
"""

import sys

from measuring import Measuring

LATER_PLANS = 100
PARTS = (4, 1)
TURNS = 5


def is_plan_of(repositories):
    return lambda words: words[0] == b"jobs" and len(words) == repositories + 1


def is_completed(words):
    return words == [b"completed"]


def measure_plans(measuring, repositories):
    """The seconds of the plan that makes a job of each repository, and of one that finds these."""

    def run(plans):
        took = measuring.run("make_jobs.py", "plan", repositories, plans)
        measuring.look_at("plans had a job of each repository", is_plan_of(repositories), min(plans, 1))
        return took

    ready, one, many = run(0), run(1), run(1 + LATER_PLANS)
    first, later = one.seconds - ready.seconds, (many.seconds - one.seconds) / LATER_PLANS
    print(f"{repositories:,} repositories made ready: {ready.seconds:.2f} s, {ready.mebibytes:.0f} MiB")
    for what, seconds in (("a plan that makes a job of each", first), ("a plan that finds these", later)):
        each = 1e6 * seconds / repositories
        print(f"  {what}: {1000 * seconds:.1f} ms, {each:.2f} µs a repository", flush=True)
    return first, later


def measure_work(measuring, jobs):
    """The seconds in which so many jobs are worked, and the most memory that is held."""

    def run(worked):
        took = measuring.run("make_jobs.py", "work", jobs, worked)
        measuring.look_at("jobs ended completed", is_completed, worked)
        return took

    ready, whole = run(0), run(jobs)
    seconds = whole.seconds - ready.seconds
    print(f"{jobs:,} jobs made ready: {ready.seconds:.2f} s, {ready.mebibytes:.0f} MiB")
    each, mebibytes = 1e6 * seconds / jobs, whole.mebibytes
    print(f"  all worked: {seconds:.2f} s, {each:.1f} µs each; {mebibytes:.0f} MiB in all", flush=True)
    return seconds


def times(quarter, whole):
    return f"{whole / quarter / PARTS[0]:.2f} times as long each"


def main():
    program, repositories, jobs = sys.argv[1], int(sys.argv[2]), int(sys.argv[3])
    with Measuring(program, TURNS) as measuring:
        few, all_of_them = (measure_plans(measuring, repositories // part) for part in PARTS)
        quarter, whole = (measure_work(measuring, jobs // part) for part in PARTS)
    print(f"the plan that makes jobs, four times the repositories: {times(few[0], all_of_them[0])}")
    print(f"the plan that finds them, four times the repositories: {times(few[1], all_of_them[1])}")
    print(f"four times the jobs: {times(quarter, whole)}")


main()
