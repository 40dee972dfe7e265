"""Seconds of the processor, ours and those of others in turn."""
import collections
import os
import resource
import statistics
import time

OTHERS_LIMIT = 20  # seconds
OTHERS_TIMES = 7  # counts of libxml2 in a run, of which the first find their memory cold


def timed(call, *words):
    """What a call answers, and its seconds."""
    start = time.thread_time()
    answer = call(*words)
    return answer, time.thread_time() - start


def middle(values):
    """The middle one of those that are there; None where there are none."""
    found = [value for value in values if value is not None]
    return statistics.median(found) if found else None


def medians(rounds):
    """The middle one of each column."""
    return [statistics.median(column) for column in zip(*rounds)]


def within_limit(work):
    """The numbers that a call answers, found by a process that ends behind the limit; None where it ended so."""
    reader, writer = os.pipe()
    child = os.fork()
    if child == 0:
        resource.setrlimit(resource.RLIMIT_CORE, (0, 0))
        resource.setrlimit(resource.RLIMIT_CPU, (OTHERS_LIMIT, OTHERS_LIMIT))
        os.write(writer, " ".join(map(str, work())).encode())
        os._exit(0)
    os.close(writer)
    told = os.read(reader, 1000).decode().split()
    os.close(reader)
    os.waitpid(child, 0)
    return [float(number) for number in told] or None


def others_seconds(ask, runs):
    """libxml2's answer, a number, and its seconds; None where it takes longer than the limit."""

    def work():
        spent = []
        while len(spent) < runs and sum(spent) + max(spent, default=0) < OTHERS_LIMIT / 2:
            answer, seconds = timed(ask)
            spent.append(seconds)
        return answer, statistics.median(spent)

    return within_limit(work)


# Of a query how many nodes it selects, our seconds of a count, libxml2's milliseconds and how often ours go into them as cells, whether it came
# to an end, and what is wrong, if anything is.
Counted = collections.namedtuple("Counted", "count seconds cells ended wrong")


def counted(session, document, query, runs, width):
    """Counts of a query, ours and libxml2's in turn; the line of a refusal where it is refused."""
    said = session.do(f"count {query}")
    if not said.startswith("ok selected "):
        return said
    count, ours, theirs = int(said.split()[2]), [], []
    while len(ours) < runs and None not in theirs:
        ours.append(session.seconds_of(f"count {query}"))
        theirs.append(others_seconds(lambda: document.count(query), OTHERS_TIMES))
    if None in theirs:
        return Counted(count, statistics.median(ours), f"{f'> {OTHERS_LIMIT} s':>12}{'':>{width}}", False, "")
    seconds, times = medians((spent, spent / own) for own, (_, spent) in zip(ours, theirs))
    found = int(theirs[-1][0])
    wrong = "" if found == count else f"  WRONG: libxml2 counts {found}"
    return Counted(count, statistics.median(ours), f"{seconds * 1e3:>12.2f}{times:>{width}.1f}", True, wrong)
