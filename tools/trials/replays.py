"""Judges replayed runs by `verify`.

Makes N (300) cases by `gen` with the seeds 1 to N, replays each by `replay` with 1, 2 and 4 workers
and by `replay 4 steal` in a folder of its own, and asks `verify` for each stored run, which must
say that it is legal. Each call ends by itself within a minute, and with status 0, as `step` of
these files does."""
import tempfile

from calls import Tally, call

WAYS = (["replay", "1"], ["replay", "2"], ["replay", "4"], ["replay", "4", "steal"])


def add_words(parser):
    parser.add_argument("--cases", type=int, default=300)
    parser.add_argument("--size", type=int, default=60)


def judge(program, seed, size, way):
    """The status of the last call, and what it did that it must not do."""
    with tempfile.TemporaryDirectory() as folder:
        for step in (["gen", str(seed), str(size)], ["step"], way, ["verify"]):
            ended = call([program, *step], folder)
            if ended.status != 0:
                return ended.status, "%s ended with %s: %s" % (step[0], ended.status, ended.line())
    if not ended.put.startswith(b"legal yes"):
        return ended.status, "verify says %s" % ended.put.decode().strip()
    return ended.status, None


def run(words):
    tally = Tally()
    for seed in range(1, words.cases + 1):
        for way in WAYS:
            status, fault = judge(words.program, seed, words.size, way)
            tally.count(status, "seed %d, %s" % (seed, " ".join(way)), fault)
    return tally.tell("runs judged") or words.cases < 1
