"""Plays with all that they were played of, and the one that is stored in the folder."""
from functools import cached_property

from engine import policy_files
from history import History, Numbered, domains_of, edited_lines, other_files
from policies import read_domains, read_groups, stored
from runs import read_run
from texts import MIXED, Stop, read
from traces import asking, read_trace


def check_trace(run, pids):
    """Ends where a run hasn't a take of each of the requests of these processes."""
    if pids != [take.pid for take in run.takes]:
        raise other_files("trace")


def stored_run(engine):
    """The run of the folder, which is one of the folder's files: that it has a take of each request
    is seen here, and all else by the program, where that is there."""
    run = read_run(read("run"))
    check_trace(run, asking(read("trace")))
    if engine.is_there():
        engine.judge_run()
    return run


def moves(request):
    """Whether a request may lead into another domain."""
    return request.startswith(("file execute ", "task "))


def origins(play, is_lost):
    """Of each take whose process, or one that it descends from, was denied a move before which is
    lost: the number of the last such take."""
    lost, found = {}, {}
    for take in play.run.takes:
        for parent, child in play.trace.forks.get(take.number - 1, ()):
            if parent in lost:
                lost[child] = lost[parent]
        if take.pid in lost:
            found[take.number] = lost[take.pid]
        if not take.is_granted and moves(play.asked(take).request) and is_lost(take.number):
            lost[take.pid] = take.number
    return found


class Play:
    """A run, the trace and the policy that it is of, and that policy's history, which is made where
    it is asked for."""

    def __init__(self, engine, run, trace_text, files):
        self.engine = engine
        self.run = run
        self.trace_text = trace_text
        self.trace = read_trace(trace_text)
        self.files = files

    @cached_property
    def names(self):
        """The domains by number, after all steps."""
        names = Numbered(domains_of(self.files["domain_policy"]), self.run.steps)
        names.finish()
        return names

    @cached_property
    def opening(self):
        """The policy that the play began with."""
        return self.engine.opening(self.files)

    @cached_property
    def history(self):
        """That policy, to which the steps are made."""
        normal = self.engine.normal_lines(edited_lines(self.run.steps))
        return History(domains_of(self.files["domain_policy"]), self.opening, self.run.steps,
                       normal)

    def asked(self, take):
        """What a take is of."""
        return self.trace.asked[take.number - 1]

    def name(self, number):
        """The name of the domain of a number, at whatever version it was made."""
        return self.names.domains.name(number)


class StoredPlay(Play):
    """The play of the folder, whose files are those of one play."""

    def __init__(self, engine):
        super().__init__(engine, read_run(read("run")), read("trace"), policy_files())
        check_trace(self.run, [request.pid for request in self.trace.asked])
        engine.judge_run()

    def finish(self):
        """Makes all steps. The policy that comes out is the one that is stored."""
        self.history.finish()
        domains = stored("domain_policy.new", read_domains)
        if not self.history.is_end(domains, stored("exception_policy.new", read_groups)):
            raise Stop("run and the .new files aren't of this policy: play again", MIXED)
