"""A number that comes again: in a ring of three with small tables and no clock step the first node sends to a group, then 65,535 times to
the third node, then to the group again. The last send has number 0, as the first; the audit has to doubt it at node 1, place 65537."""
from lib.running import Job, Tally, run
from lib.scenarios import ring, send

DOUBT = b"doubt mistaken 1 65537"


def scenario():
    to_all = send("01-00-5E-00-00-01") + '{do="drain"},\n'
    to_one = send("02-00-00-00-00-03") + '{do="drain"},\n'
    return (ring(3) + "step = [\n" + to_all + to_one * 65535 + to_all + "]\n").encode()


def try_wrapped(setting):
    tally = Tally()
    status, output, error = run(setting, "hsr_bench", ["run", "--table", "small"], scenario())
    last = output.rstrip(b"\n").split(b"\n")[-1]
    tally.count("131,074 steps", "" if (status, last) == (2, DOUBT) else f"status {status}, {last!r} {error!r}")
    return tally


def jobs(setting):
    return [Job(try_wrapped, (), 5)]
