"""The tables that two merging units ask for: in a ring of three two nodes send 4000 frames a second each, to a group, for 800 ms. Each
moment's copies are drained before the next one. 6400 frames in 800 ms are more than 4096 entries, and fewer than 8192; of them no
table needs more than few, so that both runs are certified."""
from lib.running import Job, Tally, run
from lib.scenarios import GROUP, ring

MOMENTS = 3200  # of each node, 250 us apart
SAID = {"4096": b"budget crowded 0\ncertified 6400\n", "8192": b"budget 6400\ncertified 6400\n"}


def scenario():
    frames = "".join(f'{{do="send", node="n{node}", to="{GROUP}", type=0x88BA, payload="AABB"}},\n' for node in (0, 1))
    steps = "".join(f'{{do="clock", at={250 * moment}}},\n{frames}{{do="drain"}},\n' for moment in range(MOMENTS))
    return ('unit = "us"\n' + ring(3) + "step = [\n" + steps + "]\n").encode()


def try_sized(setting):
    tally = Tally()
    given = scenario()
    for table, said in SAID.items():
        status, output, error = run(setting, "hsr_bench", ["run", "--table", table, "--budget"], given)
        begins = output.startswith(f"bench 1 table {table} nodes 3 links 3\n".encode())
        tally.count("6400 frames in 800 ms", "" if status == 0 and begins and output.endswith(said) else f"--table {table}: status {status}, {output!r} {error!r}")
    return tally


def jobs(setting):
    return [Job(try_sized, (), 5)]
