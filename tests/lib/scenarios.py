"""Texts of scenarios that several parts make."""

GROUP = "01-00-5E-00-00-01"


def ring(nodes, capacity=None):
    """The nodes and links of a ring of DANHs, and how many copies wait on a link."""
    lines = [] if capacity is None else [f"capacity = {capacity}"]
    lines += ["node = ["] + [f'  {{name="n{i}", role="danh", mac="02-00-00-00-00-{i + 1:02X}"}},' for i in range(nodes)] + ["]"]
    lines += ["link = ["] + [f'  {{ends=["n{i}.B", "n{(i + 1) % nodes}.A"]}},' for i in range(nodes)] + ["]"]
    return "\n".join(lines) + "\n"


def send(to):
    """A send of the first node, as a line of an array of steps."""
    return f'{{do="send", node="n0", to="{to}", type=0x0800, payload="AABB"}},\n'


def storm(sends):
    """`sends` sends to a group in two rings joined by two QuadBoxes, before one drain."""
    return (
        """node = [
  {name="n0", role="danh", mac="02-00-00-00-00-01"}, {name="n1", role="danh", mac="02-00-00-00-00-02"},
  {name="q0", role="quadbox"}, {name="q1", role="quadbox"},
]
link = [
  {ends=["n0.B", "q0.A"]}, {ends=["q0.B", "q1.A"]}, {ends=["q1.B", "n0.A"]},
  {ends=["n1.B", "q0.C"]}, {ends=["q0.D", "q1.C"]}, {ends=["q1.D", "n1.A"]},
]
step = [
"""
        + send(GROUP) * sends
        + '{do="drain"},\n]\n'
    )
