"""Decision diagrams as the usual packages keep them, with complement edges, and their node file.

An edge is a node's number and a bit: the edge 2 * node + 1 stands for the complement of the edge
2 * node. Node 0 is the one leaf, so edge 0 is true and edge 1 is false. The walk that numbers the
nodes is that of `tools/nodes`.
"""
import os
import sys

TOP = os.path.dirname(os.path.dirname(os.path.abspath(__file__)))
sys.dont_write_bytecode = True
sys.path.insert(0, os.path.join(TOP, "tools"))
import formats  # noqa: E402

TRUE, FALSE = 0, 1


class Package:
    def __init__(self):
        self.nodes, self.numbers = [None], {}

    def edge(self, atom, low, high):
        """The edge to the node of this atom; the edge to its `high` is never a complement."""
        if low == high:
            return low
        flip = high & 1
        node = (atom, low ^ flip, high ^ flip)
        if node not in self.numbers:
            self.numbers[node] = len(self.nodes)
            self.nodes.append(node)
        return 2 * self.numbers[node] + flip

    def parts(self, edge):
        """The atom of an edge's node, and the edges to where it is false and true."""
        atom, low, high = self.nodes[edge >> 1]
        return atom, low ^ (edge & 1), high ^ (edge & 1)


def node_file(package, root, order=None):
    """The text of the node file that has this edge, and the number that the edge has there.

    Children come before parents. A node and its complement become two nodes, each once. The order
    of the atoms is written where it is given: then the package asks for them in this order.
    """
    numbers = formats.no_numbers(len(package.nodes) - 1)
    lines = list(formats.node_lines(package.parts, [root], numbers))
    first = "" if order is None else "order %s\n" % " ".join(map(str, order))
    text = b"nodes %d\n" % len(lines) + b"".join(lines)
    return first + text.decode(), numbers[root]
