"""Rewrites answers as version 2."""
from checker import is_excused, seat_after
from texts import read_answer, read_graph, tree_text


def without_excused(node, tree, seat):
    """A node's tree without the branches that version 2 can do without."""
    following = seat_after(seat, 1)
    if tree[0] == "own":
        return "own", tree[1], without_excused(node, tree[2], following)
    if tree[0] == "leaf":
        return tree
    branches = [card for card, _ in tree[1]]
    return "reply", [(card, without_excused(node, below, following)) for card, below in tree[1]
                     if not is_excused(node.suits, seat, branches, card)]


def rewritten(text):
    """A graph's text as version 2, without the branches that may be left out."""
    lines = text.decode().split("\n")
    lines[0] = "DDC 2"
    for number, node in enumerate(read_graph(text).nodes, 4):
        head = lines[number].split(" ")[:6]
        lines[number] = " ".join([*head, tree_text(without_excused(node, node.tree, node.lead))])
    return "\n".join(lines).encode()


def as_version_two(answer):
    """An answer with both graphs rewritten."""
    tricks, declarers, defenders = read_answer(answer)
    return b"result %d\n" % tricks + rewritten(declarers) + b"\n" + rewritten(defenders)
