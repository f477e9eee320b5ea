"""Turns: boards in pieces, so that two programs that are compared run one after the other within seconds. A machine may
be 2.5 times slower for minutes at a time."""
import statistics


def pieces_of(tables, size):
    """The tables by layout, in pieces of so many."""
    layouts = list(tables)
    for begin in range(0, len(layouts), size):
        yield {layout: tables[layout] for layout in layouts[begin:begin + size]}


def write_boards(folder, tables):
    """Writes the boards for the program, and their deals for DDS."""
    games = "\n".join(f'[Board "{number}"]\n[Deal "{layout}"]\n' for number, layout in enumerate(tables, 1))
    (folder / "boards.pbn").write_text(games)
    (folder / "deals").write_text("\n".join(tables) + "\n")


def ratio_of(turns):
    """Our seconds by those of the peer, over some turns."""
    return sum(ours for ours, _ in turns) / sum(peers for _, peers in turns)


def told(turns):
    """What is printed of turns, each the seconds of ours and of the peer: the ratio over all, in the tenth of the turns
    that the peer finds hardest and in the easiest tenth, and how far the ratios of turns spread."""
    by_peer = sorted(turns, key=lambda turn: turn[1])
    tenth = max(1, len(turns) // 10)
    each = sorted(ours / peers for ours, peers in turns)
    tenths = [ratio_of(by_peer[begin:begin + tenth]) for begin in range(0, len(turns), tenth)]
    return (f"{ratio_of(turns):.3f} over all, {ratio_of(by_peer[-tenth:]):.3f} in the hardest tenth, "
            f"{ratio_of(by_peer[:tenth]):.3f} in the easiest, {max(tenths):.3f} at most in a tenth; by the turn "
            f"{each[0]:.2f} to {each[-1]:.2f}, {statistics.median(each):.3f} in the middle, {len(turns)} turns")
