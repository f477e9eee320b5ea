#!/usr/bin/env python3
"""Par by the definitions of crates/par, in a few lines. It is slow and plain, to compare with.

Usage: par.py DEALER VULNERABLE N..: the dealer's seat; None, NS, EW or All; the twenty tricks, by declarer N, S, E and
W, each in NT, S, H, D and C. It prints the score of North and South, and the par contracts with their sides."""
import sys
from functools import lru_cache

DENOMINATIONS = ["C", "D", "H", "S", "NT"]


def score(level, denomination, tricks, vulnerable):
    """The score of declarer's side by Law 77. The contract is doubled if it fails."""
    down = level + 6 - tricks
    if down > 0:
        if vulnerable:
            return -(300 * down - 100)
        return -[100, 300, 500][down - 1] if down <= 3 else -(300 * down - 400)
    a_trick = 20 if denomination < 2 else 30
    made = a_trick * level + (10 if denomination == 4 else 0)
    total = made - down * a_trick + ((500 if vulnerable else 300) if made >= 100 else 50)
    return total + {6: 750 if vulnerable else 500, 7: 1500 if vulnerable else 1000}.get(level, 0)


def par(tricks, vulnerable, dealer):
    """Takes tricks[side][denomination] of the better hand, vulnerable[side], and the dealer's side. Side 0 is NS."""
    final = [[(1, -1)[side] * score(bid // 5 + 1, bid % 5, tricks[side][bid % 5], vulnerable[side])
              for bid in range(35)] for side in (0, 1)]
    best = lambda side, scores: (max, min)[side](scores)

    @lru_cache(None)
    def after(side, bid):  # this side has bid it, and the others call
        return best(1 - side, [final[side][bid]] + [after(1 - side, higher) for higher in range(bid + 1, 35)])

    second = best(1 - dealer, [0] + [after(1 - dealer, bid) for bid in range(35)])
    value = best(dealer, [second] + [after(dealer, bid) for bid in range(35)])
    contracts = []
    for side in (0, 1):
        for denomination in range(5):
            for bid in range(denomination, 35, 5):
                stays = all(best(1 - side, [value, other]) == value for other in final[1 - side][bid + 1:])
                if final[side][bid] == value and stays and value != 0:
                    over = tricks[side][denomination] - bid // 5 - 7
                    contracts.append((bid, f"{('NS', 'EW')[side]} {bid // 5 + 1}{DENOMINATIONS[denomination]}"
                                      f"{'x' if over < 0 else ''}{f'{over:+d}' if over else ''}"))
                    break
    return value, [text for _, text in sorted(contracts, reverse=True)]


if __name__ == "__main__":
    dealer, vulnerable, numbers = sys.argv[1], sys.argv[2], list(map(int, sys.argv[3:]))
    rows = {seat: numbers[5 * i:5 * i + 5][::-1] for i, seat in enumerate("NSEW")}  # C D H S NT
    better = [[max(a, b) for a, b in zip(rows[x], rows[y])] for x, y in ("NS", "EW")]
    print(*par(better, [vulnerable in ("NS", "All"), vulnerable in ("EW", "All")], "NESW".index(dealer) % 2))
