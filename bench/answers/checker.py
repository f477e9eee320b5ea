"""Checks answers by the rules of docs/CERTIFICATES.md, apart from ddfarm's own checker: what `ddfarm check` has to
print."""
from texts import SEATS, SUITS, TOPS, TextFault, read_answer, read_graph

NOT_AN_ANSWER = ("ddfarm: first line is not a result line\n"
                 "  an answer begins with a line as solve prints it: result 9")
RANKS = "AKQJT98765432"


def side_of(seat):
    return "NS" if seat in "NS" else "EW"


def seat_after(seat, places):
    return SEATS[(SEATS.index(seat) + places) % 4]


def hands_of(layout):
    """The cards of each suit that each seat holds, of a Deal value."""
    first, hands = layout[0], layout[2:].split(" ")
    return {seat_after(first, place): hand.split(".") for place, hand in enumerate(hands)}


def matches(hands, suits):
    """Whether the hands match a pattern: equal lengths, and each owner holds the card of the suit in that place."""
    for place, suit in enumerate(suits):
        if [len(hands[seat][place]) for seat in SEATS] != suit.lengths:
            return False
        ranked = [seat for rank in RANKS for seat in SEATS if rank in hands[seat][place]]
        if "".join(ranked[:len(suit.owners)]) != suit.owners:
            return False
    return True


def cards_of(suits, seat, place):
    """The pattern cards of a seat in a suit."""
    suit = suits[place]
    tops = [SUITS[place] + TOPS[top] for top, owner in enumerate(suit.owners) if owner == seat]
    low = [SUITS[place] + "x"] if suit.lengths[SEATS.index(seat)] > len(tops) else []
    return tops + low


def legal(suits, seat, led):
    if led is not None and suits[SUITS.index(led)].lengths[SEATS.index(seat)] > 0:
        return cards_of(suits, seat, SUITS.index(led))
    return [card for place in range(4) for card in cards_of(suits, seat, place)]


def winners(trump, lead, cards):
    """The seats that may win four pattern cards."""
    deciding = trump if any(card[0] == trump for card in cards) else cards[0][0]
    played = [(card[1], seat_after(lead, place)) for place, card in enumerate(cards) if card[0] == deciding]
    tops = [part for part in played if part[0] != "x"]
    return {min(tops)[1]} if tops else {seat for _, seat in played}


def rest(suits, lead, cards):
    """What four pattern cards leave of a pattern, as lengths and owners."""
    left = [[list(suit.lengths), list(suit.owners)] for suit in suits]
    for place, card in enumerate(cards):
        lengths, owners = left[SUITS.index(card[0])]
        lengths[SEATS.index(seat_after(lead, place))] -= 1
        if card[1] != "x":
            owners[TOPS.index(card[1])] = ""
    return [(lengths, "".join(owners)) for lengths, owners in left]


def completed(lengths, owners):
    """The owners of a suit, and where one seat alone has low cards that seat for each of them."""
    lows = [length - owners.count(seat) for seat, length in zip(SEATS, lengths)]
    holders = [seat for seat, count in zip(SEATS, lows) if count > 0]
    return owners + holders[0] * sum(lows) if len(holders) == 1 else owners


def covers(version, suits, left):
    """Whether a child covers what is left; by version 2 what is left may be completed."""
    return all(suit.lengths == lengths
               and (owners if version == 1 else completed(lengths, owners)).startswith(suit.owners)
               for suit, (lengths, owners) in zip(suits, left))


def is_excused(suits, seat, branches, card):
    """Whether a higher card of the card's run has a branch."""
    if card[1] == "x":
        return False
    owners, last = suits[SUITS.index(card[0])].owners, TOPS.index(card[1])
    return any(card[0] + TOPS[first] in branches and owners[first:last + 1] == seat * (last + 1 - first)
               for first in range(last))


def leaf_fault(graph, node, cards, children):
    needs = {}
    for winner in winners(graph.trump, node.lead, cards):
        need = node.need - (side_of(winner) == graph.side)
        if need > 0:
            needs[winner] = need
    if [seat for seat, _ in children] != [seat for seat in SEATS if seat in needs]:
        return "4 LeafWinners"
    left = rest(node.suits, node.lead, cards)
    for seat, number in children:
        child = graph.nodes[number]
        if child.lead != seat:
            return "5 ChildLead"
        if child.need < needs[seat]:
            return "6 ChildNeed"
        if not covers(graph.version, child.suits, left):
            return "7 ChildPattern"
    return None


def tree_fault(graph, node, tree, cards):
    """The first fault from this place of a node's tree on."""
    if len(cards) == 4:
        return leaf_fault(graph, node, cards, tree[1]) if tree[0] == "leaf" else "8 TreeShape"
    seat = seat_after(node.lead, len(cards))
    allowed = legal(node.suits, seat, cards[0][0] if cards else None)
    if side_of(seat) == graph.side:
        if tree[0] != "own":
            return "8 TreeShape"
        if tree[1] not in allowed:
            return "1 CardNotLegal"
        return tree_fault(graph, node, tree[2], cards + [tree[1]])
    if tree[0] != "reply":
        return "8 TreeShape"
    branches = [card for card, _ in tree[1]]
    missing = [card for card in allowed if card not in branches]
    if any(graph.version == 1 or not is_excused(node.suits, seat, branches, card) for card in missing):
        return "2 BranchMissing"
    if any(card not in allowed for card in branches):
        return "3 BranchExtra"
    found = (tree_fault(graph, node, below, cards + [card]) for card, below in tree[1])
    return next((fault for fault in found if fault), None)


def part_fault(graph, hands, leader, trump, side, need):
    """The first fault of one of the two graphs."""
    if need > 0 and not graph.nodes:
        return "1 RootMissing"
    if need == 0 and graph.nodes:
        return "2 RootNeedless"
    root = graph.nodes[0] if graph.nodes else None
    rows = [(graph.trump == trump, "3 RootTrump"), (graph.side == side, "4 RootSide")]
    if root:
        rows += [(root.lead == leader, "5 RootLead"), (root.need == need, "6 RootNeed"),
                 (matches(hands, root.suits), "7 RootPattern")]
    for is_right, fault in rows:
        if not is_right:
            return fault
    for number, node in enumerate(graph.nodes):
        fault = tree_fault(graph, node, node.tree, [])
        if fault:
            return f"8 Node {number} {fault}"
    return None


def predict(layout, declarer, trump, answer):
    """What `ddfarm check` has to print of an answer's bytes, and the status that it has to end with."""
    parts = read_answer(answer)
    if parts is None:
        return NOT_AN_ANSWER, 2
    tricks, graphs = parts[0], []
    for name, text in zip(("declarer", "defenders"), parts[1:]):
        try:
            graphs.append(read_graph(text))
        except TextFault as fault:
            return f"refused {name} 10 Text {fault.words} line {fault.line}", 4
    hands = hands_of(layout)
    size = sum(len(cards) for cards in hands["N"])
    if tricks > size:
        return "refused 9 KTooLarge", 4
    sides = ("NS", "EW") if side_of(declarer) == "NS" else ("EW", "NS")
    rows = zip(("declarer", "defenders"), graphs, sides, (tricks, size - tricks))
    for name, graph, side, need in rows:
        fault = part_fault(graph, hands, seat_after(declarer, 1), trump, side, need)
        if fault:
            return f"refused {name} {fault}", 4
    return f"accepted {tricks}", 0
