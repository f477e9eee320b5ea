package Play;

# The play of a hand, which are the values of `pc`: each card goes to the seat that played it.
use strict;
use warnings;
use Exporter "import";
use Deal qw(@SEATS @SEAT_NAMES cards_of owner_of beats);
our @EXPORT_OK = qw(new_play read_cards tricks_of_declarer play_text);

# A play before the opening lead. Without a contract each trick is led by the seat that was dealt its first card.
sub new_play {
    my ($hands, $contract) = @_;
    my $declarer = $contract->{declarer};
    return {
        hands => $hands,
        trump => $contract->{denomination},
        declarer => $declarer,
        turn => defined $declarer ? ($declarer + 1) % 4 : undef,
        tricks => [],
        won => [0, 0], # by South and North, by West and East
        is_played => {},
    };
}

# The seat that plays a card, which is the one whose turn it is.
sub player_of {
    my ($play, $card) = @_;
    die "$card was played before\n" if $play->{is_played}{$card};
    my $owner = owner_of($play->{hands}, $card);
    my $turn = $play->{turn} // $owner // die "there is no contract, and it is not known who has $card\n";
    my $may_hold = defined $owner ? $owner == $turn : !$play->{hands}[$turn];
    die "it is the turn of $SEAT_NAMES[$turn], who was not dealt $card\n" unless $may_hold;
    return $turn;
}

# Gives a trick to its winner, who leads to the next. Without a contract neither is known.
sub end_trick {
    my ($play, $trick) = @_;
    $play->{turn} = undef;
    return unless defined $play->{trump};
    my ($cards, $winner) = @$trick{qw(cards leader)};
    for my $seat (0 .. 3) {
        $winner = $seat if beats($cards->[$seat], $cards->[$winner], $play->{trump});
    }
    $play->{won}[$winner % 2]++;
    $play->{turn} = $winner;
}

sub add_card {
    my ($play, $card) = @_;
    my $seat = player_of($play, $card);
    my $tricks = $play->{tricks};
    push @$tricks, { leader => $seat, cards => [], count => 0 } if !@$tricks || $tricks->[-1]{count} == 4;
    my $trick = $tricks->[-1];
    $trick->{cards}[$seat] = $card;
    $play->{is_played}{$card} = 1;
    $play->{turn} = ($seat + 1) % 4;
    end_trick($play, $trick) if ++$trick->{count} == 4;
}

# Adds the cards of a value, one or more, in the order in which they were played.
sub read_cards {
    my ($play, $value) = @_;
    my @cards = cards_of($value) or die "it has no card\n";
    add_card($play, $_) for @cards;
}

# The tricks that declarer's side took in a play to the end.
sub tricks_of_declarer {
    my ($play) = @_;
    return unless defined $play->{declarer} && $play->{won}[0] + $play->{won}[1] == 13;
    return $play->{won}[$play->{declarer} % 2];
}

# The Play section of PBN: a line for each trick, with its cards clockwise from the opening leader, whoever led to it,
# and `-` for a card that was not played. `tag` writes a tag pair.
sub play_text {
    my ($play, $tag) = @_;
    my @tricks = @{$play->{tricks}} or return "";
    my $first = $tricks[0]{leader};
    my @lines = map { my $cards = $_->{cards}; join " ", map { $cards->[($first + $_) % 4] // "-" } 0 .. 3 } @tricks;
    return join "", $tag->("Play", $SEATS[$first]), map { "$_\n" } @lines, "*";
}

1;
