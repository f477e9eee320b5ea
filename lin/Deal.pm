package Deal;

# The deal of a hand, which is the value of `md`: 3SAKQH2..,S..,S..,S.. has the dealer, 1 for South to 4 for East, and
# the hands from South clockwise. Seats are numbers from 0, South, clockwise, and cards are texts such as SA.
use strict;
use warnings;
use Exporter "import";
our @EXPORT_OK = qw(@SEATS @SEAT_NAMES cards_of read_deal owner_of beats deal_text);

our @SEATS = qw(S W N E);
our @SEAT_NAMES = qw(South West North East);
my @SUITS = qw(S H D C);
my @RANKS = qw(A K Q J T 9 8 7 6 5 4 3 2);
my %HEIGHT = map { $RANKS[$_] => @RANKS - $_ } 0 .. $#RANKS;

# The cards that a text names: suits, each with its ranks, as SAKH92. The ten is T or 10.
sub cards_of {
    my ($text) = @_;
    my ($suit, @cards);
    $text = uc($text) =~ s/\s//gr =~ s/10/T/gr;
    for my $letter (split //, $text) {
        if ($letter =~ /[SHDC]/) {
            $suit = $letter;
        } elsif (defined $suit && exists $HEIGHT{$letter}) {
            push @cards, "$suit$letter";
        } else {
            die "it has another character than those of suits and ranks\n";
        }
    }
    return @cards;
}

# The dealer and the hands that a value says: each hand has its 13 cards as keys, or is undef if it isn't known. If one
# hand is missing, it has the cards that the others have not.
sub read_deal {
    my ($value) = @_;
    my ($dealer, $rest) = $value =~ /^([1-4])(.*)$/s or die "it does not begin with a dealer from 1 to 4\n";
    my @texts = split /,/, $rest;
    die "it has more than four hands\n" if @texts > 4;
    my %others = map { my $suit = $_; map { ("$suit$_" => 1) } @RANKS } @SUITS;
    my @hands;
    for my $seat (0 .. 3) {
        my @cards = cards_of($texts[$seat] // "") or next;
        delete $others{$_} or die "it has the card $_ twice\n" for @cards;
        die "$SEAT_NAMES[$seat] has " . @cards . " cards\n" if @cards != 13;
        $hands[$seat] = { map { $_ => 1 } @cards };
    }
    my @missing = grep { !$hands[$_] } 0 .. 3;
    $hands[$missing[0]] = \%others if @missing == 1;
    return ($dealer - 1, \@hands);
}

# The seat of the known hand that was dealt a card, if there is one.
sub owner_of {
    my ($hands, $card) = @_;
    return (grep { $hands->[$_] && $hands->[$_]{$card} } 0 .. 3)[0];
}

# Whether a card of a trick beats the best one of some others, the card led among them. Without trumps `trump` is NT.
sub beats {
    my ($card, $best, $trump) = @_;
    my ($suit, $best_suit) = map { substr $_, 0, 1 } $card, $best;
    return $suit eq $trump if $suit ne $best_suit;
    return $HEIGHT{substr $card, 1} > $HEIGHT{substr $best, 1};
}

sub hand_text {
    my ($hand) = @_;
    return "-" unless $hand;
    return join ".", map { my $suit = $_; join "", grep { $hand->{"$suit$_"} } @RANKS } @SUITS;
}

# The deal as a Deal value (PBN 2.1, 3.4.11), from the dealer clockwise.
sub deal_text {
    my ($dealer, $hands) = @_;
    return "$SEATS[$dealer]:" . join " ", map { hand_text($hands->[($dealer + $_) % 4]) } 0 .. 3;
}

1;
