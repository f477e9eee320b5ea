package Auction;

# The auction of a hand, which are the values of `mb` and `an`: the calls, what was said of them, and the contract.
use strict;
use warnings;
use Exporter "import";
use Deal qw(@SEATS);
our @EXPORT_OK = qw(new_auction read_calls read_explanation contract_of auction_text);

my @DENOMINATIONS = qw(C D H S NT);
my %PLACE = map { $DENOMINATIONS[$_] => $_ } 0 .. $#DENOMINATIONS;
my %CALLED = (P => "Pass", D => "X", X => "X", R => "XX", XX => "XX");

# PBN numbers the notes of a section from 1 to 32.
use constant MOST_NOTES => 32;

# An auction before its first call.
sub new_auction {
    my ($dealer) = @_;
    return {
        dealer => $dealer,
        calls => [],
        passes => 0, # since the last other call
        bid => "", # the last one, with its bidder
        bidder => undef,
        risk => "", # of that bid: X or XX
        first => [{}, {}], # who named a denomination first, of South and North, and of West and East
    };
}

# An auction without a bid ends after four passes, another one after three.
sub is_over {
    my ($auction) = @_;
    return $auction->{passes} == ($auction->{bid} eq "" ? 4 : 3);
}

sub height {
    my ($bid) = @_;
    return $bid eq "" ? -1 : 5 * substr($bid, 0, 1) + $PLACE{substr $bid, 1};
}

# Whether a bid, a double or a redouble is allowed (Laws 18 and 19).
sub is_allowed {
    my ($auction, $call, $seat) = @_;
    return height($call) > height($auction->{bid}) if $call !~ /^X/;
    return 0 if $auction->{bid} eq "";
    my $is_own = $seat % 2 == $auction->{bidder} % 2;
    return $call eq "X" ? !$is_own && $auction->{risk} eq "" : $is_own && $auction->{risk} eq "X";
}

sub add_call {
    my ($auction, $call, $is_alerted) = @_;
    die "the auction is over before it\n" if is_over($auction);
    my $seat = ($auction->{dealer} + @{$auction->{calls}}) % 4;
    die "the call is not allowed here\n" unless $call eq "Pass" || is_allowed($auction, $call, $seat);
    push @{$auction->{calls}}, { name => $call, note => $is_alerted ? "alert" : "" };
    $auction->{passes} = $call eq "Pass" ? $auction->{passes} + 1 : 0;
    if ($call =~ /^X/) {
        $auction->{risk} = $call;
    } elsif ($call ne "Pass") {
        @$auction{qw(bid bidder risk)} = ($call, $seat, "");
        $auction->{first}[$seat % 2]{substr $call, 1} //= $seat;
    }
}

# Adds the calls of a value, one or more: bids, p, d and r, with a `!` after one that is alerted.
sub read_calls {
    my ($auction, $value) = @_;
    my $text = uc($value) =~ s/\s//gr;
    die "it has no call\n" if $text eq "";
    while ($text ne "") {
        $text =~ s/^(?:([1-7])(?:N(T?)|([SHDC]))|(XX|[PDXR]))(!*)// or die "this is no call: p, d, r or a bid as 1N\n";
        my $call = defined $4 ? $CALLED{$4} : $1 . ($3 // "NT");
        add_call($auction, $call, $5 ne "");
    }
}

# Adds what is said of the last call. A mere `!` is an alert.
sub read_explanation {
    my ($auction, $value) = @_;
    my $call = $auction->{calls}[-1] or die "there is no call before it\n";
    $call->{note} = $value =~ /^!+$/ ? "alert" : $value unless $value eq "";
}

# The contract of an auction that is over: its text, and unless all passed its denomination, and the seat of declarer,
# who named it first on that side.
sub contract_of {
    my ($auction) = @_;
    return unless is_over($auction);
    return { text => "Pass" } if $auction->{bid} eq "";
    my $denomination = substr $auction->{bid}, 1;
    return {
        text => "$auction->{bid}$auction->{risk}",
        denomination => $denomination,
        declarer => $auction->{first}[$auction->{bidder} % 2]{$denomination},
    };
}

# The Auction section of PBN: the calls by rounds, `*` if it is not over, and the notes, each text once. `tag` writes a
# tag pair.
sub auction_text {
    my ($auction, $tag) = @_;
    my (@words, @notes, %number);
    for my $call (@{$auction->{calls}}) {
        my $note = $call->{note};
        if ($note ne "" && !$number{$note} && @notes < MOST_NOTES) {
            push @notes, $note;
            $number{$note} = @notes;
        }
        push @words, $call->{name} . ($number{$note} ? " =$number{$note}=" : "");
    }
    push @words, "*" unless is_over($auction);
    my $text = $tag->("Auction", $SEATS[$auction->{dealer}]);
    while (my @round = splice @words, 0, 4) {
        $text .= "@round\n";
    }
    return $text . join "", map { $tag->("Note", "$number{$_}:$_") } @notes;
}

1;
