package Hand;

# A hand of a LIN text, as its pairs come: where it was played and by whom, the deal, the auction, the play, the claim.
use strict;
use warnings;
use Exporter "import";
use Deal qw(read_deal);
use Auction qw(new_auction read_calls read_explanation contract_of);
use Match qw(result_of);
use Play qw(new_play read_cards tricks_of_declarer);
our @EXPORT_OK = qw(new_hand has_begun is_ended_by read_of_hand names_of final_contract final_tricks);

my %VULNERABLE = (O => "None", 0 => "None", "-" => "None", N => "NS", E => "EW", B => "All", "" => "?");

# Tags before the calls and cards of a hand, and those of calls and cards.
my %IS_OF_HEAD = map { $_ => 1 } qw(pn ah md sv);
my @OF_PLAY = qw(mb an pc mc);

my %READER = (
    qx => \&read_place,
    pn => sub { my ($hand, $value) = @_; $hand->{names} = [split /,/, $value] },
    ah => sub { my ($hand, $value) = @_; $hand->{title} = $value },
    md => \&read_hands,
    sv => \&read_vulnerability,
    mb => sub { my ($hand, $value) = @_; read_calls($hand->{auction}, $value) },
    an => sub { my ($hand, $value) = @_; read_explanation($hand->{auction}, $value) },
    pc => \&read_play,
    mc => \&read_claim,
);

# A hand before its first pair.
sub new_hand {
    my ($match) = @_;
    return { match => $match, room => "", has => {}, vulnerable => "?" };
}

# Whether the deal, a call or a card has come. The keys of `has` are the tags that have come.
sub has_begun {
    my ($hand) = @_;
    return grep { $hand->{has}{$_} } "md", @OF_PLAY;
}

# Whether a pair with this tag is of another hand. Without `qx` a hand ends where its head begins again.
sub is_ended_by {
    my ($hand, $tag) = @_;
    return 1 if $tag eq "qx" || $tag eq "vg";
    return $IS_OF_HEAD{$tag} && grep { $hand->{has}{$_} } $tag, @OF_PLAY;
}

# Adds a pair if its tag is one that is read. Dies with what is wrong with its value.
sub read_of_hand {
    my ($hand, $tag, $value) = @_;
    my $reader = $READER{$tag} or return;
    die "there is no deal (md) before it\n" if !$hand->{hands} && grep { $tag eq $_ } @OF_PLAY;
    $reader->($hand, $value);
}

# The room, `o` for open and `c` for closed, and the number of the board.
sub read_place {
    my ($hand, $value) = @_;
    @$hand{qw(room number)} = (lc $1, $2) if $value =~ /^([oc]?)(\d{1,9})(?!\d)/i;
}

sub read_hands {
    my ($hand, $value) = @_;
    @$hand{qw(dealer hands)} = read_deal($value);
    $hand->{auction} = new_auction($hand->{dealer});
}

sub read_vulnerability {
    my ($hand, $value) = @_;
    $hand->{vulnerable} = $VULNERABLE{uc $value} // die "it is none of o, n, e and b\n";
}

sub read_play {
    my ($hand, $value) = @_;
    my $contract = final_contract($hand);
    die "the auction is not over before it\n" if @{$hand->{auction}{calls}} && !contract_of($hand->{auction});
    die "there is no play after four passes\n" if $contract && !defined $contract->{declarer};
    $hand->{play} //= new_play($hand->{hands}, $contract);
    read_cards($hand->{play}, $value);
}

# A claim says how many tricks declarer's side has in the end.
sub read_claim {
    my ($hand, $value) = @_;
    die "it is no number of tricks from 0 to 13\n" unless $value =~ /^\d\d?$/ && $value <= 13;
    $hand->{claim} = 0 + $value;
}

# The contract by the auction, or else by the match's results.
sub final_contract {
    my ($hand) = @_;
    my $contract = $hand->{auction} && contract_of($hand->{auction});
    return $contract // result_of(@$hand{qw(match room number)});
}

sub is_same {
    my ($contract, $other) = @_;
    return $contract->{text} eq $other->{text} && ($contract->{declarer} // "") eq ($other->{declarer} // "");
}

# The tricks of declarer's side: those of the match's results if they have this contract, since these are corrected when
# a claim was noted wrongly; or else those of the cards, or of the claim.
sub final_tricks {
    my ($hand) = @_;
    my $contract = final_contract($hand);
    my $result = result_of(@$hand{qw(match room number)});
    return $result->{tricks} if $result && is_same($contract, $result);
    return ($hand->{play} && tricks_of_declarer($hand->{play})) // $hand->{claim};
}

# The names from South clockwise. Of eight the last four are those of the closed room. Four that stand before the hands
# are those of the open room.
sub names_of {
    my ($hand) = @_;
    my @names = @{$hand->{names} // $hand->{match}{names} // []};
    return @names[0 .. 3] if $hand->{room} ne "c";
    return @names[4 .. 7] if @names > 4;
    return $hand->{names} ? @names[0 .. 3] : ();
}

1;
