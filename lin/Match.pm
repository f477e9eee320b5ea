package Match;

# What a file says of all its hands: `vg` has the event and the teams, `rs` the results, `bn` the numbers of the boards.
use strict;
use warnings;
use Exporter "import";
use Deal qw(@SEATS);
our @EXPORT_OK = qw(new_match is_of_match read_of_match board_number result_of);

my %SCORING = (I => "IMP", B => "BAM"); # P is of pairs, by any scoring
my %SEAT = map { $SEATS[$_] => $_ } 0 .. 3;

my %READER = (vg => \&read_event, rs => \&read_results, bn => \&read_boards);

sub new_match { return {} }

sub is_of_match {
    my ($tag) = @_;
    return exists $READER{$tag};
}

# Adds a pair of the match. Dies with what is wrong with its value.
sub read_of_match {
    my ($match, $tag, $value) = @_;
    $READER{$tag}->($match, $value);
}

# Event, stage, scoring, first and last board, home team and its score, visitors and theirs. The event may have commas.
sub read_event {
    my ($match, $value) = @_;
    my ($event, $stage, $kind, $first, $teams) = $value =~ /^(.*?),([^,]*),([a-z]),(\d*),\d*,(.*)$/is;
    if (!defined $event) {
        ($match->{event}) = split /,/, $value;
        return;
    }
    @$match{qw(event stage scoring first)} = ($event, $stage, $SCORING{uc $kind}, $first);
    @$match{qw(home visitors)} = (split /,/, $teams)[0, 2];
}

sub read_boards {
    my ($match, $value) = @_;
    $match->{boards} = [map { /(\d+)/ ? $1 : "" } split /,/, $value];
}

# A result, as 4SN+1 or 3NWx-2: the contract and its declarer, and how many tricks more than it needs were taken.
sub read_result {
    my ($text) = @_;
    return { text => "Pass" } if $text =~ /^P(ASS)?$/;
    my ($level, $denomination, $declarer, $risk, $more) =
        $text =~ /^([1-7])(NT?|[SHDC])([NESW])(X{0,2})(=|[+-]\d\d?)$/ or return;
    $denomination =~ s/^N$/NT/;
    my $tricks = 6 + $level + ($more eq "=" ? 0 : $more);
    return if $tricks < 0 || $tricks > 13;
    return {
        text => "$level$denomination$risk",
        denomination => $denomination,
        declarer => $SEAT{$declarer},
        tricks => $tricks,
    };
}

# The results of a value of `rs`: for each board that of the open room and that of the closed room.
sub read_results {
    my ($match, $value) = @_;
    my @texts = map { s/\s//gr } split /,/, uc $value;
    $match->{results} = [map { read_result($_) // {} } @texts];
    my ($wrong) = grep { $texts[$_] ne "" && !$match->{results}[$_]{text} } 0 .. $#texts;
    die "its result " . ($wrong + 1) . " has another form than 4SN+1\n" if defined $wrong;
}

# The place among the match's boards of the board that `qx` numbers, if the match says which is the first.
sub place_of {
    my ($match, $number) = @_;
    my $first = $match->{first} // "";
    return unless defined $number && $first ne "" && $number >= $first;
    return $number - $first;
}

# The number of the board that `qx` numbers: another one if `bn` says so.
sub board_number {
    my ($match, $number) = @_;
    my $place = place_of($match, $number);
    my $board = defined $place ? $match->{boards}[$place] : undef;
    return defined $board && $board ne "" ? $board : $number;
}

# The result of the board that `qx` numbers, in the room `o` or `c`.
sub result_of {
    my ($match, $room, $number) = @_;
    my $place = place_of($match, $number) // return;
    my $result = $match->{results}[2 * $place + ($room eq "c")];
    return $result && $result->{text} ? $result : undef;
}

1;
