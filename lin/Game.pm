package Game;

# A hand as a game of PBN 2.1: the fifteen tags of every game, the tags of its match, the auction and the play.
use strict;
use warnings;
use Exporter "import";
use Deal qw(@SEATS deal_text);
use Auction qw(auction_text);
use Hand qw(names_of final_contract final_tricks);
use Match qw(board_number);
use Play qw(play_text);
our @EXPORT_OK = qw(game_text);

# A line of PBN has 255 characters at most, of which a tag's name, its brackets and its quotes take up to 20.
use constant MOST_OF_VALUE => 230;

# A value as a string of PBN. It has no quote, which would end it, no backslash, which some programs read as an escape,
# no control characters, and no `#` at its beginning, which would stand for the value of the game before. A value that
# isn't known is `?`.
sub string_of {
    my ($value) = @_;
    $value =~ tr/\x00-\x1F\x7F/ /;
    $value =~ tr{"\\}{'/};
    $value =~ s/^[ #]+//;
    # A character of UTF-8 is not cut.
    $value = substr($value, 0, MOST_OF_VALUE) =~ s/[\xC0-\xFF][\x80-\xBF]*$//r if length $value > MOST_OF_VALUE;
    $value =~ s/ +$//;
    return $value eq "" ? "?" : $value;
}

sub tag {
    my ($name, $value) = @_;
    return "[$name \"" . string_of($value // "") . "\"]\n";
}

# The same, but only if the value is known.
sub tag_if_known {
    my ($name, $value) = @_;
    return string_of($value // "") eq "?" ? "" : tag($name, $value);
}

# The name of the board: the number in its title, or the one of `qx`, or the title.
sub board_of {
    my ($hand) = @_;
    my $title = $hand->{title} // "";
    return $1 if $title =~ /^board[\s#]*(\d\w*)/i;
    return board_number(@$hand{qw(match number)}) // $title;
}

# Declarer, contract and result. A board that was passed out has neither declarer nor result.
sub outcome_tags {
    my ($hand) = @_;
    my $contract = final_contract($hand) // {};
    my $declarer = $contract->{declarer};
    return qq([Declarer ""]\n[Contract "Pass"]\n[Result ""]\n) if $contract->{text} && !defined $declarer;
    return tag("Declarer", defined $declarer ? $SEATS[$declarer] : undef) . tag("Contract", $contract->{text})
        . tag("Result", final_tricks($hand));
}

# The game, with an empty line after it.
sub game_text {
    my ($hand) = @_;
    my ($match, %name) = $hand->{match};
    @name{@SEATS} = names_of($hand);
    my %room = (o => "Open", c => "Closed");
    return join "",
        tag("Event", $match->{event}), tag("Site"), tag("Date"), tag("Board", board_of($hand)),
        tag("West", $name{W}), tag("North", $name{N}), tag("East", $name{E}), tag("South", $name{S}),
        tag("Dealer", $SEATS[$hand->{dealer}]), tag("Vulnerable", $hand->{vulnerable}),
        tag("Deal", deal_text(@$hand{qw(dealer hands)})), tag("Scoring", $match->{scoring}), outcome_tags($hand),
        tag_if_known("HomeTeam", $match->{home}), tag_if_known("Room", $room{$hand->{room}}),
        tag_if_known("Stage", $match->{stage}), tag_if_known("VisitTeam", $match->{visitors}),
        @{$hand->{auction}{calls}} ? auction_text($hand->{auction}, \&tag) : "",
        $hand->{play} ? play_text($hand->{play}, \&tag) : "",
        "\n";
}

1;
