package Pairs;

# Reads a LIN text: pairs of a tag, which is two characters, and a value, with a bar after each and blanks between
# pairs. The text is read in pieces, and no more than a pair is kept.
use strict;
use warnings;
use Exporter "import";
our @EXPORT_OK = qw(next_pair);

# How much is read at a time, the longest value that is kept whole, and how much is kept of a longer one: its end.
use constant { PIECE => 1 << 16, LONGEST => 1 << 20, KEPT => 1 << 8 };

# What may be between pairs. Old files end with a byte 1A.
use constant BLANKS => " \t\r\n\x1A";

# Tags with which lines begin. If the last line of a value is such a tag alone, the bar after the value is missing.
my $BEGINS_LINE = qr/(?:qx|vg|rs|pn|st|md|sv|mb|pc|mc|pg)/;

# What was read and not used yet, the line in which it begins, and the tag before it, if that was read with a value.
my ($ahead, $line, $tag_before) = ("", 1, undef);

# The text up to the next bar, and whether its beginning was dropped, or nothing if there is no further bar. The bar is
# passed over.
sub next_text {
    my ($bar, $from, $is_cut) = (-1, 0, 0);
    until (($bar = index $ahead, "|", $from) >= 0) {
        if (length $ahead > LONGEST) {
            $line += (substr $ahead, 0, -KEPT, "") =~ tr/\n//;
            $is_cut = 1;
        }
        $from = length $ahead;
        my $count = read STDIN, $ahead, PIECE, $from;
        die "reading failed\n" unless defined $count;
        return unless $count;
    }
    my $text = substr $ahead, 0, $bar + 1, "";
    chop $text;
    return ($text, $is_cut);
}

# The text without blanks at its end. A long text may have many blanks, which a pattern would try from each one on.
sub without_end {
    my ($text) = @_;
    chop $text while $text ne "" && index(BLANKS, substr $text, -1) >= 0;
    return $text;
}

# Counts the lines of a text. If its last line is a tag alone, that is the next tag, and the text has no bar.
sub has_bar {
    my ($text) = @_;
    my $end = without_end($text);
    $line += $text =~ tr/\n//;
    ($tag_before) = substr($end, rindex $end, "\n") =~ /^\n\s*($BEGINS_LINE)$/;
    return !defined $tag_before;
}

# The next pair, as a hash with its `line`, its `tag` and its `value`, or a `fault` in place of the value. What is no
# pair has an empty tag, a `text` and a `fault`. Nothing at the end.
sub next_pair {
    my ($tag) = defined $tag_before ? $tag_before : next_text();
    my $is_last = !defined $tag;
    ($tag, $ahead) = ($ahead, "") if $is_last;
    $tag =~ s/^\xEF\xBB\xBF// if $line == 1;
    $tag =~ s/^([${\BLANKS}]*)//;
    $line += $1 =~ tr/\n//;
    $tag = without_end($tag);
    return if $is_last && $tag eq "";
    my %pair = (tag => $tag, line => $line);
    if ($is_last || $tag !~ /^\S\S$/) {
        has_bar($tag);
        my $text = $is_last ? $tag : "$tag|";
        return { %pair, tag => "", text => $text, fault => "this is no tag, which is two characters and a bar" };
    }
    my ($value, $is_cut) = next_text();
    $ahead = "" unless defined $value;
    return { %pair, fault => "there is no bar after its value" } unless defined $value && has_bar($value);
    return { %pair, fault => "its value is too long" } if $is_cut;
    return { %pair, value => without_end($value =~ s/^\s+//r) };
}

1;
