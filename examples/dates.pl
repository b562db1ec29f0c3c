# Tags each date that has room, over pipes. Words: DTD ROOT DOC
use strict; use warnings; use Encode; use IPC::Open2;
open2(my $out, my $in, -x "./pvtag" ? "./pvtag" : "pvtag", "session", @ARGV);
sub ask { print $in "$_[0]\n"; return <$out> // die "the session has ended\n" }
sub shown { ask("show") =~ /^show (\d+)/ or die "no document\n"; read $out, my $text, $1 + 1; substr $text, 0, -1 }
my ($item, @texts) = qr/<!--.*?-->|<[?].*?[?]>|<!\[CDATA\[.*?\]\]>|<!DOCTYPE[^>]*>/s;
my ($document, @at) = (decode("UTF-8", shown()), -1);
while ($document =~ /$item|(<\/[^>]*>)|(<(?:"[^"]*"|'[^']*'|[^"'>])*>)|([^<]+)/g) {
    my ($end, $start, $text) = ($1, $2, $3);
    if ($end) { pop @at; next }
    next if @at == 1 && !$start;
    $at[-1]++;
    push @texts, [join(".", @at), $text] if defined $text;
    push @at, -1 if $start && $start !~ /\/>$/;
}
for (reverse @texts) {
    my ($path, $text, @dates) = @$_;
    my ($owner, $kid) = $path =~ /(.+)\.(\d+)/;
    $text =~ s/&[^;]*;/\0/g;    # A reference is one unit.
    unshift @dates, [$-[0], $+[0], $&] while $text =~ /\d{1,2} [A-Z][a-z]+ \d{4}/g;
    for (@dates) {
        my ($from, $to, $date, $made) = (@$_, 0);
        my @lines = ($to < length $text ? "split $path $to" : (), $from > 0 ? "split $path $from" : ());
        push @lines, sprintf "wrap %s %d %d date", $owner, $kid + ($from > 0), $kid + ($from > 0) + 1;
        $made++ while $made < @lines && ask($lines[$made]) =~ /^ok/;
        if ($made == @lines) { $text = substr $text, 0, $from }
        else { ask("undo") for 1 .. $made; print STDERR "no room in $path: $date\n" }
    }
}
print shown();
