# Writes the page of a site: a sheet, with a line more for each board whose place is in `places`, a script, and a policy
# that allows it. The variable `style` of the environment names a file with the style of those lines, `hash` is its
# SHA-256 in base64.
BEGIN {
    RS = "<"
    ORS = ""
    count = split(places, place, " ")
    for (i = 1; i <= count; i++) is_offered[place[i]] = 1
    offer = " numbers of this board can be checked:"
    press = " <button type=\"button\">Check</button> <span role=\"status\"></span></p>"
}
NR == 1 { print; next }
/^meta http-equiv="Content-Security-Policy"/ {
    sub(/style-src [^;]*/, "& '" "sha256-" hash "'; script-src 'self'; worker-src 'self'; connect-src 'self'")
}
/^\/head>/ {
    print "<meta name=\"generator\" content=\"ddfarm-site\">\n<style>"
    getline text <ENVIRON["style"]
    sub(/\n$/, "", text)
    print text "</style>\n<script type=\"module\" src=\"check.js\"></script>\n"
}
/^\/header>/ && count > 0 {
    print "<p class=\"evidence\" hidden>" 20 * count " of " 20 * count " numbers of this page can be checked:"
    print " <button type=\"button\">Check all</button> <span role=\"status\"></span></p>\n"
}
/^article>/ { number++ }
/^\/article>/ && number in is_offered {
    print "<p class=\"evidence\" hidden data-file=\"evidence/" number ".dde.gz\">20 of 20" offer press
}
{ print "<" $0 }
