# Reads a sheet by its elements, and prints a line for each number: its board's place on the sheet, the deal as evidence
# names it, the denomination, the declarer and the tricks, with tabs between.
BEGIN { RS = "<"; split("C D H S NT", trump, " ") }
{ text = substr($0, index($0, ">") + 1); sub(/\n$/, "", text) }
/^article>/ { place++; hands = 0 }
/^ul>/ { suits = 0; hand = ""; hands++ }
/^\/b>/ && hands <= 4 && !in_foot {
    gsub(/10/, "T", text)
    gsub(/–/, "", text)
    hand = hand (suits++ ? "." : "") text
}
/^\/ul>/ { deal = (hands > 1 ? deal " " : "N:") hand }
/^footer>/ { in_foot = 1 }
/^\/footer>/ { in_foot = 0 }
/^th scope="row">/ { declarer = text; column = 0 }
/^td>/ { level = text; column++ }
/^small>/ {
    gsub(/[()]/, "", text)
    printf "%d\t%s\t%s\t%s\t%d\n", place, deal, trump[column], declarer, text == "" ? level + 6 : text
}
