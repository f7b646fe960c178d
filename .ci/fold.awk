# Breaks each line of more than 100 characters between words: for .ci/contracts, .ci/definitions and .ci/model. What goes on stands under the text of
# an item of a list, and deeper than the line of a block. A row of a table stays whole. LC_ALL is C, so bytes are counted as characters by hand.

function blanks(n,    s) { s = ""; while (n-- > 0) s = s " "; return s }

# How many characters it has, of UTF-8.
function width(s) { gsub(/[\200-\277]/, "", s); return length(s) }

width($0) <= 100 || /^\|/ { print; next }

{
    match($0, /^ *(- )?/)
    line = substr($0, 1, RLENGTH)
    rest = blanks(RLENGTH)
    if (rest ~ /^    / && line !~ /-/) rest = rest blanks(8)
    count = split(substr($0, RLENGTH + 1), words, " ")
    filled = 0
    for (i = 1; i <= count; i++) {
        if (filled && width(line) + 1 + width(words[i]) > 100) {
            print line
            line = rest
            filled = 0
        }
        line = line (filled ? " " : "") words[i]
        filled = 1
    }
    print line
}
