# What a line of imports names, for the other programs of this folder: of a file of specs or proofs, or of a source file, where the line begins with `ghost`.

# The file of specs that it imports from, or "" where that isn't one that is written by hand.
function spec_file(line,    parts, path, n, i) {
    sub(/^ *((ghost|pub) )?use Rattle\./, "", line)
    sub(/\.\{.*/, "", line)
    sub(/ as .*/, "", line)
    n = split(line, parts, ".")
    if (parts[2] != "specs" || parts[3] == "declared") return ""
    path = "crates/" parts[1] "/specs"
    for (i = 3; i <= n; i++) path = path "/" parts[i]
    return path ".antt"
}

# Sets `words` to the words that it brings, and says how many: none where it names a file alone.
function imported(line, words) {
    if (line !~ /\.\{/) return 0
    sub(/^.*\.\{/, "", line)
    sub(/\}.*/, "", line)
    return split(line, words, /, */)
}
