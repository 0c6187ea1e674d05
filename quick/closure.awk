# Of crates.txt the crates and libraries that `tops` names, and all that they stand on in the repository, one a line.
BEGIN { FS = ":" }
function add(name,    k, count, names) {
    if (!(name in below) || name in seen) return
    seen[name]
    print name
    count = split(below[name], names, " ")
    for (k = 1; k <= count; k++) add(names[k])
}
/^[a-z]/ { split($1, words, " "); below[words[1]] = $2 }
END { count = split(tops, top, " "); for (k = 1; k <= count; k++) add(top[k]) }
