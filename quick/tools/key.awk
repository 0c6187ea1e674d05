# What the key of a program is made from, but for the kit and the level: the lines of crates.txt, the first file here, of
# the crates that `tops` names and of all that these are built on there, and, of the sums of files, which come next,
# those of their sources and of what makes the program `name`.
function add(names,    k, count, list) {
    count = split(names, list, " ")
    for (k = 1; k <= count; k++) {
        if (!(list[k] in below) || list[k] in seen) continue
        seen[list[k]]
        add(below[list[k]])
    }
}
NR == FNR {
    if (/^[a-z]/) { split($0, parts, ":"); split(parts[1], words, " "); below[words[1]] = parts[2]; lines[++count] = $0 }
    next
}
FNR == 1 {
    add(tops)
    for (k = 1; k <= count; k++) {
        split(lines[k], words, /[: ]/)
        if (words[1] in seen) print lines[k]
    }
}
{
    path = substr($0, 67)
    split(path, parts, "/")
    if (path == "quick/keep.sh" || path == "quick/" name ".rt.in" || path ~ /^quick\/tools\// ||
        parts[1] == "crates" && parts[2] in seen) print
}
