# Prints the crates that a crate of crates.txt needs, lowest first, and the crate itself: awk -v top=NAME -f tools/below.awk crates.txt
{
    sub(/#.*/, "")
    if (split($0, sides, ":") < 2) next
    # a static library has its kind after its name
    split(sides[1], words, " ")
    name = words[1]
    names[++count] = name
    below[name] = sides[2]
}
END {
    wanted[top] = 1
    for (found = 1; found; ) {
        found = 0
        for (it in below) {
            if (!(it in wanted)) continue
            many = split(below[it], words, " ")
            for (i = 1; i <= many; i++) if ((words[i] in below) && !(words[i] in wanted)) found = wanted[words[i]] = 1
        }
    }
    # what stands on nothing that isn't printed yet comes next
    for (left = 1; left; ) {
        left = 0
        for (i = 1; i <= count; i++) {
            it = names[i]
            if (!(it in wanted) || (it in printed)) continue
            many = split(below[it], words, " ")
            ready = 1
            for (j = 1; j <= many; j++) if ((words[j] in below) && !(words[j] in printed)) ready = 0
            if (ready) { print it; left = printed[it] = 1 }
        }
    }
}
