# Estimates a build by the crates' figures. The first file has a line for each crate, the lowest first: its name,
# the seconds that its proof takes one processor, and what it uses. The second is what rt ci said.
# It prints how many seconds the rest takes, how many all took that wasn't kept, and how many crates are done.

# the longest chain of crates that use one another, or the work of all processors
function time(    i, j, parts, part, most, chain, longest, sum) {
    for (i = 1; i <= count; i++) {
        parts = split(lines[i], part, " ")
        most = 0
        for (j = 3; j <= parts; j++)
            if (chain[part[j]] > most) most = chain[part[j]]
        chain[part[1]] = most + seconds[part[1]]
        if (chain[part[1]] > longest) longest = chain[part[1]]
        sum += seconds[part[1]] / lanes
    }
    return int(sum > longest ? sum : longest)
}

NR == FNR { lines[++count] = $0; seconds[$1] = $2 }
/^rt: [a-z0-9_]+ is kept/ { seconds[$2] = 0; done++ }
/^rt: [a-z0-9_]+ proved$/ { proved[$2] = 1; done++ }
END {
    all = time()
    for (name in proved) seconds[name] = 0
    print time(), all, done + 0
}
