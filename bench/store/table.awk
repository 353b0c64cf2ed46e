# Of the least times: microseconds, and how many times those of C SQLite they are.
function least(key, time) { if (!(key in best) || time < best[key]) best[key] = time }
!(($1 " " $2 " " $3) in known) { known[$1 " " $2 " " $3] = 1; order[++count] = $1 " " $2 " " $3 }
{
    of = $1 " " $2 " " $3
    if ($4 == "C") { for (i = 1; i <= 3; i++) least(of " C " i, $(4 + i)) }
    else if (NF == 6) { for (i = 1; i <= 3; i++) least(of " " i, $(3 + i)) }
    else { print; failed = 1 }
}
END {
    split("new again newer", words, " ")
    for (n = 1; n <= count; n++)
        for (i = 1; i <= 3; i++) {
            ours = best[order[n] " " i]
            c = best[order[n] " C " i]
            printf "%-18s %-6s %9d us, C %9d us: %.1f times\n", order[n], words[i], ours, c, ours / c
        }
    for (n = 1; n <= count; n++) {
        split(order[n], part, " ")
        for (i = 1; i <= 3; i++)
            if (part[2] == 40000)
                printf "%s %s: %.1f times from 10000 to 40000\n", part[3], words[i], best[order[n] " " i] / best[part[1] " 10000 " part[3] " " i]
        printf "%s: again takes %.2f times as long as the first time\n", order[n], best[order[n] " 2"] / best[order[n] " 1"]
    }
    exit failed
}
