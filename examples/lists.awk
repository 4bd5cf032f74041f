# Even lists of segments for parts, one on each line, from a summary: awk -v parts=4 -f examples/lists.awk SUMMARY > lists.txt
# What isn't in a list yet and has the most goes to the list that has the least. The last list has the VIDs of no count and
# none, too.
$1 == "segment" && $2 != "none" { load[$2] += $NF; left += !($2 in done); done[$2] }
END {
    for (vid in done)
        waits[vid]
    while (left-- > 0) {
        most = ""
        for (vid in waits)
            if (most == "" || load[vid] > load[most] || load[vid] == load[most] && vid + 0 < most + 0)
                most = vid
        delete waits[most]
        least = 1
        for (part = 2; part <= parts; part++)
            if (sum[part] + 0 < sum[least] + 0)
                least = part
        sum[least] += load[most]
        list[least] = list[least] most ","
    }
    for (vid = 1; vid <= 4095; vid++) {
        if (vid < 4095 && !(vid in done)) {
            if (!first)
                first = vid
        } else if (first) {
            list[parts] = list[parts] first (first < vid - 1 ? "-" vid - 1 : "") ","
            first = 0
        }
    }
    list[parts] = list[parts] "none,"
    for (part = 1; part <= parts; part++)
        if (list[part] != "")
            print substr(list[part], 1, length(list[part]) - 1)
}
