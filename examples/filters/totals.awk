# Bytes and flows by protocol. Lines that are not scaled yet count with their ratio.
{
    bytes = $2
    if ($4 == "raw")
        bytes = $2 * $3
    if ($7 == "tcp") {
        tcp = tcp + bytes
        tcps = tcps + 1
    } else {
        other = other + bytes
        others = others + 1
    }
}
END {
    print "tcp", tcps + 0, tcp + 0
    print "other", others + 0, other + 0
    print "all", NR, tcp + other
}
