# A journal as a message sequence chart in mscgen's language: the base station and the terminal, each block with its PDUs
# as an arrow, crossed out where it was lost, STATUS and timers, what goes up, and a handover as a bar.
#
#   awk -f docs/ladder.awk < examples/loss.journal | mscgen -T svg -o loss.svg

BEGIN {
    print "msc {"
    print "  hscale = \"1.6\", wordwraparcs = on;"
    print "  nb [label=\"base station (nb)\"], ue [label=\"terminal (ue)\"];"
}

function octets(n) { return n == 1 ? "1 octet" : n " octets" }

function row(text) { print "  " text ";" }

# The bars of the TTIs since the last row: one each where something happened, and one for those in which nothing did.
function open_tti() {
    if (quiet > 1) row(sprintf("--- [label=\"TTI %d to %d: nothing\"]", now - quiet, now - 1))
    else if (quiet == 1) row(sprintf("--- [label=\"TTI %d: nothing\"]", now - 1))
    if (quiet >= 0 && pending) row(sprintf("--- [label=\"TTI %d\"]", now))
    quiet = 0
    pending = 0
}

function at(node, shape, text, colour) {
    open_tti()
    row(sprintf("%s %s %s [label=\"%s\"%s]", node, shape, node, text, colour ? ", textbgcolour=\"" colour "\"" : ""))
}

function rest(from,    text, i) {
    text = $from
    for (i = from + 1; i <= NF; i++) text = text " " $i
    return text
}

# What a block carries, kept by its direction and process, since HARQ sends it again without showing it.
function carry(text) {
    held[way, process] = held[way, process] (held[way, process] == "" ? "" : "\\n") text
}

$1 == "tti" {
    if (pending) quiet++
    now = $2
    pending = 1
}
$1 == "sleep" { at("ue", "note", "sleeps") }
$1 == "line" && $3 == "handover" {
    open_tti()
    row("nb abox ue [label=\"handover\", textbgcolour=\"#ffe0a0\"]")
}
$1 == "line" && $3 == "forge" { at($4, "rbox", "a forged block arrives") }
$1 == "take" { at($2, "box", sprintf("RLC takes an SDU on %s: COUNT %s, %s", $3, $4, octets($5))) }
$1 == "report" { at($2, "box", sprintf("RLC takes a PDCP status report on %s", $3)) }
$1 == "wait" { at($2, "note", sprintf("%s waits: %s", $3, $4)) }
$1 == "start" || $1 == "stop" { at($2, "note", $1 "s " $4 " timer of " $3) }
$1 == "expired" { at($2, "note", $4 " timer of " $3 " expires", "#ffd0d0") }
$1 == "fail" { at($2, "rbox", sprintf("PDU %s of %s: limit of retransmissions", $4, $3), "#ff9090") }
$1 == "drop" { at($2, "note", sprintf("%s drops: %s", $3, $4)) }
$1 == "discard" { at($2, "note", sprintf("%s discards an SDU", $3)) }
$1 == "bad" && ($2 == "nb" || $2 == "ue") { at($2, "note", "refuses: " rest(3), "#ffd0d0") }
$1 == "up" { at($2, "rbox", sprintf("up on %s: %s", $3, octets(length($4) / 2)), "#d0f0d0") }
$1 == "loop" { at("ue", "note", sprintf("test loop submits on %s", $2)) }
$1 == "block" {
    open_tti()
    way = $2
    process = $3
    version = $4 == "re" ? sprintf("again, version %s", $5) : "new"
    if ($4 == "new") held[way, process] = ""
}
$1 == "mac" && ($2 == "bsr" || $2 == "phr" || $2 == "crnti" || $2 == "ta") { carry(rest(2)) }
$1 == "rlc" && $2 == "status" { carry(sprintf("STATUS: ACK %s%s", $3, $4 == "-" ? "" : ", NACK " $4)) }
$1 == "rlc" && $2 == "am" { carry(sprintf("AMD %s%s", $3, $4 == "1" ? ", poll" : "")) }
$1 == "rlc" && $2 == "seg" { carry(sprintf("AMD %s from octet %s%s", $3, $7, $4 == "1" ? ", poll" : "")) }
$1 == "rlc" && $2 == "um" { carry(sprintf("UMD %s", $3)) }
$1 == "rlc" && $2 == "tm" { carry("transparent PDU") }
$1 == "air" {
    from = $2 == "dl" ? "nb" : "ue"
    to = $2 == "dl" ? "ue" : "nb"
    if ($3 == "none" && $4 == "-") {
        at(to, "note", "the grant is missed")
        next
    }
    carried = held[$2, process] == "" ? "padding" : held[$2, process]
    label = sprintf("process %s, %s%s\\n%s", process, version, $3 == "dup" ? ", held already" : "", carried)
    if (($3 == "got" || $3 == "dup") && $4 == "nack") label = label "\\n(read as a NACK)"
    arrow = ($3 == "bad" || $3 == "none") ? "-x" : "=>"
    row(sprintf("%s %s %s [label=\"%s\"%s]", from, arrow, to, label, arrow == "-x" ? ", linecolour=\"red\", textcolour=\"red\"" : ""))
}
$1 == "drained" {
    open_tti()
    row(sprintf("nb abox ue [label=\"drain: %s %s\", textbgcolour=\"#e0e0ff\"]", $1, $2))
}
$1 == "sum" && !summed {
    open_tti()
    summed = 1
}
END { print "}" }
