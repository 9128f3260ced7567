# The `block` records of a journal as a hex dump that `text2pcap` reads. Each has a MAC-LTE frame header: FDD, its direction,
# C-RNTI, the RNTI 61, the UE 1, the system frame number with the subframe, and the payload.
$1 == "tti" { t = $2 }
$1 == "block" {
    way = ($2 == "dl") ? "01" : "00"
    sub_frame = sprintf("%04x", (int(t / 10) % 1024) * 16 + t % 10)
    frame = "01" way "03" "02003d" "030001" "04" sub_frame "01" $6
    printf "000000"
    for (at = 1; at < length(frame); at += 2) printf " %s", substr(frame, at, 2)
    print ""
}
