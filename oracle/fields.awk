# The field tables of the port's definitions (specs/*.antt of log, btree, ag, inode and sb) as lines `struct field offset size`.
# A line there is `field OFFSET WIDTH VALUE  -- name` or `byteRun OFFSET BYTES  -- name`.

function structure(name) {
    if (name ~ /^sb_/) return "xfs_dsb"
    if (name ~ /^agfl_/) return "xfs_agfl"
    if (name ~ /^agf_/) return "xfs_agf"
    if (name ~ /^agi_/) return "xfs_agi"
    if (name ~ /^bb_/) return "xfs_btree_block"
    if (name ~ /^ar_/) return "xfs_alloc_rec"
    if (name ~ /^ir_/) return "xfs_inobt_rec"
    if (name ~ /^rm_/) return "xfs_rmap_rec"
    if (name ~ /^di_/) return "xfs_dinode"
    if (name ~ /^oh_/) return "xlog_op_header"
    return "xlog_rec_header"
}

# The bytes of a run, by what stands in it.
function bytes(text) {
    if (text ~ /uuid/) return 16
    if (text ~ /label/) return 12
    if (text ~ /numbersBytes 4 \(replicate unlinkedBuckets/) return 4 * 64
    if (text ~ /leBytes 2/) return 2
    return "?"
}

function say(name, offset, size) { print structure(name), name, offset, size }

# Offsets and widths of a line's fields, in `at` and `wide`; how many they are.
function fields(text, n) {
    while (match(text, /(field|byteRun) (\(at \+ )?[0-9]+\)? [^∷]*/)) {
        part = substr(text, RSTART, RLENGTH)
        text = substr(text, RSTART + RLENGTH)
        plain = part
        gsub(/\(at \+ |\)/, "", plain)
        split(plain, word, " ")
        at[++n] = word[2]
        wide[n] = word[1] == "field" ? word[3] : bytes(part)
    }
    return n
}

/^abbrev|^unfoldable|^use|^--|^ *--/ { next }

# The checksum is stamped over four bytes; what follows a header starts at its end.
/= stamped [0-9]+ / && FILENAME !~ /sb/ {
    split($0, word, "stamped "); split(word[2], number, " ")
    name = FILENAME ~ /Agfl/ ? "agfl" : FILENAME ~ /Agf/ ? "agf" : FILENAME ~ /Agi/ ? "agi" : FILENAME ~ /Leaf/ ? "bb" : "di"
    if (!stamped[name]++) say(name "_crc", number[1], 4)
}
/^crcAt = / { say("sb_crc", $3, 4) }
/^leafHeaderSize = / { print "xfs_btree_block end", $3, 0 }
/^coreSize = / { print "xfs_dinode end", $3, 0 }
/^allocSize = / { print "xfs_alloc_rec end", $3, 0 }
/^inobtSize = / { print "xfs_inobt_rec end", $3, 0 }
/^rmapSize = / { print "xfs_rmap_rec end", $3, 0 }
/^agflSlots .* byteRun 36 / { print "xfs_agfl end", 36, 0; next }

/(field|byteRun) (\(at \+ )?[0-9]/ {
    n = fields($0, 0)
    names = $0
    if (!sub(/.*  -- /, "", names)) names = ""
    gsub(/ir_u\.sp\.ir_freecount/, "ir_sparse_freecount", names)
    gsub(/ir_u\.(f|sp)\./, "", names)
    # The roots and levels of an AGF are named by the record's own fields.
    if (match($0, /«[a-z]+_(root|level)»/)) {
        names = $0
        sub(/.*«/, "agf_", names)
        sub(/».*/, "", names)
        if (FILENAME ~ /Agi/) sub(/^agf_/, "agi_", names)
    }
    split(names, field, /, /)
    for (i = 1; i <= n; i++) {
        gsub(/[: ].*/, "", field[i])
        if (field[i] == "") continue
        # The magic opens what follows the operation's header; the first word of the cycle data is one of 64.
        if (field[i] == "magic") { print "xlog_op_header end", at[i], 0; print "xfs_unmount_log_format magic", 0, wide[i] }
        else if (field[i] == "h_cycle_data") say(field[i], at[i], 64 * wide[i])
        else say(field[i], at[i], wide[i])
    }
}
