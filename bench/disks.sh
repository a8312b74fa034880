# Sourced by the scripts that measure whole disks: the input records of a case, GiB, TiB, or GROUPS BLOCK.
group=$((1 << 32)) # bytes: room for the largest log, so that no plan is refused

be() { # NUMBER BYTES: big-endian
    # shellcheck disable=SC2059  # the format is the bytes
    printf "$(printf "%0$(($2 * 2))x" "$1" | sed 's/../\\x&/g')"
}

# A disk of so many bytes, or of so many groups and a block size.
disk() { printf DV && be "$1" 8 && be 512 4 && be 512 4; }
groups() { # GROUPS BLOCK
    disk $(($1 * group))
    printf 'OP\2' && be "$2" 8 && printf 'OP\6' && be "$group" 8
}

records() { # CASE
    case $1 in
    GiB) disk $((1 << 30)) ;;
    TiB) disk $((100 << 40)) ;;
    *) groups "$1" "$2" ;;
    esac
}
