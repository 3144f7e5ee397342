# What scripts of this folder share: a file that stopped within a flush.

# spoil FILE POSITION BYTE..: these bytes, in hexadecimal, stand in a file at a position.
spoil() {
    local file=$1 at=$2
    shift 2
    printf "$(printf '\\x%s' "$@")" | dd of="$file" bs=1 seek="$at" conv=notrunc status=none || exit 1
}

# make_moving STORE FILE: of the store in crates/costore/data the moving file of docs/FORMAT.md, which a flush left: `a`, `b`
# and `c` of 100, 10 and 5 bytes that are 0.
make_moving() {
    cp "$1" "$2" || exit 1
    truncate -s 19857 "$2" || exit 1
    spoil "$2" 65 01 02
    spoil "$2" 80 03
    spoil "$2" 88 ef
    spoil "$2" 96 70
    spoil "$2" 120 00
    spoil "$2" 8616 8b
    spoil "$2" 8624 64
    spoil "$2" 8632 01 62
    spoil "$2" 8696 ef
    spoil "$2" 8704 0a
    spoil "$2" 8712 01 63
    spoil "$2" 8776 f9
    spoil "$2" 8784 05
}
