# What scripts of this folder share: files of the mark COSTLOG1, whose slots have logs. They are made by hand, with spoil of
# check/moving_file.sh. They have room for 32 names, K 9, and a data part of 254 bytes, from 22,163 on.

# lay FILE PLACE OBJECT: the bytes of another file stand in the data part of a file at a place.
lay() {
    dd if="$3" of="$1" bs=1 seek=$((22163 + $2)) conv=notrunc status=none || exit 1
}

# put_digest FILE POSITION OBJECT: the SHA-256 digest of another file stands in a file at a position.
put_digest() {
    spoil "$1" "$2" $(sha256sum "$3" | head -c 64 | fold -w 2)
}

# make_unlogged FILE: no slot is open yet.
make_unlogged() {
    : >"$1" && truncate -s 22417 "$1" || exit 1
    spoil "$1" 0 43 4f 53 54 4c 4f 47 31
    spoil "$1" 8 09
    spoil "$1" 16 20
    spoil "$1" 22162 a5
}

# make_logged FILE A B C: the worked log of crates/store_rows/src/logs.rt in slot 0, whose table has no records. Its
# entries put A of 100 bytes; then B of 10 and C of 5, within a flush; and then they end the flush. So the file is settled,
# and moving if the third entry is closed, at 9,728. In both the objects are those of the three files.
make_logged() {
    make_unlogged "$1"
    spoil "$1" 64 03
    spoil "$1" 72 01
    spoil "$1" 11112 a5

    # the entry at 8,704: class 6 has a capacity of 100, and `a` is put at 0
    spoil "$1" 8704 a5
    spoil "$1" 8712 01
    spoil "$1" 8736 01
    spoil "$1" 8760 06
    spoil "$1" 8768 64
    spoil "$1" 8776 01 61
    spoil "$1" 8848 64
    put_digest "$1" 8856 "$2"

    # the entry at 9,216: boundary 2, wall 239, slack 112; `a` moves to 139, `b` is put at 239 and `c` at 249
    spoil "$1" 9216 a5 01 02
    spoil "$1" 9232 01
    spoil "$1" 9248 02
    spoil "$1" 9256 ef
    spoil "$1" 9264 70
    spoil "$1" 9280 8b
    spoil "$1" 9288 01 62
    spoil "$1" 9352 ef
    spoil "$1" 9360 0a
    put_digest "$1" 9368 "$3"
    spoil "$1" 9400 01 63
    spoil "$1" 9464 f9
    spoil "$1" 9472 05
    put_digest "$1" 9480 "$4"

    # the entry at 9,728: the classes 2, 3 and 6 have capacities of 5, 10 and 100; `c` moves to 0, `b` to 5 and `a` to 16
    spoil "$1" 9728 a5
    spoil "$1" 9736 03
    spoil "$1" 9744 03
    spoil "$1" 9784 02
    spoil "$1" 9792 05
    spoil "$1" 9800 03
    spoil "$1" 9808 0a
    spoil "$1" 9816 06
    spoil "$1" 9824 64
    spoil "$1" 9832 02
    spoil "$1" 9848 01
    spoil "$1" 9856 05
    spoil "$1" 9872 10

    lay "$1" 0 "$4"
    lay "$1" 5 "$3"
    lay "$1" 16 "$2"
    lay "$1" 139 "$2"
    lay "$1" 239 "$3"
    lay "$1" 249 "$4"
}

# log_second_slot FILE C: slot 1 is open and in use, at 11,113, with the sequence 5. Its table has the object `c` of 5 bytes
# at 0, and the entry of its log, at 19,968, takes `c` out and puts `d` of the same bytes there.
log_second_slot() {
    spoil "$1" 11113 03
    spoil "$1" 11121 05
    spoil "$1" 11129 01
    spoil "$1" 11169 05
    spoil "$1" 19601 01 63
    spoil "$1" 19673 05
    put_digest "$1" 19681 "$2"
    spoil "$1" 22161 a5

    spoil "$1" 19968 a5
    spoil "$1" 19976 01
    spoil "$1" 19992 01
    spoil "$1" 20000 01
    spoil "$1" 20024 02
    spoil "$1" 20032 05
    spoil "$1" 20040 01 63
    spoil "$1" 20104 01 64
    spoil "$1" 20176 05
    put_digest "$1" 20184 "$2"
    lay "$1" 0 "$2"
}
