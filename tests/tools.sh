# shellcheck shell=sh
# What the shell of each session begins with: how images and jobs are made, those that several sessions make, a count of what is burnt in one, a
# slow writer, and how a long or odd name is shown.

# Puts these words into an image, one to a row, from a row on: rows flags.img 0x0c0 0x060140 0x060040
rows() {
    image=$1 row=$(($2))
    shift 2
    # shellcheck disable=SC2059 # the words are in the format
    printf "$(for word; do
        printf '\\%03o' $((word & 255)) $((word >> 8 & 255)) $((word >> 16 & 255)) $((word >> 24 & 255))
    done)" | dd of="$image" bs=4 seek="$row" conv=notrunc 2>/dev/null
}

# Makes a job of a version, sound or not, of entries that are each a row, a kind and a value: job 2 late.job 0xf87 1 0x010101 0x0c0 0 1
job() {
    version=$1 name=$2
    shift 2
    # shellcheck disable=SC2059 # the words are in the format
    printf "OTJ$(
        printf '\\%03o' "$version" 0 $(($# / 3)) 0
        while [ $# -gt 0 ]; do
            printf '\\%03o' $(($1 & 255)) $(($1 >> 8)) "$2" $(($3 & 255)) $(($3 >> 8 & 255)) $(($3 >> 16))
            shift 3
        done
    )" >"$name"
}

# Burns so many bits of a page, from its first row up: fill bars.img 3 191
fill() {
    # shellcheck disable=SC2046 # one word for each row
    rows "$1" $((64 * $2)) $(awk -v left="$3" 'BEGIN {
        for (i = 0; i < 64; i++) {
            n = left > 24 ? 24 : left
            left -= n
            print 2 ^ n - 1
        }
    }')
}

# bars.img, for the steps and the ends of a bar: pages 0 to 12 with so many bits. Those of the two lock rows mean nothing there, being bits
# of lock words 0 and 63, and count for pages 62 and 63, whose rows these are.
make_bars() {
    cp blank.img bars.img
    page=0
    for bits in 0 1 2 191 192 193 768 1344 1345 1535 1536 1536 1535; do
        fill bars.img $page $bits
        page=$((page + 1))
    done
    rows bars.img 0xf80 0x808080
    rows bars.img 0xfff 0x800000
}

# flags.img, whose rows from 0x0c0 on are of the value 0x0140, with bits that came or went. Its plain row is 0x060140, inverted 0xf9febf.
make_flags() {
    cp blank.img flags.img
    rows flags.img 0x0c0 0x060140 # plain
    rows flags.img 0x0c1 0x060040 # plain, bit 8 lost
    rows flags.img 0x0c2 0x460140 # plain, bit 22 set
    rows flags.img 0x0c3 0x860140 # plain, bit 23 set
    rows flags.img 0x0c4 0x460040 # plain, bit 22 set and bit 8 lost
    rows flags.img 0x0c5 0xa60140 # plain, bits 23 and 21 set
    rows flags.img 0x0c6 0x460041 # plain, bits 22 and 0 set and bit 8 lost: no value within one bit
    rows flags.img 0x0c7 0xc60140 # plain, bits 23 and 22 set: it passes for inverted, and no value is within one bit of that
    rows flags.img 0x0c8 0xf9febf # inverted
    rows flags.img 0x0c9 0xf9ffbf # inverted, bit 8 set
    rows flags.img 0x0ca 0x79febf # inverted, bit 23 lost
    rows flags.img 0x0cb 0xb9febf # inverted, bit 22 lost
}

# guarded.img, with worn rows behind locks and keys.
make_guarded() {
    cp locked.img guarded.img
    rows guarded.img 0x180 0x711006 # the first row of page 6, which nobody reads: bit 22 set
    rows guarded.img 0x200 0x751008 # of page 8, which key 2 opens: bit 22 set
    rows guarded.img 0xf48 0x4d0100 # of key 1, which still matches: bit 22 set
    rows guarded.img 0x040 0x111000 # of page 1, which is read only: bit 0 lost
}

# Files that are no image, by their length, and images whose reset is refused: a row of more than 24 bits, rows whose bytes stand the wrong way
# round, a row that could not be read.
make_wrong_images() {
    mkdir folder
    head -c 16383 blank.img >short.img
    cat blank.img one.job >long.img
    : >empty.img
    cp blank.img wide.img
    rows wide.img 5 0x01000000
    cp blank.img turned.img
    rows turned.img 0x0c0 0x01002300
    cp worn.img unread.img
    rows unread.img 0x180 0xffffffff
}

# none.job, which has no entry, and files that are no job, each for another reason. The last four have a good entry, of row 0x0c3, before the
# wrong one.
make_wrong_jobs() {
    printf 'OTJ\001\000\000\000' >none.job
    : >empty.job
    printf 'OTK\001\000\000\000' >mark.job
    printf 'OTJ\003\000\000\000' >version.job
    printf 'OTJ\001\000\001\002' >count.job
    { cat count.job; head -c 3078 blank.img; } >many.job
    { printf 'OTJ\001\000\000\002'; head -c 3078 blank.img; } >longer.job
    printf 'OTJ\001\000\001\000\300\000\000\001\000' >length.job
    printf 'OTJ\001\000\001\000\300\000\002\001\000\000' >kind.job
    printf 'OTJ\001\000\001\000\300\000\000\000\000\001' >value.job
    printf 'OTJ\001\000\002\000\300\000\000\001\000\000\300\000\000\002\000\000' >order.job
    printf 'OTJ\001\000\001\000\100\017\001\001\000\000' >high.job
    printf 'OTJ\001\000\002\000\303\000\000\001\000\000' >two
    { cat two; printf '\304\000\003\001\000\000'; } >kind-2.job
    { cat two; printf '\304\000\000\000\000\001'; } >value-2.job
    { cat two; printf '\300\000\000\001\000\000'; } >order-2.job
    { cat two; printf '\377\377\000\001\000\000'; } >high-2.job
}

# Jobs of version 2 that are none, each for another reason, and one of version 1 whose last row is a lock row.
make_wrong_locks() {
    job 1 old.job 0x0c0 0 1 0xf87 1 0x010101
    job 2 kept.job 0x0c0 0 1 0xf40 1 1
    job 2 kept-2.job 0xf87 1 0x010101 0xf7f 1 1
    job 2 past.job 0x0c0 0 1 0xfff 1 1 0x1000 1 1
    job 2 coded.job 0x0c0 0 1 0xf87 0 1
    job 2 late.job 0x0c0 0 1 0xf80 1 1 0x0c1 0 1
    job 2 data.job 0x0c0 0 1 0x0c0 0 1
    job 2 same.job 0xf87 1 1 0xf87 1 1
    job 2 kind-3.job 0x0c0 0 1 0xf40 2 1
}

# Each page of an image, its burnt bits and its bar, and the sum: as od counts them.
counted() {
    od -An -v -t u1 "$1" | awk '
        { for (i = 1; i <= NF; i++) for (b = $i; b > 0; b = int(b / 2)) bits[int(at / 256)] += b % 2 }
        { at += 16; if (at % 256 == 0) page() }
        END { print "in all", sum + 0 }
        function page(p, n, bar, i) {
            p = at / 256 - 1; n = bits[p] + 0; sum += n
            for (i = 0; i < 8; i++) bar = bar (n >= 192 * i + 192 ? "#" : n > 192 * i ? "+" : ".")
            print p, n, bar
        }'
}

# Writes a file byte by byte, a few milliseconds after each other: slowly card.job
slowly() {
    left=$(wc -c <"$1")
    while [ "$left" -gt 0 ]; do
        dd bs=1 count=1 2>/dev/null
        sleep 0.003
        left=$((left - 1))
    done <"$1"
}

# Runs a command, and shows what it says on standard error through a filter: through 'cat -v' ./otp pages "$odd"
through() {
    filter=$1
    shift
    said=$("$@" 2>&1 >/dev/null)
    status=$?
    # shellcheck disable=SC2086 # a filter has words
    printf '%s\n' "$said" | $filter >&2
    return "$status"
}
