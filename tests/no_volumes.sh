# shellcheck shell=bash
# Part of tests/program, which reads it: regular files that are no volume by their length or their bytes.

# The file is told to be no volume, by a job that only reads and by one that would store, and neither changes it.
no_volume() {
    cp v v.before
    run check v
    ended 4 $'not a volume\n' '' "the check of $1"
    unchanged v
    run run v <<<'create /a'
    ended 4 $'not a volume\n' '' "a run on $1"
    unchanged v
}

# The bytes of a file, those of each word in the other order.
turned_words() {
    local bytes
    bytes=$(od -A n -v -t x1 -w8 "$1" | awk '{ for (place = 8; place; place--) printf "\\x%s", $place }')
    # shellcheck disable=SC2059
    printf "$bytes"
}

no_volumes() {
    local length
    # a volume's first bytes, or all of them and one byte or one page more
    for length in 1 $((page - 1)) "$page" $((15 * page)) $((16 * page - 1)) $((16 * page + 1)) $((17 * page)); do
        fresh v
        truncate -s "$length" v
        no_volume "a volume of 16 pages that has $length bytes"
    done
    rm -f v
    "$program" mkfs v 64 >/dev/null
    truncate -s $((16 * page)) v
    no_volume 'a volume of 64 pages that is cut to 16'
    fresh fresh
    turned_words fresh >v
    holds 'words that are turned twice are others' cmp -s fresh <(turned_words v)
    no_volume 'a volume with the bytes of its words turned round'
    head -c $((16 * page)) /dev/zero | tr '\0' '\377' >v
    no_volume '16 pages of bytes ff'
    yes 'a text that is no volume' | head -c $((16 * page)) >v
    no_volume '16 pages of a text'
    head -c $((16 * page)) "$program" >v
    holds 'the program is too short' test "$(length_of v)" = $((16 * page))
    no_volume '16 pages of the program'
    verdict 'status 4: files that are no volume by their length or their bytes'
}
