# What the program is made of, and whether it is built from that. The launcher `psm` reads this file, which uses its
# $root and $built. Beside the program stand two files: psm.sources has the checksum of all that it is made of and
# below that the folders that this lies in, and psm.listing the size and the time of each file at that checksum.
# shellcheck shell=bash disable=SC2154

sources=${built}.sources
listing=${built}.listing

# The crates of this repository that the program stands on, itself among them.
crates_below() {
    awk -F: '
        { sub(/#.*/, ""); split($1, head, " "); below[head[1]] = $2 }
        END {
            wanted[1] = "psm"; seen["psm"] = 1; count = 1
            for (at = 1; at <= count; at++) {
                print wanted[at]
                size = split(below[wanted[at]], names, " ")
                for (i = 1; i <= size; i++)
                    if (names[i] in below && !(names[i] in seen)) { seen[names[i]] = 1; wanted[++count] = names[i] }
            }
        }' "$root/crates.txt" | LC_ALL=C sort
}

# The folders below the root that hold its sources.
folders_of_sources() {
    local crate part
    for crate in $(crates_below); do
        for part in src specs proofs; do
            if [ -d "$root/crates/$crate/$part" ]; then echo "crates/$crate/$part"; fi
        done
    done
}

# The size and the time of each source in these folders, of the list of crates and of the kit's command.
sizes_and_times() {
    local kit
    kit=$(command -v rt) || kit=
    (cd "$root" && find -H crates.txt "$@" ${kit:+"$kit"} -type f \
        \( -name '*.rt' -o -name '*.antt' -o -name crates.txt -o -name rt \) -printf '%p %s %T@\n')
}

# The checksum of the kit, of the crates' lines and of each source.
checksum() {
    (
        cd "$root" || exit 1
        {
            rt version
            for crate in $(crates_below); do grep "^$crate:" crates.txt; done
            find "$@" -type f \( -name '*.rt' -o -name '*.antt' \) -print0 | LC_ALL=C sort -z | xargs -0 sha256sum
        } | sha256sum | cut -d' ' -f1
    )
}

# Whether the program is there and built from what stands here now. Where sizes and times are as they were nothing is
# read; where one moved the checksum decides. Without the kit, whose line is the listing's last, only the sources count.
is_fresh() {
    local sum folders
    [ -x "$built" ] && [ -f "$sources" ] && [ -f "$listing" ] || return 1
    { read -r sum && read -r folders; } <"$sources"
    if ! command -v rt >/dev/null; then
        # shellcheck disable=SC2086
        sizes_and_times $folders 2>/dev/null | cmp -s - <(sed '$d' "$listing")
        return
    fi
    # shellcheck disable=SC2086
    if sizes_and_times $folders 2>/dev/null | cmp -s - "$listing"; then
        return 0
    fi
    # shellcheck disable=SC2046
    [ "$(checksum $(folders_of_sources))" = "$sum" ] && keep_stamp "$sum"
}

# Notes that the program is built from what has this checksum.
keep_stamp() {
    local folders
    folders=$(folders_of_sources | tr '\n' ' ')
    printf '%s\n%s\n' "$1" "$folders" >"$sources"
    # shellcheck disable=SC2086
    sizes_and_times $folders >"$listing"
}

needs_rt() {
    command -v rt >/dev/null && return
    say 'the command rt of the Rattle kit is not on the path'
    exit 127
}

# Proves and builds the program.
prove() {
    local sum
    needs_rt
    # shellcheck disable=SC2046
    sum=$(checksum $(folders_of_sources))
    rm -f "$built" "$sources" "$listing"
    (python prove "$root") || return
    if [ ! -x "$built" ]; then
        say "the program could not be built; run 'rt run' in $root/crates/psm"
        return 70
    fi
    # What changed while it was proved is due again at the next call.
    # shellcheck disable=SC2046
    [ "$(checksum $(folders_of_sources))" != "$sum" ] || keep_stamp "$sum"
}
