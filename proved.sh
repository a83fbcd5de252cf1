# For ./slots and ./capture, which read this file: has rt prove a program where that is still to be done. `here` is the
# repository, `name` the program's name.
# shellcheck shell=bash disable=SC2154 # who reads this file assigns both
unset CDPATH # cd goes to `here`, not to another folder of that name
program=$here/crates/$name/out/$name
proved=$here/target/$name-proved # the checksums of the program and of what it was proved from

# stop STATUS WHY
stop() {
    echo "$name: $2" >&2
    exit "$1"
}

# The toolchain's name, which stands in its folder; to ask rt for it takes longer than to run a script.
toolchain() {
    local rt
    rt=$(readlink -f "$(command -v rt)") && cat "${rt%/bin/rt}/KIT-ID" 2>/dev/null || rt version
}

# The checksum of what the program is proved from: the toolchain, the crates and their list. By content, as rt judges
# it, and not by time: a removed file or another branch need not leave a newer file. What rt makes is in crates/NAME/out.
sources() {
    (cd "$here" && toolchain && find crates crates.txt -path 'crates/*/out' -prune -o -type f -exec sha256sum {} + |
        LC_ALL=C sort) | sha256sum
}

# The crates that the program rests on, each after those that it uses and the program last, as rt comes to them. A name
# without a line in crates.txt is the toolchain's own.
crates_below() {
    awk -v name="$name" '
        function walk(crate, used, n, i) {
            if (!(crate in uses) || crate in seen) return
            seen[crate]
            n = split(uses[crate], used)
            for (i = 1; i <= n; i++) walk(used[i])
            print crate
        }
        { sub(/#.*/, "") }
        sub(/:/, " ") { uses[$1] = $0 }
        END { walk(name) }' "$here/crates.txt"
}

# Has rt prove the program and counts the crates as they come. The rest of what rt says is shown where a proof fails.
# rt also runs the program, on no input, and tells nothing of what that prints.
prove() {
    local crates total crate='' at=0 held='' ran='' line
    crates=$(crates_below)
    total=$(wc -l <<<"$crates")
    echo "$name: proving the $total crates that the program rests on; the first time takes some minutes"
    (cd "$here/crates/$name" && rt run) </dev/null 2>&1 >/dev/null | {
        while IFS= read -r line; do
            case $ran$line in
            ran*) ;;
            'rt: running '*)
                ran=ran
                held=''
                [ "$at" -eq "$total" ] || printf '[%d/%d] %s, as it was proved before\n' "$total" "$total" "$name"
                ;;
            'crate '*': modules '*)
                crate=${line#crate }
                crate=${crate%%:*}
                ;;
            'logic=proved '*)
                at=$(grep -nxF -- "$crate" <<<"$crates")
                at=${at%%:*}
                printf '[%*d/%d] %s\n' ${#total} "$at" "$total" "$crate"
                held=''
                ;;
            'logic /'* | 'statements '* | 'library '*': modules '* | 'only='* | 'fn '*': proved') ;;
            'rt: chose '* | 'rt: '*': begins with what a check kept '*) ;;
            *) held+=$line$'\n' ;;
            esac
        done
        printf '%s' "$held"
    }
}

# The program is there, and proved from what is there.
be_proved() {
    local from
    from=$(sources) || stop 3 "the toolchain (rt) or the crates cannot be read"
    if [ "$from $(sha256sum 2>/dev/null <"$program")" != "$(cat "$proved" 2>/dev/null)" ]; then
        prove >&2 || stop 3 "the program is not proved"
        [ -x "$program" ] || stop 3 "rt has not made $program anew: remove crates/$name/out/ and try again"
        mkdir -p "$here/target"
        echo "$from $(sha256sum <"$program")" >"$proved"
    fi
}
