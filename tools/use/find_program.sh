# What ./r3, ./check and bench/ share: which program was built from the sources in place, and whether there is a release.
# Sourced with `top` set to the top of the repository; needs bash and coreutils.
#
# shellcheck shell=bash
# shellcheck disable=SC2154
#
# A program lies beside SOURCES, which has the digest of the sources that it was built from (tools/gate/sources_digest),
# and SHA256, which has the program's own. Both are compared only if something changed since they were last compared:
# the file out/stamp has, for each folder of sources, for crates.txt and for the two programs, the sum of the files'
# sizes and the latest time at which a file or folder in it changed (the ctime, in nanoseconds). Whoever writes,
# replaces, adds, moves or removes a file sets that time to the present one, and no program can set it to another
# (`git checkout`, `cp -p`, `tar` and `touch` set the time of modification alone). A stamp is only written if all
# these times are three seconds and more before the digest was begun, by the clock of that file system, so a change
# during the digest or after it has a later time, even where the clock counts in steps of two seconds. The stamp does
# not see a change that keeps a folder's size and was made while the clock was set back, nor one that bypasses the
# file system. If no stamp can be written, each call computes the digest.

# The folders in which a program may lie.
built=crates/r3/out
kept=release

# The sizes and times of the places given.
sizes_and_times() {
    (unset CDPATH && cd -- "$top" && LC_ALL=C du -slb --time=ctime --time-style=+%s.%N -- "$@" 2>&1)
}

# Sets `program`, `release` and `digest` by the stamp, and fails if there is none or something changed since.
read_stamp() {
    local lines count IFS=$'\n'
    mapfile -t lines 2> /dev/null < "$top/out/stamp" || return 1
    [ "${lines[0]-}" = 'stamp 2' ] && [[ ${lines[4]-} =~ ^[1-9][0-9]{0,5}$ ]] || return 1
    count=${lines[4]}
    [ "$(sizes_and_times "${lines[@]:5:count}")" = "${lines[*]:5+count}" ] || return 1
    program=${lines[1]}
    release=${lines[2]}
    digest=${lines[3]}
}

# Whether the program in a folder is the file that was built.
is_whole() {
    local sum
    [ -f "$top/$1/r3" ] && [ -x "$top/$1/r3" ] || return 1
    sum=$(sha256sum < "$top/$1/r3") || return 1
    [ "${sum%% *}" = "$(head -c 64 "$top/$1/SHA256" 2> /dev/null)" ]
}

# Whether the program in a folder was built from the sources of this digest.
is_of_sources() {
    local sources
    read -r sources 2> /dev/null < "$top/$1/SOURCES" && [ "$sources" = "$digest" ]
}

# Sets `digest`; `program` to the program that was built from the sources in place, or to nothing; and `release` to the
# one that is kept in release/, whatever it was built from, or to nothing. Writes a stamp where that can be done.
find_program() {
    local places before after stamp room=''
    program='' release=''
    places=$("$top/tools/gate/sources_digest" --places "$top") || exit 1
    mapfile -t places <<< "$places"
    places+=({"$built","$kept"}/{r3,SOURCES,SHA256})
    if mkdir -p "$top/out" 2> /dev/null; then
        room=$(mktemp "$top/out/stamp.XXXXXX" 2> /dev/null)
    fi
    before=$(sizes_and_times "${places[@]}")
    digest=$("$top/tools/gate/sources_digest" "$top") || { rm -f -- "$room"; exit 1; }
    if is_whole "$kept"; then
        release=$kept/r3
    fi
    if is_of_sources "$built" && is_whole "$built"; then
        program=$built/r3
    elif [ -n "$release" ] && is_of_sources "$kept"; then
        program=$release
    fi
    [ -n "$room" ] || return 0
    after=$(sizes_and_times "${places[@]}")
    stamp=('stamp 2' "$program" "$release" "$digest" "${#places[@]}" "${places[@]}" "$after")
    if [ "$before" = "$after" ] && is_settled "$room" "$after" \
        && printf '%s\n' "${stamp[@]}" 2> /dev/null > "$room"; then
        chmod a+r -- "$room"
        mv -f -- "$room" "$top/out/stamp" 2> /dev/null
    fi
    rm -f -- "$room"
}

# Whether all times of a text of sizes_and_times are three seconds and more before a file was made.
is_settled() {
    local made size time
    made=$(stat -c %Z -- "$1") || return 1
    while IFS=$'\t' read -r size time _; do
        [[ $size == du:* ]] || [ "${time%.*}" -le $((made - 3)) ] || return 1
    done <<< "$2"
}
