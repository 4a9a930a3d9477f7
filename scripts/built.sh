# For scripts that read this file with the repository's folder in $here, a program in $name and its crate in
# $crate: where its built program is, and whether it is proved and built from the sources as they are.

# The crate of a program.
crate_of() {
    if [ "$1" = artnodes ]; then echo art_cli; else echo "$1"; fi
}

# There is a program of this crate.
is_program() {
    case $crate in
    '' | *[!a-z0-9_]*) false ;;
    *) [ -f "$here/crates/$crate/src/main.rt" ] ;;
    esac
}

# Where the built program is.
program() {
    echo "$here/crates/$crate/out/$crate"
}

# A file beside the program: as old as the reading of its sources, it has the lines that needed_lines gave then.
mark() {
    echo "$here/crates/$crate/out/prove.built"
}

# The lines of crates.txt for the program's crate and the repository's crates that it needs, in that order: lowest first.
needed_lines() {
    awk -F: -v crate="$crate" '
        { sub(/[ \t]*#.*/, ""); split($1, words, " "); name[NR] = words[1]; below[NR] = $2; line[NR] = $0 }
        END {
            needed[crate]
            for (at = NR; at > 0; at--) {
                if (name[at] in needed) {
                    found = line[at] "\n" found
                    many = split(below[at], names, " ")
                    for (i = 1; i <= many; i++) needed[names[i]]
                }
            }
            printf "%s", found
        }
    ' "$here/crates.txt"
}

# Their crates.
needed_crates() {
    needed_lines | awk -F '[: ]' '{ print $1 }'
}

# is_unchanged_since FILE [PART..]: none of these parts of the needed crates is newer than the file, nor their sources.
is_unchanged_since() (
    file=$1
    shift
    [ -e "$file" ] && cd "$here/crates" || exit 1
    parts=$(for needed in $(needed_crates); do for part in src specs "$@"; do echo "$needed/$part"; done; done)
    [ -z "$(find $parts -newer "$file" -print -quit 2>/dev/null)" ]
)

is_marked() {
    is_unchanged_since "$(mark)" && [ "$(needed_lines)" = "$(cat "$(mark)")" ]
}

# `rt ci` touches its lock before it reads a source, and builds the program after that.
is_built_by_gate() {
    lock=$here/.git/rt-ci.lock
    [ "$(program)" -nt "$lock" ] && [ ! "$here/crates.txt" -nt "$lock" ] && is_unchanged_since "$lock"
}

# Where the gate has built the program, the mark is kept for later, when crates.txt may have another line.
keep_mark() {
    { needed_lines >"$(mark)" && touch -r "$lock" "$(mark)"; } 2>/dev/null || true
}

is_built() {
    [ -x "$(program)" ] && { is_marked || { is_built_by_gate && keep_mark; }; }
}

# ---- what lies proved and built in the repository: the programs in prebuilt/, the library for C in bindings/prebuilt/

# The programs.
prebuilt_programs='artnodes words routes index'

# Their folder, on a machine such as this one.
prebuilt() {
    echo "$here/prebuilt/$(uname -m)-linux"
}

# The sources among these files and below these folders.
sources_below() {
    for entry; do
        if [ -d "$entry" ]; then
            sources_below "$entry"/*
        else
            case $entry in
            *.rt | *.antt) echo "$entry" ;;
            esac
        fi
    done
}

# sums_of PART..: the checksums of the sources in these parts of the needed crates. A user has them computed in front of
# each run, and may have little more than a shell, awk and coreutils.
sums_of() (
    cd "$here/crates" || exit 1
    folders=$(for needed in $(needed_crates); do for part; do echo "$needed/$part"; done; done)
    sha256sum $(sources_below $folders | LC_ALL=C sort) </dev/null
)

# The checksum of what decides the program, and what is proved of it.
sum_of_program() {
    { needed_lines && sums_of src specs; } | sha256sum | cut -d ' ' -f 1
}

# says FOLDER THING: what the file BUILT of a folder says of one thing.
says() {
    awk -v thing="$2 " 'index($0, thing) == 1 { print substr($0, length(thing) + 1) }' "$1/BUILT"
}

# is_as_it_says FOLDER: the built files of the folder have the checksums that its file BUILT has.
is_as_it_says() {
    (cd "$1" && grep -E '^[0-9a-f]{64}  ' BUILT | sha256sum --quiet -c -)
}

# The program in prebuilt/ is of the sources as they are.
is_of_these_sources() {
    [ "$(says "$(prebuilt)" "sources of $name")" = "$(sum_of_program)" ]
}

# It starts on this machine: without words a program only prints how it is called, and ends with status 2.
starts_here() {
    "$(prebuilt)/$name" </dev/null >/dev/null 2>&1
    [ $? -eq 2 ]
}
