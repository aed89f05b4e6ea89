# What tests/definitions, tests/refused-for-a-fact and tests/wrong-programs share: the crates copied to a folder of their own, an edit applied there
# as 'rt must-fail' applies it, and a crate checked there by 'rt check', which begins with what it kept. Sourced in the repository's root.

# copy_crates DIR PART..: a repository of the crates with these parts of each (src, specs, proofs).
copy_crates() {
    local dir=$1 crate part
    shift
    mkdir -p "$dir/crates"
    cp crates.txt "$dir"
    for crate in $(ls crates); do
        for part; do
            if [ -d "crates/$crate/$part" ]; then mkdir -p "$dir/crates/$crate" && cp -R "crates/$crate/$part" "$dir/crates/$crate/$part"; fi
        done
    done
}

# apply_edit EDIT DIR: the edit's replacements in the crate in DIR, each old text once in its file.
apply_edit() {
    awk -v dir="$2" '
        function whole(file,    text, line) {
            text = ""
            while ((getline line < file) > 0) text = text line "\n"
            close(file)
            return text
        }
        /^file: / { file = dir "/" substr($0, 7) }
        /^old: / { old = substr($0, 6) }
        /^new:/ {
            new = substr($0, 5)
            sub(/^ /, "", new)
            text = whole(file)
            at = index(text, old)
            rest = substr(text, at + length(old))
            if (old == "" || !at || index(rest, old)) { bad = 1; exit }
            printf "%s%s%s", substr(text, 1, at - 1), new, rest > file
            close(file)
            pairs++
        }
        END { exit bad || !pairs }' "$1"
}

# prove NAME DIR: the crate NAME of the repository in DIR must be proved as it stands; out/ has what is kept of it then, and of the crates below.
# It is proved in the checkout first, for 'rt' gives what was kept there to the copies, now and later.
prove() {
    local at said
    for at in . "$2"; do
        said=$(cd "$at/crates/$1" && rt check 2>&1) && grep -q '^logic=proved' <<<"$said" && continue
        echo "$1 is not proved as it stands: $(grep -m 1 -E ' error: |error\[' <<<"$said" || tail -n 1 <<<"$said")"
        return 1
    done
}

# try_edit NAME EDIT DIR LOG: the crate NAME of the repository in DIR with the edit, over what a check kept there. The log goes to the file LOG.
# Prints 'refused' or 'proved', or what went wrong. What was there before stands in DIR again when it returns.
try_edit() {
    local crate=$3/crates/$1 status=0
    rm -rf "$3/before"
    cp -R "$crate" "$3/before"
    if apply_edit "$2" "$crate"; then
        (cd "$crate" && rt check --jobs 1) >"$4" 2>&1 || status=$?
        if [ "$status" -eq 1 ] && grep -q '^logic=not-proved' "$4"; then
            echo refused
        elif [ "$status" -eq 0 ]; then
            echo proved
        else
            echo "BAD EDIT: it did not reach the prover (exit $status): $(grep -m 1 'error' "$4" || head -n 1 "$4")"
        fi
    else
        echo "BAD EDIT: an 'old:' text does not stand once in its file"
    fi
    rm -rf "$crate"
    mv "$3/before" "$crate"
}

export -f copy_crates apply_edit prove try_edit
