# How files come into a folder and go from it again: ./install reads this in, with the folder in `prefix`. The list of what it put there lies
# with it: a line with the sum and the name of each file, and 'folder NAME' for each folder that was made.
# shellcheck shell=sh disable=SC2154

list=$prefix/lib/veilbuzz/files

# Whether a name is one that ./install could have put there: no list is believed that goes further.
inside() { # NAME
    case /$1/ in
    */../*) return 1 ;;
    /./ | /bin/* | /include/* | /lib/*) ;;
    *) return 1 ;;
    esac
}

listed() { # NAME
    [ -e "$list" ] && awk -v name="$1" '$2 == name { found = 1 } END { exit !found }' "$list"
}

# Takes a file away, if it is still the one that was put there; else it is left, and that is said.
take() { # SUM NAME
    file=$prefix/$2
    if ! inside "$2" || { [ ! -e "$file" ] && [ ! -L "$file" ]; }; then
        return
    fi
    if [ ! -f "$file" ] || [ -L "$file" ] || [ "$(sha256sum <"$file")" != "$1  -" ]; then
        printf 'install: %s is left, since it is not the file that was put there\n' "$file" >&2
        left=1
        return
    fi
    rm -f -- "$file" || stop "$file cannot be removed; look at the permissions of its folder"
}

# Takes folders away that are empty, the deepest first.
take_folders() { # LINES
    for folder in $(printf '%s\n' "$1" | sed -n 's/^folder //p' | LC_ALL=C sort -ru); do
        ! inside "$folder" || rmdir -- "$prefix/${folder#.}" 2>/dev/null || true
    done
}

remove() {
    [ -f "$list" ] || stop "there is no $list, so ./install has put nothing there"
    left=0
    lines=$(cat "$list")
    while read -r word name; do
        [ "$word" = folder ] || take "$word" "$name"
    done <"$list"
    # what Python keeps of its module
    rm -f -- "$prefix"/lib/veilbuzz/python/__pycache__/veilbuzz.*.pyc
    rmdir -- "$prefix/lib/veilbuzz/python/__pycache__" 2>/dev/null || true
    rm -f -- "$list" || stop "$list cannot be removed; look at the permissions of its folder"
    take_folders "$lines"
    [ "$left" -eq 0 ] || return
    echo "what ./install had put into $prefix is gone"
}

# Where a file is copied to before it is put in its place.
beside() { # NAME
    printf '%s\n' "$prefix/${1%/*}/.${1##*/}.new-$$"
}

# Takes away what was copied and not put in its place, and folders that were made for nothing.
names=''
folders=''
clear_up() {
    for name in $names; do
        rm -f -- "$(beside "$name")"
    done
    take_folders "$folders"
}

# Puts all files of a folder into the prefix, in the place of earlier ones. All are copied before anything is changed.
put() { # FOLDER
    names=$(cd "$1" && find . -type f | sed 's,^\./,,' | LC_ALL=C sort)
    for name in $names; do
        if [ -e "$prefix/$name" ] || [ -L "$prefix/$name" ]; then
            { listed "$name" && [ ! -d "$prefix/$name" ]; } ||
                stop "$prefix/$name is there, and ./install did not put it there; move it away, or name another folder"
        fi
    done

    for folder in $(cd "$1" && find . -type d | sed 's,^\./,,' | LC_ALL=C sort); do
        [ -d "$prefix/$folder" ] || {
            mkdir -p -- "$prefix/$folder" || stop "$prefix/$folder cannot be made; look at its permissions, or name another folder"
            folders="$folders
folder $folder"
        }
    done
    before=$(cat "$list" 2>/dev/null || true)
    {
        printf '%s\n' "$before" "$folders" | sed -n '/^folder /p' | LC_ALL=C sort -u
        # shellcheck disable=SC2086
        (cd "$1" && sha256sum $names)
    } >"$1/${list#"$prefix/"}"
    names="${list#"$prefix/"} $names"
    for name in $names; do
        new=$(beside "$name")
        { cp -- "$1/$name" "$new" && chmod --reference="$1/$name" -- "$new"; } ||
            stop "not all can be copied to $prefix, and nothing there is changed; look at its permissions and at the room on the disk"
    done

    folders=''
    for name in $names; do
        mv -f -- "$(beside "$name")" "$prefix/$name" || stop "$prefix/$name cannot be replaced; look at its permissions, and call this again"
    done
    left=0
    printf '%s\n' "$before" | while read -r word name; do
        [ -z "$name" ] || [ "$word" = folder ] || listed "$name" || take "$word" "$name"
    done
}
