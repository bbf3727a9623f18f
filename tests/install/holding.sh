# What the tests of an installation share: tests/installed and tests/install/putting read this in, in the repository's folder. `work` is an empty
# folder of their own among the temporary files, since rt allows no links in the repository's; `tools` is one that has readlink alone, which is all
# that the installed program needs beside a shell.
# shellcheck shell=sh disable=SC2034

work=$(mktemp -d)
trap 'rm -rf "$work"' EXIT
chmod 755 "$work"
tools=$work/tools
mkdir "$tools"
ln -s "$(command -v readlink)" "$tools/readlink"
held=0

fail() { # WHY
    printf '%s: %s\n' "${0##*/}" "$1" >&2
    exit 1
}

holds() { # WHAT
    held=$((held + 1))
    echo "$1"
}

# Runs a command without the kit, cargo, and all that is set around it.
alone() { # COMMAND
    env -i PATH="$tools" "$@"
}

# Runs a command that is to end with a status. What it writes is kept.
ends() { # STATUS COMMAND
    wanted=$1
    shift
    status=0
    "$@" </dev/null >"$work/out" 2>"$work/err" || status=$?
    [ "$status" -eq "$wanted" ] || {
        cat "$work/out" "$work/err"
        fail "it ends with $status and not $wanted: $*"
    }
}

# Holds what the last command wrote, or said on standard error, to words that are to be in it.
writes() { # WORDS
    grep -qF -- "$1" "$work/out" || fail "it does not write '$1': $(cat "$work/out")"
}

says() { # WORDS
    grep -qF -- "$1" "$work/err" || fail "it does not say '$1': $(cat "$work/err")"
}

# The files of a folder.
files() { # FOLDER
    (cd "$1" && find . ! -type d | sed 's,^\./,,' | sort)
}
