# How ./report, tests/archive and tests/native/proved have crates proved, one at a time and saying how far it is; tests/desk takes its turn
# likewise. They read this in, with the repository's folder in `root`.
# shellcheck shell=sh disable=SC2154

# Prints the crates that one is made of, itself among them.
crates_of() { # NAME
    awk -v wanted="$1" '
        function visit(name, names, count, i) {
            if (!(name in below) || name in seen) return
            seen[name]
            print name
            count = split(below[name], names, " ")
            for (i = 1; i <= count; i++) visit(names[i])
        }
        { sub(/#.*/, "") }
        # what may stand before the colon beside the name, as `staticlib`, is of no matter here
        split($0, half, ":") == 2 { split(half[1], words, " "); below[words[1]] = half[2] }
        END { visit(wanted) }' "$root/crates.txt"
}

# Prints where a tool is, or says that it is not there, what it is for and what to do.
there() { # TOOL WHO WHAT-FOR
    case $1 in
    rt) mend="put the Rattle kit's bin folder on PATH" ;;
    cargo) mend="put the folder of Rust's cargo, as ~/.cargo/bin, on PATH" ;;
    cc) mend='install a C compiler, as by: apt-get install gcc libc6-dev' ;;
    esac
    command -v "$1" || printf '%s: there is no %s on PATH, and %s; %s\n' "$2" "$1" "$3" "$mend" >&2
}

# Prints a sum of each file of the crates that one is made of, of crates.txt and of what is named beside; must-fail edits and what rt makes are no
# part of it.
sums_of() ( # NAME FILES
    cd "$root"
    name=$1
    shift
    # shellcheck disable=SC2046
    find $(crates_of "$name" | sed 's,^,crates/,') crates.txt "$@" \( -name must-fail -o -regex 'crates/[^/]*/out' \) -prune -o \
        -type f -exec sha256sum {} + | sort
)

# Waits until no other has the turn that goes by this file, and has it until the shell that calls this ends. Fails where it cannot be had.
turn() { # FILE
    mkdir -p "${1%/*}" && touch "$1" || return
    exec 7>>"$1"
    flock -n 7 || {
        echo 'waiting for another run, which is proving or building here' >&2
        flock 7
    }
}

# Keeps what rt says in the log, and says how far it is: after what it says of a crate comes whether that is proved. Of a crate that is unchanged
# it says nothing.
progress() { # WHAT NAME LOG
    total=$(crates_of "$2" | wc -l)
    count=0
    counted=' '
    name=''
    printf 'proving %s, %d crates\n' "$1" "$total"
    while IFS= read -r line || [ -n "$line" ]; do
        printf '%s\n' "$line" >>"$3"
        case $line in
        'crate '*': modules loaded='*)
            name=${line#crate }
            name=${name%%:*}
            continue
            ;;
        'logic=proved '*) ;;
        *) continue ;;
        esac
        case $counted in *" $name "*) continue ;; esac
        counted="$counted$name "
        count=$((count + 1))
        printf 'proved %s (%d of %d)\n' "$name" "$count" "$total"
    done
}

# Runs a command that has a crate and all below it proved, and tells whether it ended well. What it says is kept in the log.
prove() { # WHAT NAME LOG COMMAND
    : >"$3"
    ended=$({ { (shift 3 && "$@") </dev/null 2>&1 && echo well >&3; } | progress "$1" "$2" "$3" >&2; } 3>&1)
    [ "$ended" = well ]
}

# Has a program proved, built and run, on no input. Here nobody asks what it writes, nor how it tells its ending (ended).
run_proved() { # NAME
    # rt makes a program anew only where its stamp is not there, and does not look at its object
    rm -f "crates/$1/out/$1.stamp"
    (cd "crates/$1" && rt run </dev/null 9>/dev/null)
}

# What files were made from, as it was when `sources` was set, and the files.
state() { # FILES
    echo "$sources"
    sha256sum "$@"
}

# Whether files are those that were made last, from what there is now.
made() { # KEPT NAME SOURCES FILES
    # shellcheck disable=SC2086
    sources=$(
        rt version
        uname -m
        sums_of "$2" $3
    )
    kept=$1
    shift 3
    [ -e "$kept" ] && [ "$(state "$@" 2>&1)" = "$(cat "$kept")" ]
}

# Has `make` make the files that stand on a crate and on other sources, unless they are those that it made last, and keeps what they were
# made from.
make_once() { # KEPT NAME SOURCES FILES
    made "$@" || (
        turn "$root/target/proving.lock"
        made "$@" || {
            make
            shift 3
            state "$@" >"$kept"
        }
    )
}
