# What the commands of this folder share; it is read by them, and does nothing by itself. Each sets `name`, which its messages begin with, and
# `root`, the top of the repository.
# shellcheck shell=bash
: "${name:?}" "${root:?}"

# The exit status of a command that could not do its work.
readonly FAILED=2

# A sentence on standard error.
say() {
    printf '%s: %s\n' "$name" "$*" >&2
}

# A sentence on standard error, and the end of the command.
fail() {
    say "$@"
    exit "$FAILED"
}

# Makes the folder `work` for temporary files. It is removed when the command ends, also by an error or a signal.
make_work() {
    work=''
    trap 'rm -rf "$work"' EXIT
    # A signal waits until the folder's name is known.
    trap 'exit 129' HUP
    trap 'exit 130' INT
    trap 'exit 143' TERM
    work=$(mktemp -d 2> /dev/null) || fail "no temporary folder can be made in ${TMPDIR:-/tmp}; TMPDIR names another place"
    trap - HUP INT TERM
}

# The crates of the repository that CRATE is built of, in the order in which rt builds them, itself the last.
crates_of() { # CRATE
    CRATE=$1 awk '
        function visit(crate,    names, count, i) {
            if (!(crate in needs) || crate in seen) return
            seen[crate] = 1
            count = split(needs[crate], names, " ")
            for (i = 1; i <= count; i++) visit(names[i])
            print crate
        }
        # A line is NAME: LIBRARY .. with words such as staticlib after the name.
        { sub(/#.*/, "") }
        split($0, part, ":") == 2 { split(part[1], word, " "); needs[word[1]] = part[2] }
        END { visit(ENVIRON["CRATE"]) }' "$root/crates.txt"
}

# Copies what rt's command VERB prints to LOG, and says of each of the CRATES that it proves how many of them are then proved. Those that have not
# changed are counted in silence, and under check also those of which nothing was left to prove.
show_progress() { # VERB LOG CRATE..
    local verb=$1 log=$2 line crate='' begun=0 number anew=''
    shift 2
    while IFS= read -r line; do
        printf '%s\n' "$line"
        if [[ $line =~ ^rt:\ chose\ --jobs\ [0-9]+\ for\ ([a-z0-9_]+)$ ]]; then
            crate=${BASH_REMATCH[1]}
            begun=$SECONDS
            anew=${verb#check}
        elif [[ $line =~ ^crate\ .*\ checked=[1-9] ]]; then
            anew=yes
        elif [[ $line == logic=proved* && -n $crate && -n $anew ]]; then
            for ((number = 1; number < $#; number++)); do
                [ "${!number}" != "$crate" ] || break
            done
            say "$number of $# proved: $crate ($((SECONDS - begun)) s)"
            crate=''
        fi
    done > "$log"
}

# Has rt prove CRATE and what it is built on, as far as it has changed, by its command VERB in the crate's folder: check, or run, which builds a
# program and runs it on its example. What the program prints goes to the file `printed` of the temporary folder, and what rt says to `log`. Ends
# the command, with the end of that, where one crate is not proved.
prove() { # CRATE VERB
    local crates example=$root/crates/$1/stdin printed=$work/printed
    command -v rt > /dev/null || fail "$1 has to be proved first, and the Rattle toolchain is not there: no command 'rt' on the PATH"
    mapfile -t crates < <(crates_of "$1")
    [ -f "$example" ] || example=/dev/null
    [ "$2" = run ] || printed=/dev/stdout
    if ! (cd "$root/crates/$1" && rt "$2" 2>&1 > "$printed") < "$example" | show_progress "$2" "$work/log" "${crates[@]}"; then
        tail -n 20 "$work/log" >&2
        fail "$1 is not proved; above is the end of what the prover says"
    fi
}
