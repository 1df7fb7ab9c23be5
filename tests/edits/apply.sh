# Sourced by the scripts beside it. apply EDIT CRATE: makes the edit's replacements in crates/CRATE. Each old text stands in its file
# once, and gives way to the new one.
apply() { # EDIT CRATE
    file='' old=''
    while IFS= read -r line; do
        case $line in
        'file: '*) file=crates/$2/${line#file: } ;;
        'old: '*) old=${line#old: } ;;
        'new: '*)
            OLD=$old NEW=${line#new: } awk '
                { text = text $0 "\n" }
                END {
                    at = index(text, ENVIRON["OLD"])
                    rest = substr(text, at + length(ENVIRON["OLD"]))
                    if (!at || index(rest, ENVIRON["OLD"])) exit 1
                    printf "%s%s%s", substr(text, 1, at - 1), ENVIRON["NEW"], rest
                }' "$file" > edited || { echo "not once in $file: $old"; return 1; }
            mv edited "$file"
            ;;
        esac
    done < "$1"
}

# The crate in whose folder the edit stands: crates/CRATE/must-fail/NAME.edit or tests/edits/CRATE/NAME.edit.
crate_of() { # EDIT
    case $1 in crates/*) crate=${1#crates/} ;; *) crate=${1#tests/edits/} ;; esac
    echo "${crate%%/*}"
}

# The lower crate of a joint edit, whose texts it changes.
lower_of() { # EDIT
    pair=$(sed -n 's/^crates: //p' "$1")
    lower=${pair% *}
    echo "${lower:-division}"
}

# Copies the crates into the folder, without what checks left in out/.
copy_of_crates() { # FOLDER
    tar -c --exclude='crates/*/out' crates crates.txt $(ls HANDLES 2>/dev/null || true) | tar -x -C "$1"
}

# The lines of the file LOG, what `rt must-fail` or `rt ci` said, of the edits that are refused because a fact fails: nothing stands in brackets behind
# `refused`. Where proof files only name what the edit took away, or where the prover met a limit of its own, it says so there, or it tells first what
# depends on a proof that names it; where the text cannot be read, it says BAD EDIT.
for_a_fact() { # LOG
    grep '^rt: must-fail .*: refused, as it must be\(: \|$\)' "$1" | grep -v "$DEPENDS"
}
DEPENDS=': error: [0-9]* declarations\? that depends\? on '

# The same beside the gate, where an edit may also change a file of laws in which others rest on the one that fails: it says BAD EDIT of such a file, but
# what it names first is what depends on a law that was rejected for its fact.
for_a_fact_or_its_law() { # LOG
    for_a_fact "$1" || true
    grep '^rt: must-fail .*: BAD EDIT: the prover cannot read the edited text' "$1" | grep "$DEPENDS.*, which was rejected," || true
}

# The prover's answer in the file LOG names what is no longer there: such a refusal shows nothing. A field that a record of specs/ does not have is a fact: a
# definition now gives another record.
names_missing() { # LOG
    names_missing_in "$1" > /dev/null
}

names_missing_in() { # LOG
    grep -E ': error: .*(has no `|has no field|is not in scope|is no name)' "$1" | grep -m 1 -vE 'record `[^`]*\.specs\.[^`]*` has no field'
}
