# Reads what 'rt ci' says, and prints for each must-fail edit that it tried what fails first: a law by its name, and where it is the proof of a
# function, or the kit's own proof of one, that function by its path. Where what is said is of no fact that fails, it prints '-' and that instead.
#
#     awk -v crates=CRATES -f fact.awk LOG      CRATES: the folder of the crates, which the log's places are in

# Takes an error apart: the file, the line, the law, and the prover's words.
function take(error) {
    split(error, parts, ":")
    file = parts[1]
    line = parts[2]
    words = error
    sub(/^[^ ]* /, "", words)
    sub(/^error: /, "", words)
    law = ""
    if (match(words, /^`[^`]+`: /)) {
        law = substr(words, 2, RLENGTH - 4)
        words = substr(words, RLENGTH + 1)
    }
}

# Whether the words are of a name, of text that is no term, or of a proof that is made for other code, and of no fact.
function misfits() {
    return words ~ /(has no (field|`)|is not in scope|is no name|was not admitted|operand is missing|expected the end|cannot continue)/ ||
        words ~ /(no clause covers|write the clause|takes [0-9]+ arguments|is a hole)/ || plain()
}

# An equation or an inequality that does not hold, in the prover's words, or a statement that is made of such. What it says of terms of another kind
# is not among them.
function fails() {
    return words ~ /^it is not proved that / ||
        words ~ /^`omega`: the (goal|part `[^`]*` of the goal) does not follow from what it read/ ||
        words ~ /^`search`: no proof of / ||
        words ~ /^on the face `i = [01]` this λ's body is / ||
        words ~ /^`rw`: no occurrence of the path's left endpoint in the goal/ ||
        words ~ /^give a proof of that as the last argument, `rw L t` / ||
        words ~ /^(as printed|computed as far as they go), the two (types|values) (are|differ only|first differ) / ||
        words ~ /^expected type `[^`]*(≡|≤|<|⊥|Below|Hold |Put |SettledIn )/
}

# Whether a type that is expected or found is one of data, so that the term is of the wrong kind and no fact is in question.
function plain() {
    return words ~ /(expected|has) type `(mathlib\.Core\.(Bool|List)\.|Prim\.Native\.Nat\.|ℕ|Bool|List|Type|→|×|[0-9]|[ ()])+`/
}

# A file without its folder and its end, as a path.
function path(file) {
    sub(/^[a-z]+\//, "", file)
    sub(/(\/(Proof|Answers|Invariants))?\.(antt|rt)$/, "", file)
    gsub(/\//, "::", file)
    return file
}

# The function that a line of code is in, by its path: the last that begins up to there, with the type that it is of; of an attribute's line the
# function below it.
function holding(crate, file, line,    text, count, type, found, module, below) {
    while ((getline text < (crates "/" crate "/" file)) > 0 && (++count <= line || below)) {
        if (count == line && text ~ /^ *#\[/) below = 1
        if (text ~ /^}/) type = ""
        if (text ~ /^impl/) {
            type = text
            sub(/ *({|where).*$/, "", type)
            sub(/^.* /, "", type)
            sub(/<.*/, "", type)
            type = type "::"
        }
        if (text ~ /^ *(pub |pub\([a-z]+\) )?(const )?(unsafe )?(extern "C" )?fn /) {
            found = text
            sub(/^.*fn /, "", found)
            sub(/[^A-Za-z0-9_].*$/, "", found)
            if (count >= line) below = 0
        }
    }
    close(crates "/" crate "/" file)
    module = path(file)
    return crate "::" (module ~ /^(lib|main)$/ ? "" : module "::") type found
}

sub(/^rt: must-fail /, "") {
    edit = $1
    sub(/\.edit:$/, "", edit)
    crate = edit
    sub(/\/.*/, "", crate)
    told = substr($0, length($1) + 2)
    if (!sub(/^refused, as it must be: /, "", told)) {
        print edit, "- " told
        next
    }
    is_note = sub(/^note: /, "", told)
    sub(/^\.\//, "", told)
    take(told)
    if (misfits() || !fails())
        print edit, "- " told
    else if (file ~ /^proofs\/.*\/(Proof|Answers|Invariants)\.antt$/)
        print edit, crate "::" path(file)
    else if (file ~ /^(proofs|specs)\// && law != "")
        print edit, law
    else if (is_note && file ~ /^src\// && words ~ /^it is not proved that /)
        print edit, holding(crate, file, line)
    else
        print edit, "- " told
}
