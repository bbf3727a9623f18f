# Reads what 'cargo test' says, and prints how many tests passed of each file that has any: 'tests/FILE COUNT' of one in tests/,
# 'CRATE/src/FILE COUNT' of one in src/, 'CRATE COUNT' of what the comments of a crate show.
$1 == "Running" {
    file = $2
    if (file == "unittests") {
        crate = $4
        sub(/.*\//, "", crate)
        sub(/-[0-9a-f]+\)$/, "", crate)
        file = crate "/" $3
    }
}

$1 == "Doc-tests" {
    file = $2
}

/^test result: / && $4 > 0 {
    print file, $4
}
