# Reads the rows of docs/registers.tsv, the first file, and then prints the template, the second. Each line "@@ WHAT OF"
# of it stands for what expand(WHAT, OF), of another file, prints.

# The number of a text, hexadecimal after $.
function number(text,    value, i) {
    if (text !~ /^\$/)
        return text + 0
    value = 0
    for (i = 2; i <= length(text); i++)
        value = 16 * value + index("0123456789ABCDEF", substr(text, i, 1)) - 1
    return value
}

# The channel of the registers that a word of the column "of" names; the first one of the digital ones.
function channel(word) {
    return word == "service" ? 0 : word == "digital" ? 1 : word == "common" ? 17 : 19
}

function fail(why) {
    printf "%s: %s\n", FILENAME, why >"/dev/stderr"
    failed = 1
    exit 1
}

FNR == 1 { files++ }

files == 1 && /^#/ { next }

files == 1 && NF != 13 { fail("line " FNR " has not 13 columns") }

files == 1 && $1 == "kind" { next }

files == 1 {
    rows++
    kind[rows] = $1; of[rows] = $2; at[rows] = $3; name[rows] = $4; constant[rows] = $5
    access[rows] = $6; size[rows] = $7; type[rows] = $8; unit[rows] = $9; range[rows] = $10
    kept[rows] = $11; reading[rows] = $12; about[rows] = $13
    if ($1 != "register" && $1 != "field" && $1 != "bit" && $1 != "value")
        fail("line " FNR " has the unknown kind " $1)
    next
}

/^@@ / {
    split($0, words, " ")
    expanded = 0
    expand(words[2], words[3])
    if (!expanded)
        fail("nothing for " $0)
    next
}

{ print }

END { exit failed }
