# The tables of docs/REGISTERS.md.

function cell(text) {
    return text == "-" ? "" : text
}

# A range as it is read: the sign of "at most" in one, and where the fields of a register are told.
function allowed(i,    text) {
    if (range[i] == "by field")
        return "[by field](#" tolower(name[i]) ")"
    text = cell(range[i])
    gsub(/<=/, "≤", text)
    return text
}

function swno(i) {
    if (of[i] == "digital")
        return "$x" substr(at[i], 2)
    return channel(of[i]) == 0 ? at[i] : sprintf("$%X", 16 * channel(of[i]) + number(at[i]))
}

function registers(    i) {
    print "| SWNo | Name | Access | Size | Type | Unit | Range | Kept | What reading changes | What it is |"
    print "|---|---|---|---|---|---|---|---|---|---|"
    for (i = 1; i <= rows; i++)
        if (kind[i] == "register") {
            printf "| %s | %s | %s | %s | %s ", swno(i), name[i], access[i], size[i], type[i]
            printf "| %s | %s | %s | %s | %s |\n", cell(unit[i]), allowed(i), kept[i], cell(reading[i]), about[i]
        }
}

function fields(whole,    i) {
    print "| Offset | Size | Name | Type | Range | What it is |"
    print "|---|---|---|---|---|---|"
    for (i = 1; i <= rows; i++)
        if (kind[i] == "field" && of[i] == whole)
            printf "| %s | %s | %s | %s | %s | %s |\n", at[i], size[i], name[i], type[i], allowed(i), about[i]
}

function bits(whole,    i) {
    print "| Bit | Mask | Name | What it tells |"
    print "|---|---|---|---|"
    for (i = 1; i <= rows; i++)
        if (kind[i] == "bit" && of[i] == whole)
            printf "| %s | $%02X | %s | %s |\n", at[i], 2 ^ at[i], cell(name[i]), about[i]
}

function values(whole,    i) {
    print "| Value | Name | What it does |"
    print "|---|---|---|"
    for (i = 1; i <= rows; i++)
        if (kind[i] == "value" && of[i] == whole)
            printf "| %s | %s | %s |\n", at[i], name[i], about[i]
}

function expand(what, whole) {
    expanded = 1
    if (what == "registers")
        registers()
    else if (what == "fields")
        fields(whole)
    else if (what == "bits")
        bits(whole)
    else if (what == "values")
        values(whole)
    else
        expanded = 0
}
