# The constants of include/pd3120_registers.h and of bindings/rust/src/registers.rs, whose templates end in .h.in and
# .rs.in.

# A constant, with what is said of it in C, where that is anything, and in Rust.
function put(symbol, value, rust_type, in_c, in_rust) {
    expanded = 1
    if (FILENAME ~ /\.rs\.in$/)
        printf "/// %s.\npub const %s: %s = %s;\n", in_rust, symbol, rust_type, value
    else if (in_c == "")
        printf "#define PD3120_%-31s %s\n", symbol, value
    else
        printf "#define PD3120_%-31s %-5s /* %s */\n", symbol, value, in_c
}

function bytes(count) {
    return count (count == 1 ? " byte" : " bytes")
}

# The first part of a text, since a constant has one line.
function first(text) {
    sub(/[.;:] .*/, "", text)
    return text
}

# A register in a few words, such as "Counter: W, 4 bytes, signed 32 bits, pulses".
function short(i,    text) {
    text = name[i] ": " access[i] ", " bytes(size[i])
    if (type[i] !~ /^byte/)
        text = text ", " type[i]
    return unit[i] == "-" ? text : text ", " unit[i]
}

function register(i, what) {
    if (what == "swnos" && of[i] != "digital")
        put("SWNO_" constant[i], sprintf("0x%03X", 16 * channel(of[i]) + number(at[i])), "u16", short(i), short(i))
    else if (what == "regs" && of[i] == "digital")
        put("REG_" constant[i], sprintf("0x%X", number(at[i])), "u8", short(i), short(i))
    else if (what == "sizes")
        put("SIZE_" constant[i], size[i], "usize", "", "Bytes of " name[i])
}

function part(i, what, whole,    said) {
    said = name[i] ". " first(about[i])
    if (kind[i] == "field" && what == "offsets")
        put("OFFSET_" constant[i], at[i], "usize", first(about[i]), said ", " bytes(size[i]))
    else if (kind[i] == "bit" && what == "bits" && of[i] == whole && constant[i] != "-")
        put(constant[i], sprintf("0x%02X", 2 ^ at[i]), "u8", first(about[i]), said)
    else if (kind[i] == "value" && what == "values" && of[i] == whole)
        put(constant[i], sprintf("0x%02X", number(at[i])), size[i] == 1 ? "u8" : "u16", first(about[i]), said)
}

function expand(what, whole,    i) {
    for (i = 1; i <= rows; i++)
        if (kind[i] == "register")
            register(i, what)
        else
            part(i, what, whole)
}
