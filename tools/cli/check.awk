# Compares the answers that a script states in its comments with those in the file ANSWERS, one a call. NAME is the script's.

function short(text) {
    return length(text) > 160 ? substr(text, 1, 157) "..." : text
}

function differs(line, text, stated, came) {
    printf "%s:%d: %s\n  stated  %s\n  came    %s\n", name, line, short(text), short(stated), short(came)
    different++
}

# Ends the call that stands last.
function leave() {
    if (call_line && !stated_for) {
        unstated++
        if (answer ~ /^error /) differs(call_line, call, "nothing", answer)
    }
    call_line = 0
}

# Takes the next answer for a call.
function enter(text) {
    leave()
    call_line = NR
    call = text
    stated_for = 0
    if ((getline answer <answers) <= 0) answer = "nothing"
}

function hold(stated,    came) {
    if (!call_line || stated_for) {
        differs(NR, "this answer is stated for no call", stated, "nothing")
        return
    }
    stated_for = 1
    compared++
    came = answer
    if (sub(/\.\.\.$/, "", stated)) came = substr(answer, 1, length(stated))
    if (came != stated) differs(call_line, call, stated, answer)
}

BEGIN {
    name = ENVIRON["NAME"]
    answers = ENVIRON["ANSWERS"]
}

{
    long = length($0) > 16384
    if (NR == 1) sub(/^\357\273\277/, "")
    at = index($0, "#")
    text = at ? substr($0, 1, at - 1) : $0
    gsub(/^[ \t\r]+|[ \t\r]+$/, "", text)
    if (text != "" || long) enter(text)
    if (at && match(substr($0, at + 1), /^[ \t]*->[ \t]*/)) {
        stated = substr($0, at + 1 + RLENGTH)
        sub(/[ \t\r]+$/, "", stated)
        hold(stated)
    }
}

END {
    leave()
    printf "check: %s: %d stated answers, %d differences%s\n", name, compared, different, unstated ? ", " unstated " calls that state none" : ""
    exit different > 0
}
