# What ./pd3120 says of itself. Sourced by ./pd3120.

# The page of one command, or of all with the format of scripts.
help_of() { # COMMAND
    case $1 in
    all)
        usage
        echo
        format
        ;;
    play)
        help_play
        echo
        format
        ;;
    demo | check | lib | compare | bench) "help_$1" ;;
    *) stop "there is no command '$1'; ./pd3120 help lists them" ;;
    esac
}

usage() {
    cat <<'HELP'
usage: ./pd3120 play [FILE]              play a script of calls, from standard input without FILE
       ./pd3120 check FILE               play a script, and compare the answers that its comments state
       ./pd3120 demo                     play examples/wellhead.calls, a day at a well head, with its comments
       ./pd3120 lib                      build the C libraries of the box and of the charge
       ./pd3120 compare [SEED [CALLS]]   play random calls through the proved library and the independent model
       ./pd3120 compare --script FILE    play a script through both
       ./pd3120 bench [--quick]          measure the C libraries beside the independent model
       ./pd3120 --version                the library's version and the Rattle kit's
       ./pd3120 help [COMMAND]           this page, or a command's own; so does COMMAND --help

It ends with 0; with 1 where it found something wrong (a line that is no call, an answer that differs, output that can't
be written); with 2 where it could do nothing (a wrong word, no such file, a proof that fails).
What a command needs is proved and built where a source has changed since; the first time that takes long.
HELP
}

format() {
    cat <<'HELP'
A script has one call a line; '#' to the line's end is a comment. Words are parted by blanks and tabs. Bytes (HEX) and
SWNO are hexadecimal, '-' is no bytes, a SWNO may begin with '$' or '0x'; REAL is a Real's 8 hexadecimal digits; other
numbers are decimal.
  power HEX           power up from a setup image         -> power NUMBER
  store N             store the image, lending N bytes    -> store NUMBER LENGTH BUFFER
  read SWNO HEX       wire read, lending the bytes HEX    -> read NUMBER LENGTH DATAERROR GENERALERROR BUFFER
  write SWNO HEX      wire write of the bytes HEX         -> write NUMBER 0 DATAERROR GENERALERROR
  sample CH 0|1 REAL  level, then current, of channel CH  -> sample NUMBER
  lookup TABLE REAL   look a Real up in table 1 or 2      -> lookup NUMBER REAL
  tick [N]            N ticks of 1/32 s, 1 if left out    -> tick 0
  minute N            set the minute of the week          -> minute NUMBER
  windows CH [START END]..  give channel CH its windows   -> windows NUMBER
  outputs             look at the terminals; no call      -> outputs WORD
  charge EARLIER LATER LITRES [LIMIT PRICE].. PRICE       -> charge NUMBER CENTS
NUMBER is 0 where the call is done, and else why it is refused (document 01, "Questions in order", and document 02).
Before the first power, the box is the one that a refused power-up gives: all settings 0.
An image has 886 bytes, as it is stored, or 717 without the data channel. store lends at most 4096 bytes, each $A5.
A line has at most 16384 bytes, its line feed not counted. N of tick is at most 4294967295, CH and TABLE 255. A UTF-8
mark at the start of a script is skipped.
A minute of the week is 0 to 10079, from the week's start as the installer takes it. A channel's windows are given
whole, and no windows take those that stand away; a window's START is in it and its END is not. Up to sixteen windows
are taken in, and more than eight are refused by 19. N, START and END are taken in up to 65535, and refused by 18 from
10080 on.
WORD is four hexadecimal digits, bit k-1 for channel k's Output. outputs changes nothing, and feeds no watchdog.
A charge is no call on the box: two Counter values as they were read, of 8 hexadecimal digits each, the litres per
pulse, and the blocks of the tariff in order, each with its upper LIMIT in litres, but for the last, and its PRICE in
hundredths of a cent per litre. No block, or up to eight, are taken in; none, and more than four, are refused by 17.
A line that is none of these is answered, and changes nothing:
  error LINE: WHY     WHY is: line too long, unknown call, wrong number of words, not a hexadecimal string,
                      odd number of hexadecimal digits, not a decimal number, number too large, not 0 or 1
HELP
}

help_play() {
    cat <<'HELP'
usage: ./pd3120 play [FILE]

Plays a script of calls on the proved box, and prints an answer for each call. FILE may be a pipe; without it, or as
'-', the script is standard input. It ends with 1 where a line is no call or the answers can't be written, and says so
in one line on standard error; the calls after a wrong line are played all the same.
HELP
}

help_check() {
    cat <<'HELP'
usage: ./pd3120 check FILE

Plays a script and compares the answers that its comments state with those that come. A comment states the answer of the
call on its line, or, on a line of its own, of the call before it:
  read 42 00000000                    # -> read 0 4 0 0 000003ea
'...' at its end stands for the rest of a long answer. For each difference it prints FILE:LINE, the call, what was
stated and what came. It ends with 0 where all stated answers come, 1 where one differs or a line that states none is no
call, 2 where the script can't be played. A call that states no answer is only counted.
HELP
}

help_demo() {
    cat <<'HELP'
usage: ./pd3120 demo

Plays examples/wellhead.calls, a day at a well head, and prints its comments, each call and the answer that it gets.
HELP
}

help_lib() {
    cat <<'HELP'
usage: ./pd3120 lib

Proves and builds the C libraries: in target/staticlib, libpd3120_c.a for the box and libcharge_c.a for the charge above
it. They are for x86-64 Linux. include/ has their headers.
HELP
}

help_compare() {
    cat <<'HELP'
usage: ./pd3120 compare [SEED [CALLS]]
       ./pd3120 compare --script FILE

Plays CALLS random calls (200000) of SEED (a fresh one) through the proved library, by its player and by its C boundary,
and through the independent model of the box, compares every answer, and checks two lists by running. SEED has at most
18 digits, CALLS at most 9 and is not 0. Where an answer differs, the script is kept up to that call, and the command
that plays it again is printed: with --script, a script is played through all three. It needs cargo, and ends with 1
where something differs.
HELP
}

help_bench() {
    cat <<'HELP'
usage: ./pd3120 bench [--quick]

Measures the C libraries beside the independent model, in one run on the same calls: time, instructions where there is
valgrind (not with --quick), and the libraries' stack and code. It needs cargo.
HELP
}
