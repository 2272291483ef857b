//! `play [FILE]`: plays a script of calls on one box and prints a line a call.
//!
//! The script comes from FILE or from standard input, one call a line. '#' to
//! the line's end is a comment; blank lines pass without output. Words are
//! parted by blanks, tabs or carriage returns. Hexadecimal digits may be of
//! either case, '-' is the empty byte string. The mark of UTF-8, bytes EF BB BF,
//! is skipped at the very start of the script; its bytes count to the length of
//! line 1.
//!
//! | call              | answer                                          |
//! |-------------------|-------------------------------------------------|
//! | `power HEX`       | `power NUMBER`                                  |
//! | `store N`         | `store NUMBER LENGTH BUFFER`                    |
//! | `read SWNO HEX`   | `read NUMBER LENGTH DATAERROR GENERALERROR BUFFER` |
//! | `write SWNO HEX`  | `write NUMBER 0 DATAERROR GENERALERROR`         |
//! | `sample CH LEVEL REAL` | `sample NUMBER`                            |
//! | `tick [N]`        | `tick 0`, one line for N ticks                  |
//! | `lookup TABLE REAL` | `lookup NUMBER REAL`, `00000000` where refused |
//! | `charge EARLIER LATER LITRES [LIMIT PRICE]... PRICE` | `charge NUMBER CENTS`, `0` where refused |
//! | `minute N`        | `minute NUMBER`                                 |
//! | `windows CH [START END]...` | `windows NUMBER`                      |
//! | `outputs`         | `outputs WORD`, bit k−1 for channel k's Output  |
//!
//! `store` lends N bytes of $A5, N up to 4096. SWNO is hexadecimal, up to
//! $FFFF, and may begin with a mark, `$`, `0x` or `0X`; no other word may. CH
//! and TABLE are decimal, up to 255; LEVEL is 0 or 1; REAL is a Real's eight
//! hexadecimal digits, lowercase ones in an answer; N ticks are decimal, up to
//! 4294967295, 1 if left out. Before the first `power` the box is the one of a
//! refused power-up.
//!
//! `charge` is no call on the box. EARLIER and LATER are two Counter values as
//! a read gives them, eight hexadecimal digits each. The other words are
//! decimal: LITRES, litres per pulse, and PRICE, in hundredths of a cent per
//! litre, up to 4294967295, LIMIT, in litres, up to 18446744073709551615. The
//! blocks stand in order, the last a price alone; up to eight are taken in, and
//! where there is none, there is no word after LITRES. CENTS are decimal.
//!
//! N of `minute`, a minute of the week, and START and END of a window are
//! decimal, up to 65535. Of windows up to sixteen pairs are taken in, also none.
//!
//! `outputs` is a question beside the calls: it is no wire call and changes
//! nothing. WORD has four lowercase hexadecimal digits.
//!
//! Every other line changes nothing and gets `error LINE: WHY`, with LINE
//! counted from 1. WHY is the first of these that holds, words being looked
//! at from left to right:
//!
//! - `line too long`: over 16384 bytes without its line feed, be it call,
//!   comment or blank
//! - `unknown call`: the first word is no call's name
//! - `wrong number of words`
//! - `not a hexadecimal string`: some other character in it, '-' for a number,
//!   a mark with no digits after it, or a REAL or a Counter value that is not of
//!   eight digits
//! - `odd number of hexadecimal digits`: in a byte string
//! - `not a decimal number`
//! - `number too large`
//! - `not 0 or 1`: for a level

use reference_box::player::play;
use reference_box::ChannelBox;
use std::fs::File;
use std::io::{self, BufReader, BufWriter};
use std::process::ExitCode;

fn run(file: Option<&String>) -> io::Result<()> {
    let mut device = ChannelBox::default();
    let output = BufWriter::new(io::stdout().lock());
    match file {
        Some(path) => play(&mut device, BufReader::new(File::open(path)?), output),
        None => play(&mut device, io::stdin().lock(), output),
    }
}

fn main() -> ExitCode {
    let arguments: Vec<String> = std::env::args().skip(1).collect();
    if arguments.len() > 1 {
        eprintln!("usage: play [FILE]");
        return ExitCode::from(2);
    }
    match run(arguments.first()) {
        Ok(()) => ExitCode::SUCCESS,
        Err(error) if error.kind() == io::ErrorKind::BrokenPipe => ExitCode::SUCCESS,
        Err(error) => {
            eprintln!("play: {error}");
            ExitCode::FAILURE
        }
    }
}
