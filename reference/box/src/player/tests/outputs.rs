//! The line `outputs`: a question beside the calls.

use super::*;

#[test]
fn outputs_answers_a_bit_for_each_channel_that_is_on() {
    let script = "outputs\nwrite d 01\nwrite 9 00100000\nwrite 19 00100000\n\
                  write 29 01100000\nwrite a9 00500000\nwrite 109 00300000\nwrite 10 80\n\
                  outputs\nwrite 20 80\nwrite a0 80\nwrite 30 80\noutputs\n\
                  write 110 ffff\noutputs\ntick\noutputs\nsample 1 0 40000001\noutputs\n\
                  write a9 00500000\noutputs\nwrite 3 ff\noutputs\n";
    let answers = played(script);
    let outputs = answers.iter().filter(|line| line.starts_with("outputs"));
    let expected = [
        "0000", "0001", "0203", "8203", "8203", "8202", "8002", "0000",
    ];
    let expected = expected.map(|word| format!("outputs {word}"));
    assert_eq!(
        outputs.collect::<Vec<_>>(),
        expected.iter().collect::<Vec<_>>()
    );
}

/// OutFlag is in each box value a part of Output, and Functions the other.
#[test]
fn outputs_asks_for_functions_too() {
    let mut device = ChannelBox::default();
    for channel in &mut device.channels {
        channel.out_flag = true;
    }
    assert_eq!(Call::Outputs.make(&mut device), Reply::Outputs(0));
    for (index, functions) in [(0, 0x10), (3, 0x20), (4, 0x40), (8, 0x30), (15, 0x50)] {
        device.channels[index].kept.config.functions = functions;
    }
    assert_eq!(Call::Outputs.make(&mut device), Reply::Outputs(0x8109));
}

/// No clearing, no preset and no other change: the box is the same before and
/// after, also where the watchdog has run out.
#[test]
fn outputs_changes_nothing() {
    let mut device = ChannelBox::default();
    device.tick();
    device.wd_preset = 80;
    device.channels[4].kept.config.functions = 0x10;
    device.channels[4].out_flag = true;
    let before = device.clone();
    assert_eq!(Call::Outputs.make(&mut device), Reply::Outputs(0x0010));
    assert!(device == before);
}

#[test]
fn outputs_takes_no_words() {
    for line in [
        "outputs 1",
        "outputs 0000",
        "outputs -",
        "outputs 1 2",
        "outputs outputs",
    ] {
        assert_wrong(line, "wrong number of words");
    }
    for line in [
        "Outputs",
        "OUTPUTS",
        "output",
        "outputs,",
        "outputs0",
        "Outputs 1",
    ] {
        assert_wrong(line, "unknown call");
    }
    let script = "  outputs\t\r\noutputs # the end\noutputs#\n#outputs\n";
    assert_eq!(played(script), ["outputs 0000"; 3]);
}
