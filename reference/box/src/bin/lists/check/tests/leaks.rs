//! Change 2: boxes in which c's quarters learn of its strangers. Each is found.

use super::leaky::{files, Leak, Leaky};
use super::*;

#[test]
fn each_leak_is_found_in_operating_time() {
    for leak in [
        Leak::Run,
        Leak::Write,
        Leak::RefusedWrite,
        Leak::Config,
        Leak::Sample,
        Leak::Shared,
    ] {
        let files = Files::of(made(200), || Leaky::new(leak));
        let why = files.check().expect_err("a leak");
        assert!(why.contains(", OperatingTime ("), "{leak:?}: {why}");
    }
}

/// Where no call of c comes after the leak, only the further ticks show it.
#[test]
fn a_leak_that_no_register_shows_is_found_by_the_further_ticks() {
    let run = "sample 1 1 00000000, tick 2";
    for (leak, stranger) in [
        (Leak::Write, "write 34 00000000"),
        (Leak::RefusedWrite, "write 34 00"),
        (Leak::Config, "write 39 00"),
        (
            Leak::Run,
            "sample 1 0 00000000, sample 2 1 00000000, tick, sample 2 0 00000000",
        ),
    ] {
        let others = match leak {
            Leak::Run => "sample 1 0 00000000, tick",
            _ => "read 30 00",
        };
        let lists = [stranger, others].map(|calls| format!("{run}, {calls}"));
        let files = files(leak, &lists[0], &lists[1]);
        files.assert_found(&["left-over quarters, the read of SWNo $14, OperatingTime"]);
    }
}
