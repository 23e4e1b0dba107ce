//! A sample of the recorded runs; `replay` takes any others by their paths.

use second::Limits;

macro_rules! recorded {
    ($limits:expr, $($test:ident: $file:literal),* $(,)?) => {$(
        #[test]
        fn $test() {
            let text = include_str!(concat!("../data/", $file));
            let replayed = second::replay::replay($limits, text);
            assert!(replayed.expect("answers as recorded") > 0);
        }
    )*};
}

recorded! {
    Limits::SMALL,
    settings: "settings.txt",
    fuzz_002: "fuzz-002.txt",
    parents: "parents.txt",
    sim_001: "sim-001.txt",
    display: "display.txt",
    fuzz_008: "fuzz-008.txt",
    damage_6: "damage-6.txt",
    ahead: "ahead.txt",
    quorums: "quorums.txt",
}

recorded! {
    Limits::LARGE,
    large_views: "large/views.txt",
}

#[test]
fn another_answer_is_found() {
    let replay = |text: &str| second::replay::replay(Limits::SMALL, text);
    assert_eq!(replay("fresh 3 1 0\n= 0 -\n# a remark\ntick\n= 0 -\n"), Ok(2));
    assert!(replay("fresh 3 1 0\n= 10 -\n").is_err());
    assert!(replay("fresh 3 1 0\n= 0 -\ntick\n= 0 00\n").is_err());
    assert!(replay("tick\n= 0 -\n").is_err());
    assert!(replay("fresh 3 1 0\n").is_err());
    assert!(replay("step 0\n= 4 -\n").is_err());
    let asked = |answer| format!("fresh 3 1 0\n= 0 -\ncertified 1 0 {:064}\n= {answer}\n", 0);
    assert_eq!(replay(&asked("0 0")), Ok(2));
    assert!(replay(&asked("0 1")).is_err() && replay(&asked("1 0")).is_err());
    assert!(replay(&asked("0 -")).is_err());
    // A refused fresh start leaves the station of before.
    assert_eq!(replay("fresh 3 1 0\n= 0 -\nfresh 4 1 0\n= 10 -\ntick\n= 0 -\n"), Ok(3));
}
