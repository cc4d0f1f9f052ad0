//! Counting.
use haya_entry::Steps;

#[test]
fn counts_each_tick(rt: HostRuntime) {
    let mut steps = Steps::new();
    assert!(rt; steps.seen() == 0);
    steps.tick();
    steps.tick();
    steps.tick();
    assert!(rt; steps.seen() == 3);
}
