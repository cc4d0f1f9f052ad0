//! Names that are passed over, counted. `tests/told` tries which are.
use haya_json::Ignored;

#[test]
fn counts_names_by_hand(rt: HostRuntime) {
    let mut ignored = Ignored::new(rt.alloc());
    for name in ["b", "a", "b"] {
        ignored.add(name).expect(&rt, "memory");
    }
    assert!(rt; ignored.count("b") == 2 && ignored.count("a") == 1 && ignored.count("c") == 0);
    let mut same = Ignored::new(rt.alloc());
    for name in ["a", "b", "b"] {
        assert!(rt; same != ignored, "before {name}");
        same.add(name).expect(&rt, "memory");
    }
    assert!(rt; same == ignored);
}
