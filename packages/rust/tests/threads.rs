//! Any thread may be the first to call.
#![cfg(not(target_family = "wasm"))]

#[test]
fn threads() {
    let calls: Vec<_> = (0..8)
        .map(|_| std::thread::spawn(|| lbk::breaks("a b").count() + lbk::words("a b").count()))
        .collect();
    for call in calls {
        assert_eq!(call.join().unwrap(), 4);
    }
}
