//! The first rule that a layout breaks, and that a layout is refused exactly where one is broken.

use enclave::{Layout, Refusal, Rule};

// The rule that these addresses break first; it goes with the refusal.
fn fault(addresses: [u16; 5]) -> Option<Rule> {
    let [a, b, c, d, service] = addresses;
    let told = Layout::fault(a..b, c..d, service);
    let refusal = Layout::new(a..b, c..d, service).err();
    assert_eq!(refusal, told.map(|_| Refusal::Fence), "{addresses:04X?}");
    told
}

#[test]
fn each_rule_is_told() {
    let told = [
        ([0x8000, 0x8008, 0x8100, 0x8104, 0x4500], None),
        ([0x8001, 0x8008, 0x8100, 0x8104, 0x4500], Some(Rule::Odd)),
        ([0x8000, 0x8008, 0x8100, 0x8104, 0x4501], Some(Rule::Odd)),
        ([0x8008, 0x8008, 0x8100, 0x8104, 0x4500], Some(Rule::Empty)),
        ([0x8000, 0x8008, 0x8104, 0x8100, 0x4500], Some(Rule::Empty)),
        (
            [0x8000, 0x8008, 0x8006, 0x8104, 0x4500],
            Some(Rule::Overlap),
        ),
        ([0x8000, 0x8008, 0x8008, 0x8104, 0x4500], None),
        (
            [0x8000, 0x8008, 0x8100, 0x8104, 0x8006],
            Some(Rule::Service),
        ),
        ([0x8000, 0x8008, 0x8100, 0x8104, 0x8008], None),
    ];
    for (addresses, rule) in told {
        assert_eq!(fault(addresses), rule, "{addresses:04X?}");
    }
}

#[test]
fn rules_come_in_the_order_odd_empty_overlap_service() {
    assert_eq!(
        fault([0x8008, 0x8008, 0x8100, 0x8104, 0x4501]),
        Some(Rule::Odd)
    );
    assert_eq!(
        fault([0x8008, 0x8000, 0x8000, 0x8008, 0x8000]),
        Some(Rule::Empty)
    );
    assert_eq!(
        fault([0x8000, 0x8008, 0x8000, 0x8008, 0x8000]),
        Some(Rule::Overlap)
    );
}

#[test]
fn rules_have_numbers_and_sentences() {
    assert_eq!(Rule::ALL.map(Rule::number), [1, 2, 3, 4]);
    assert_eq!((Rule::from_number(0), Rule::from_number(5)), (None, None));
    for rule in Rule::ALL {
        assert!(rule.to_string().contains(": "), "{rule}");
    }
}
