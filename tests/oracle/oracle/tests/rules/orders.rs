//! The orders in which fragments come: there are all of them, and what is told of their rooms is so.

use std::collections::{BTreeMap, BTreeSet};

use oracle::cases::{Calls, Case, Reader};
use oracle::named::Reply;
use oracle::orders::{Ordered, orders};

use crate::named::{asked, cases};
use crate::subject::Subject;

/// What a case is answered at its end: what goes out of the packets on all assets' identifiers, and how many are dropped.
/// The second filter answers all of it as the original does.
fn end(ordered: &Ordered) -> [Reply; 2] {
    let name = format!(
        "{}, {:?}, {:?}",
        ordered.family, ordered.order, ordered.room
    );
    let answer = asked(&Subject::original(), &name, &ordered.case).expect("a start");
    let plain = asked(&Subject::plain(), &name, &ordered.case).expect("a start");
    assert_eq!(answer, plain, "{name}");
    answer.last_chunk().expect("two answers at least").clone()
}

#[test]
fn each_family_has_all_its_orders() {
    let mut families = BTreeMap::<_, BTreeSet<_>>::new();
    let mut cases = 0;
    for ordered in orders() {
        let family = families.entry(ordered.family).or_default();
        family.insert(ordered.order);
        cases += 1;
    }
    let families: Vec<_> = families
        .into_iter()
        .map(|(name, orders)| (name, orders.len()))
        .collect();
    // 9! / (2! 4! 3!), 8! / 2!⁴ and 9! / 3!³
    let expected = [
        ("a first again, longer", 1_260),
        ("a first again, shorter", 1_260),
        ("a whole behind a first", 1_260),
        ("a whole behind a middle", 1_260),
        ("four messages", 2_520),
        ("three messages", 1_680),
        ("three messages with empty fragments", 1_680),
    ];
    assert_eq!(families, expected);
    assert_eq!(cases, 5 * 10_920);
}

/// Where T is met all messages are joined in the end, and the identifiers of all services and assets are dropped. With a
/// byte less in T or M that is not so, unless what is given up would have come to nothing: a first that comes again, or
/// fragments before a whole message. Where T is less from the start, much is given up either way.
#[test]
fn a_byte_less_shows() {
    let mut orders = orders();
    let (mut hidden, mut shown_with_less) = (0, 0);
    while let Some(met) = orders.next() {
        let joined = end(&met);
        let less: Vec<_> = orders.by_ref().take(4).map(|less| end(&less)).collect();
        let [passed, less_met, less_passed, most_passed] = &less[..] else {
            panic!("five rooms for each order");
        };
        let services = 1 + *met.order.iter().max().expect("some services") as u32;
        let assets: u32 = (1..=services).sum();
        assert_eq!(joined[1], Reply::Dropped(services + assets), "{met:?}");
        assert_ne!(&joined, most_passed, "{met:?}");
        let disturbed = !met.family.contains("messages");
        assert!(disturbed || &joined != passed, "{met:?}");
        hidden += usize::from(&joined == passed);
        shown_with_less += usize::from(less_met != less_passed);
    }
    assert!(hidden < 200, "{hidden} of 5,040 disturbed orders");
    assert!(
        shown_with_less > 4_000,
        "{shown_with_less} of 10,920 orders"
    );
}

#[test]
fn the_command_writes_them_in_order() {
    let bytes = cases(&["--orders"]);
    let mut written = Reader::new(&bytes);
    for ordered in orders() {
        let expected = Case::Calls(Calls::from(&ordered.case));
        assert_eq!(written.next(), Some(expected));
    }
    assert_eq!(written.next(), None);
}
