//! Rows on the rules: the drop set of a broadcast of which one service is wanted, without captions and carousels. Both
//! sides are `decide`.

use face::Options;
use oracle::builders::{ALL, data, whole};
use original::Parts;

use crate::broadcast::{Message, mpt_of, plt_of, service};
use crate::known::Known;
use crate::measure::Row;

const WISHES: Options = Options {
    caption: false,
    carousel: false,
    ..ALL
};

pub fn rows() -> Vec<Row> {
    vec![
        row("drop set, 10 lists of 8 assets", 10, 8),
        row("drop set, 64 lists of 255 assets", 64, 255),
    ]
}

/// A row in which both sides know as many services with as many assets, and a data carousel.
fn row(name: &str, services: u16, assets: u16) -> Row {
    let options = Options {
        service: Some(service(services / 2)),
        ..WISHES
    };
    let (mut filter, mut known) = (Parts::new(options), Known::new());
    let mpts = (0..services).map(|service| mpt_of(service, assets, 0));
    let first: [Message; 2] = [plt_of(services, 0), (0x0fff, data())];
    for (identifier, message) in first.into_iter().chain(mpts) {
        let payload = whole(&message);
        filter.observe(identifier, &payload);
        known.observe(identifier, &payload);
    }
    filter.decide();
    known.decide(options);
    assert_eq!(known.learned(), filter.learned(), "{name}");
    assert_eq!(&known.dropped(), filter.dropped(), "{name}");
    Row {
        name: name.to_owned(),
        times: 1,
        original: Box::new(move || {
            filter.decide();
            1
        }),
        proved: Box::new(move || {
            known.decide(options);
            1
        }),
        aside: None,
    }
}
