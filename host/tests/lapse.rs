//! The picture of a chart before and after leases lapse: docs/lapse.svg is what examples/lapse.rs draws.

#[allow(dead_code)]
mod lapse {
    include!("../examples/lapse.rs");

    #[test]
    fn is_drawn() {
        assert!(
            picture() == Ok(include_str!("../../docs/lapse.svg").to_string()),
            "docs/lapse.svg is another picture than examples/lapse.rs draws"
        );
    }
}
