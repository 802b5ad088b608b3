//! The picture of an outline across 180 degrees: docs/seam.svg is what examples/seam.rs draws.

#[allow(dead_code)]
mod seam {
    include!("../examples/seam.rs");

    #[test]
    fn is_drawn() {
        assert!(
            picture() == Ok(include_str!("../../docs/seam.svg").to_string()),
            "docs/seam.svg is another picture than examples/seam.rs draws"
        );
    }
}
