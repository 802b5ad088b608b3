//! The program in the README: it is examples/fifteen.rs, line for line, and runs.

mod fifteen {
    include!("../examples/fifteen.rs");

    #[test]
    fn runs() {
        assert_eq!(main(), Ok(()));
    }
}

#[test]
fn the_readme_shows_it_in_fifteen_lines() {
    let program: Vec<&str> = include_str!("../examples/fifteen.rs").lines().skip_while(|line| line.starts_with("//")).collect();
    assert!(program.len() <= 15, "{} lines", program.len());
    let indented = |line: &&str| if line.is_empty() { "\n".to_string() } else { format!("    {line}\n") };
    let shown: String = program.iter().map(indented).collect();
    assert!(include_str!("../../README.md").contains(&shown), "the README shows another program than examples/fifteen.rs:\n{shown}");
}
