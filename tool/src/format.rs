//! The refusals' paragraphs of docs/FORMAT.md.

/// The page itself, as it was when this was built.
pub const FORMAT: &str = include_str!("../../docs/FORMAT.md");

/// The refusals' numbers.
pub const NUMBERS: std::ops::RangeInclusive<u8> = 1..=17;

/// The headings of the refusals, `N: condition`.
pub fn headings() -> impl Iterator<Item = &'static str> {
    FORMAT.lines().filter_map(|line| line.strip_prefix("### ")).filter(|line| line.starts_with(|sign: char| sign.is_ascii_digit()))
}

/// A refusal's section, its heading first; the book that it shows is indented, where the page has a fence about it.
pub fn section(number: u8) -> Option<String> {
    let start = format!("### {number}: ");
    let mut lines = FORMAT.lines().skip_while(|line| !line.starts_with(&start));
    let heading = lines.next()?.trim_start_matches("### ");
    let mut section = format!("{heading}\n");
    let mut fenced = false;
    for line in lines.take_while(|line| !line.starts_with('#')) {
        let is_fence = line.starts_with("```");
        fenced ^= is_fence;
        if !is_fence {
            section += &format!("{}{line}\n", if fenced { "    " } else { "" });
        }
    }
    Some(section.trim_end().to_owned() + "\n")
}
