//! The header, the wrapper's own declarations and the engine's exported functions say the same: names, parameters and results. The
//! header and the wrapper have the same lengths, and the tags, the places, the second figures and the numbers of a join's books of the definitions;
//! docs/FORMAT.md has the functions, the tags and the places. Nothing else compares them.

use std::collections::{BTreeMap, BTreeSet};
use std::fs;
use std::path::Path;

/// A function's parameters, each as C writes it, and its result.
type Signature = (Vec<String>, String);

/// A text without its comments, each run of blanks a single blank.
fn plain(text: &str, comments: &[(&str, &str)]) -> String {
    let mut text = text.to_string();
    for (open, close) in comments {
        while let Some(start) = text.find(open) {
            let end = text[start..].find(close).map_or(text.len(), |at| start + at + close.len());
            text.replace_range(start..end, "\n");
        }
    }
    text.split_whitespace().collect::<Vec<_>>().join(" ")
}

/// The parts of a parameter list.
fn parts(list: &str) -> Vec<&str> {
    list.split(',').map(str::trim).filter(|part| !part.is_empty()).collect()
}

/// The functions that a C header declares.
fn declared_in_c(header: &str) -> BTreeMap<String, Signature> {
    let lines: Vec<&str> = header.lines().filter(|line| !line.starts_with('#')).collect();
    let header = plain(&lines.join("\n"), &[("/*", "*/")]);
    let mut functions = BTreeMap::new();
    for declaration in header.split(';') {
        let Some((before, list)) = declaration.split_once('(') else { continue };
        let words: Vec<&str> = before.split(' ').collect();
        let [.., result, name] = words[..] else { panic!("{before} is not a result and a name") };
        let list = list.strip_suffix(')').expect("the end of the parameters");
        functions.insert(name.to_string(), (parts(list).into_iter().map(str::to_string).collect(), result.to_string()));
    }
    functions
}

/// What a parameter or result of Rust or Rattle is in C: numbers are themselves, and a slice is a pointer and then a length.
fn in_c(name: &str, of: &str) -> Vec<String> {
    match of {
        "&[u8]" => vec![format!("const uint8_t *{name}"), format!("size_t {name}_len")],
        "&mut [u8]" => vec![format!("uint8_t *{name}"), format!("size_t {name}_len")],
        "*const u8" => vec![format!("const uint8_t *{name}")],
        "*mut u8" => vec![format!("uint8_t *{name}")],
        "usize" => vec![format!("size_t {name}").trim_end().to_string()],
        "u32" => vec![format!("uint32_t {name}").trim_end().to_string()],
        "u64" => vec![format!("uint64_t {name}").trim_end().to_string()],
        other => panic!("{name}: {other} is not expected at the boundary"),
    }
}

/// The functions that follow these words, in Rust or Rattle.
fn declared_after(words: &str, source: &str) -> BTreeMap<String, Signature> {
    let source = plain(source, &[("//", "\n")]);
    let mut functions = BTreeMap::new();
    for text in source.split(words).skip(1) {
        let (name, text) = text.split_once('(').expect("a parameter list");
        let (list, text) = text.split_once(')').expect("its end");
        let result = text.trim_start().strip_prefix("->").expect("a result").trim_start();
        let result = result.split(|c: char| !c.is_ascii_alphanumeric()).next().expect("a type");
        let parameters = parts(list).into_iter().flat_map(|parameter| {
            let (name, of) = parameter.split_once(':').expect("a parameter with its type");
            in_c(name.trim().trim_start_matches("mut ").trim(), of.trim())
        });
        functions.insert(name.trim().to_string(), (parameters.collect(), in_c("", result).concat()));
    }
    functions
}

fn read(path: &str) -> String {
    fs::read_to_string(Path::new(env!("CARGO_MANIFEST_DIR")).join(path)).unwrap_or_else(|error| panic!("{path}: {error}"))
}

fn header() -> BTreeMap<String, Signature> {
    let functions = declared_in_c(&read("cerealbank.h"));
    assert!(!functions.is_empty());
    functions
}

/// The names and numbers of the lines that have this form: what stands before the name, between the two, and after the number.
fn numbers([before, between, after]: [&str; 3], text: &str) -> BTreeMap<String, usize> {
    let numbered = |line: &str| {
        let (name, number) = line.strip_prefix(before)?.strip_suffix(after)?.split_once(between)?;
        Some((name.to_string(), number.parse().ok()?))
    };
    text.lines().filter_map(numbered).collect()
}

/// The header's constants.
fn constants() -> BTreeMap<String, usize> {
    numbers(["#define CEREALBANK_", " ", ""], &read("cerealbank.h"))
}

/// The definition of an answer's numbers.
fn definition() -> String {
    read("../crates/answers/specs/Exported.antt")
}

/// What a join adds to it.
fn definition_of_joins() -> String {
    read("../crates/joining/specs/Exported.antt")
}

/// The header's name for the tag of an answer.
fn named(answer: &str) -> String {
    match answer {
        "value" => "TO_VALUE".to_string(),
        "room" => "NO_ROOM".to_string(),
        other => other.to_uppercase(),
    }
}

/// The tags of the definition under the header's names, and the last number before them: up to it, the tags are refusals.
fn defined_tags() -> BTreeMap<String, usize> {
    let mut tags = numbers(["tag_of (", " n) = ", ""], &definition());
    tags.append(&mut numbers(["stop_tag ", " = ", ""], &definition()));
    let last = tags.values().min().expect("a tag") - 1;
    let tags = tags.into_iter().map(|(name, tag)| (named(&name), tag));
    tags.chain([("LAST_REFUSAL".to_string(), last)]).collect()
}

#[test]
fn the_header_and_the_wrapper_agree() {
    let source = read("src/lib.rs");
    let (_, block) = source.split_once("extern \"C\" {").expect("the declarations");
    let (block, _) = block.split_once('}').expect("their end");
    assert_eq!(header(), declared_after("fn ", block));
}

#[test]
fn the_header_and_the_wrapper_have_the_same_lengths() {
    assert_eq!(constants()["WORK"], cerealbank::WORK);
    assert_eq!(constants()["PROJECT"], cerealbank::PROJECT);
    assert_eq!(constants()["STACK"], cerealbank::STACK);
}

/// "A preview takes what a join takes", with the project lent to be read.
#[test]
fn a_preview_takes_what_a_join_takes() {
    let (mut parameters, result) = header()["cerealbank_join"].clone();
    assert_eq!(parameters[0], "uint8_t *project");
    parameters[0].insert_str(0, "const ");
    assert_eq!(header()["cerealbank_preview"], (parameters, result));
}

/// The sheet call takes what a check takes.
#[test]
fn a_sheet_call_takes_what_a_check_takes() {
    assert_eq!(header()["cerealbank_sheet"], header()["cerealbank_check"]);
}

#[test]
fn the_format_names_the_functions_of_the_header() {
    let format = read("../docs/FORMAT.md");
    let (_, after) = format.split_once("`wrapper/cerealbank.h` declares ").expect("the functions");
    let (names, _) = after.split_once('.').expect("the end of the sentence");
    let names: BTreeSet<&str> = names.split('`').skip(1).step_by(2).collect();
    assert_eq!(names, header().keys().map(String::as_str).collect());
    let (_, table) = format.split_once("\n| answer | from |").expect("the table of answers");
    let rows = table.lines().skip(2).map_while(|line| line.split(" | ").nth(1));
    let from: BTreeSet<String> = rows.flat_map(|calls| calls.split(", ")).map(|call| format!("cerealbank_{call}")).collect();
    assert_eq!(from, names.into_iter().chain(["cerealbank_all"]).map(str::to_string).collect());
}

/// The numbers that are no tags: lengths, and the books of a join.
fn is_tag(name: &str) -> bool {
    !["WORK", "PROJECT", "STACK"].contains(&name) && !name.starts_with("OF_")
}

/// The wrapper's constants of one byte: tags, and the books of a join.
fn in_wrapper() -> BTreeMap<String, usize> {
    numbers(["const ", ": u8 = ", ";"], &read("src/lib.rs"))
}

#[test]
fn the_header_and_the_wrapper_have_the_books_of_the_definition() {
    let of_join = |mut all: BTreeMap<String, usize>| {
        all.retain(|name, _| name.starts_with("OF_"));
        all
    };
    let books = numbers(["which_number_lem ", " = ", ""], &definition_of_joins());
    assert_eq!(books.keys().collect::<Vec<_>>(), ["Joint", "Part", "Project"]);
    let books = books.into_iter().map(|(book, number)| (format!("OF_{}", book.to_uppercase()), number));
    assert_eq!(of_join(constants()), books.collect());
    assert_eq!(of_join(in_wrapper()), of_join(constants()));
}

#[test]
fn the_header_and_the_wrapper_have_the_tags_of_the_definition() {
    let tags = defined_tags();
    assert_eq!(tags.len(), 5, "{tags:?}");
    for mut constants in [constants(), in_wrapper()] {
        constants.retain(|name, _| is_tag(name));
        assert_eq!(constants, tags);
    }
}

#[test]
fn the_format_has_the_tags_of_the_definition() {
    let format = read("../docs/FORMAT.md");
    let (_, table) = format.split_once("\n| tag | answer |\n|---|---|\n").expect("the table of tags");
    let rows = table.lines().map_while(|line| line.strip_prefix("| ")?.strip_suffix(" |")?.split_once(" | "));
    let shown = rows.map(|(tag, answer)| match tag.strip_prefix("1 to ") {
        Some(last) if answer.starts_with("refused") => ("LAST_REFUSAL".to_string(), last),
        _ => (named(answer), tag),
    });
    let shown: BTreeMap<String, usize> = shown.map(|(name, tag)| (name, tag.parse().expect("a number"))).collect();
    assert_eq!(shown, defined_tags());
}

/// The number that follows this mark in a macro of the header.
fn in_macro(name: &str, mark: &str) -> usize {
    let header = read("cerealbank.h");
    let line = header.lines().find_map(|line| line.strip_prefix(&format!("#define CEREALBANK_{name}(answer) ")));
    let (_, after) = line.expect("a macro").split_once(mark).unwrap_or_else(|| panic!("{name} has no {mark}"));
    after.split(|c: char| !c.is_ascii_digit()).next().and_then(|digits| digits.parse().ok()).expect("a number")
}

/// The lowest bits of what an answer is put together from, as powers of 2: of a join, the second figure is the book that is meant and the bytes
/// above it.
#[test]
fn the_header_and_the_wrapper_have_the_places_of_the_definition() {
    let in_header = ["TAG", "SECOND", "WHICH", "BYTES"].map(|name| (name.to_lowercase(), 1 << in_macro(name, ">> ")));
    let in_header = BTreeMap::from(in_header);
    let in_wrapper = numbers(["const ", "_PLACE: u32 = ", ";"], &read("src/lib.rs")).into_iter();
    assert_eq!(in_wrapper.map(|(name, bit)| (name.to_lowercase(), 1 << bit)).collect::<BTreeMap<_, _>>(), in_header);
    let defined = [definition(), definition_of_joins()].map(|text| numbers(["", "_place = ", ""], &text));
    assert_eq!(defined.into_iter().flatten().collect::<BTreeMap<_, _>>(), in_header);
    assert_eq!(in_macro("TAG", "& ") + 1, in_header["second"] / in_header["tag"], "the mask of the tag");
    assert_eq!(in_header["which"], in_header["second"]);
    assert_eq!(in_macro("WHICH", "& ") + 1, in_header["bytes"] / in_header["which"], "the mask of the book");
}

/// Which figure of an answer the definition puts in a place, case by case: none, for 0, or the one at this position.
fn figures(place: &str) -> BTreeMap<String, Option<usize>> {
    let definition = definition();
    let cases = definition.lines().filter_map(|line| line.strip_prefix(place)?.strip_prefix(" (")?.split_once(") = "));
    let figure = |(case, figure): (&str, &str)| {
        let mut words = case.split(' ');
        let name = words.next().expect("a case").to_string();
        let at = words.position(|word| word == figure);
        assert!(at.is_some() || figure == "0", "{place} of {case}: {figure}");
        (name, at)
    };
    cases.map(figure).collect()
}

/// A stop has its steps for the value and its mark for the second figure, which no other answer has.
#[test]
fn the_mark_is_the_second_figure_of_the_definition() {
    let in_order = |[accepted, refused, stopped]: [Option<usize>; 3]| {
        let cases = [("accepted", accepted), ("refused", refused), ("stopped", stopped)];
        BTreeMap::from(cases.map(|(case, figure)| (case.to_string(), figure)))
    };
    assert_eq!(figures("value_of"), in_order([Some(0), Some(1), Some(1)]));
    assert_eq!(figures("second_of"), in_order([None, None, Some(2)]));
    assert!(is_second_figure("MARK"));
}

/// Whether the header has a macro of this name for the second figure.
fn is_second_figure(name: &str) -> bool {
    read("cerealbank.h").contains(&format!("\n#define CEREALBANK_{name}(answer) CEREALBANK_SECOND(answer)\n"))
}

/// The count of a sheet stands beside a check's tag and value.
#[test]
fn the_count_of_a_sheet_is_the_second_figure_of_the_definition() {
    let packed = "\npacked_sheet x = x.steps * second_place + tag_of x.answer * tag_place + value_of x.answer\n";
    assert!(read("../crates/sheets/specs/Exported.antt").contains(packed));
    assert!(is_second_figure("STEPS"));
}

/// The table of bits: the value, the tag, the mark of a run, and of a join the book and the bytes.
#[test]
fn the_format_has_the_places_of_the_header() {
    let format = read("../docs/FORMAT.md");
    let (_, table) = format.split_once("\n| bits | what stands there |\n|---|---|\n").expect("the table of bits");
    let shown = table.lines().map_while(|line| Some(line.strip_prefix("| ")?.split_once(" | ")?.0));
    let [tag, second, which, bytes] = ["TAG", "SECOND", "WHICH", "BYTES"].map(|name| in_macro(name, ">> "));
    let bits = [(0, tag), (tag, second), (second, 64), (which, bytes), (bytes, 64)];
    assert_eq!(shown.collect::<Vec<_>>(), bits.map(|(first, past)| format!("{first}-{}", past - 1)));
}

#[test]
fn the_header_and_the_engine_agree() {
    let source = read("../crates/cerealbank/src/lib.rt");
    assert_eq!(header(), declared_after("pub extern \"C\" fn ", &source));
}

#[test]
fn a_source_in_rattle_is_understood() {
    let source = "
        // Not this: pub extern \"C\" fn old(book: &[u8]) -> u64
        #[unsafe(no_mangle)]
        pub extern \"C\" fn one(book: &[u8], work: &mut [u8],
            limit: u32,
        ) -> u64 { 0 }
        fn inner(n: u64) -> u64 { n }
    ";
    let parameters = ["const uint8_t *book", "size_t book_len", "uint8_t *work", "size_t work_len", "uint32_t limit"];
    let expected = (parameters.map(str::to_string).to_vec(), "uint64_t".to_string());
    assert_eq!(declared_after("pub extern \"C\" fn ", source), BTreeMap::from([("one".to_string(), expected)]));
}
