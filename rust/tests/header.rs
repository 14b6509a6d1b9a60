//! The wrapper against `include/film_planner.h`: every call is declared with the header's own types,
//! every constant and every refusal's name and sentence are the header's.
use film_planner::{Refusal, VERSION};

const HEADER: &str = include_str!("../../include/film_planner.h");
const FFI: &str = include_str!("../src/ffi.rs");
const JOB: &str = include_str!("../src/job.rs");

/// What stands between two texts, for each time the first one stands there.
fn between<'a>(text: &'a str, open: &'a str, close: &'a str) -> impl Iterator<Item = &'a str> + 'a {
    text.split(open).skip(1).map(move |rest| rest.split_once(close).expect("what is opened is closed").0)
}

/// A text with every stretch of blanks as one.
fn folded(text: &str) -> String {
    text.split_whitespace().collect::<Vec<_>>().join(" ")
}

fn c_type(rust: &str) -> &str {
    match rust {
        "u8" => "uint8_t",
        "u16" => "uint16_t",
        "u32" => "uint32_t",
        "u64" => "uint64_t",
        "usize" => "size_t",
        other => panic!("{other} does not cross"),
    }
}

#[test]
fn every_call_is_declared_as_in_the_header() {
    let in_header: Vec<String> = ["\nFILM_CALL film_", "\nFILM_ANSWER film_"]
        .iter()
        .flat_map(|open| between(HEADER, open, ");"))
        .filter(|call| !call.starts_with("archive_of_version"))
        .map(|call| folded(&call.replace('(', "( ").replace("( void", "( ")))
        .collect();
    let block = FFI.rsplit_once("\ncalls! {").expect("the calls stand in one block").1;
    let in_ffi: Vec<String> = between(block, " = film_", ");")
        .map(|call| {
            let (name, args) = call.split_once('(').expect("a call has arguments");
            let args: Vec<String> = args
                .split(',')
                .filter(|arg| !arg.trim().is_empty())
                .map(|arg| {
                    let words: Vec<&str> = arg.split_whitespace().collect();
                    let (name, ty) = (words[0].trim_end_matches(':'), c_type(words[2]));
                    match words[1] {
                        "number" => format!("{ty} {name}"),
                        "handed" => format!("const {ty} *{name}, size_t {name}_len"),
                        "lent" => format!("{ty} *{name}, size_t {name}_len"),
                        other => panic!("{other} is no way to cross"),
                    }
                })
                .collect();
            folded(&format!("{name}( {}", args.join(", ")))
        })
        .collect();
    let sorted = |mut calls: Vec<String>| {
        calls.sort();
        calls
    };
    assert_eq!(in_header.len(), 30);
    assert_eq!(sorted(in_ffi), sorted(in_header));
}

#[test]
fn the_version_is_the_headers_and_the_archives() {
    let archive = format!("film_archive_of_version_{VERSION}");
    assert!(HEADER.contains(&format!("\n#define FILM_VERSION {VERSION}\n")) && FFI.contains(&archive));
    assert_eq!(film_planner::version(), VERSION);
    assert_eq!(env!("CARGO_PKG_VERSION_MAJOR"), VERSION.to_string());
}

#[test]
fn constants_are_the_headers() {
    for (name, value) in film_planner::LARGEST {
        let line = format!("FILM_{name} = {value}");
        assert!(
            HEADER.lines().any(|l| l.trim().split([',', ' ']).collect::<Vec<_>>().join(" ").starts_with(&format!("{line} "))),
            "{line}"
        );
    }
}

#[test]
fn refusals_are_the_headers() {
    let list =
        between(HEADER, "#define FILM_REFUSALS(X) \\\n", "\n\n").next().expect("the header lists the refusals").replace("\\\n", "\n");
    let in_header: Vec<(u8, String, String)> = between(&list, "    X(", "\")")
        .map(|entry| {
            let (number, rest) = entry.split_once(", ").expect("a number");
            let (name, sentence) = rest.split_once(", \"").expect("a name");
            // A long sentence stands in several strings, one after the other.
            let sentence: String = sentence.split('"').step_by(2).collect();
            (number.parse().expect("a number"), name.to_string(), sentence)
        })
        .collect();
    let in_rust: Vec<(u8, String, String)> =
        Refusal::ALL.iter().map(|r| (r.number(), shouted(&format!("{r:?}")), r.sentence().to_string())).collect();
    assert_eq!(in_rust, in_header);
}

/// The numbers that the header gives behind "Refuses:" over a call.
fn refused_in_header(call: &str) -> Vec<u8> {
    let before = HEADER.split_once(&format!("\nFILM_CALL film_{call}(")).expect("the header declares it").0;
    let said = before.rsplit_once("Refuses: ").expect("the header says what it refuses").1;
    said.split(|c: char| !c.is_ascii_digit()).filter_map(|number| number.parse().ok()).collect()
}

/// The numbers of the refusals that a method of `Job` names, in the first sentence of its errors.
fn refused_in_docs(method: &str) -> Vec<u8> {
    let before = JOB.split_once(&format!("\n    pub fn {method}(")).expect("a method").0;
    let said = before.rsplit_once("# Errors").expect("its errors").1.split_once("In this order: ").expect("a list").1;
    let listed = said.split_once("].").expect("a sentence").0;
    let number = |name: &str| Refusal::ALL.iter().find(|r| format!("{r:?}") == name).expect("a refusal").number();
    between(&format!("{listed}]"), "[`Refusal::", "`]").map(number).collect()
}

#[test]
fn methods_name_the_refusals_of_the_header() {
    for (method, call) in [
        ("write", "write_job"),
        ("write_plan", "write_plan"),
        ("plan", "plan"),
        ("replan", "replan"),
        ("live", "live"),
        ("search", "search"),
        ("check", "check"),
        ("check_from", "check_from"),
        ("report", "report"),
        ("reasons", "reasons"),
        ("book", "book"),
        ("release", "release"),
        ("wait", "wait"),
    ] {
        // Buffers have room for all, and a `FetchList` is handed whole.
        let rows_alone = ["replan", "live", "release"].contains(&method);
        let never = |number: &u8| *number == 11 || rows_alone && *number == 8;
        let wanted: Vec<u8> = refused_in_header(call).into_iter().filter(|number| !never(number)).collect();
        assert_eq!(refused_in_docs(method), wanted, "{method}");
    }
}

/// A name in the header's letters: `EndsEarly` is `ENDS_EARLY`.
fn shouted(name: &str) -> String {
    let mut out = String::new();
    for c in name.chars() {
        if c.is_uppercase() && !out.is_empty() {
            out.push('_');
        }
        out.push(c.to_ascii_uppercase());
    }
    out
}
