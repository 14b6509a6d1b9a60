//! Most pictures: the wrapper against `include/film_most.h`, and the call as a desk makes it.
use film_planner::{FetchList, Job, Override, Refusal, Row, Verdict, BOUNDS, MOST_WORK};

const HEADER: &str = include_str!("../../include/film_most.h");
const SOURCE: &str = include_str!("../src/most.rs");

/// A text with every stretch of blanks as one.
fn folded(text: &str) -> String {
    text.split_whitespace().collect::<Vec<_>>().join(" ")
}

/// What stands behind the first text and before the second.
fn between<'a>(text: &'a str, open: &str, close: &str) -> &'a str {
    text.split_once(open).and_then(|(_, rest)| rest.split_once(close)).expect("it stands there").0
}

#[test]
fn the_call_is_declared_as_in_the_header() {
    let in_header = folded(&between(HEADER, "\nFILM_CALL film_most(", ");").replace(",\n", ", "));
    let args: Vec<String> = between(SOURCE, "= film_most(", ");")
        .split(',')
        .filter(|arg| !arg.trim().is_empty())
        .map(|arg| {
            let words: Vec<&str> = arg.split_whitespace().collect();
            let (name, ty) = (words[0].trim_end_matches(':'), format!("uint{}_t", words[2].trim_start_matches('u')));
            match words[1] {
                "number" => format!("{ty} {name}"),
                "handed" => format!("const {ty} *{name}, size_t {name}_len"),
                "lent" => format!("{ty} *{name}, size_t {name}_len"),
                other => panic!("{other} is no way to cross"),
            }
        })
        .collect();
    assert_eq!(args.join(", "), in_header);
}

#[test]
fn constants_are_the_headers() {
    for (name, value) in [("BOUNDS", BOUNDS), ("MOST_WORK", MOST_WORK)] {
        let said = between(HEADER, &format!("FILM_{name} = "), " ").trim_end_matches(',');
        assert_eq!(said, value.to_string(), "{name}");
    }
}

/// The method names the refusals of the header but 11: buffers have room for all.
#[test]
fn the_method_names_the_refusals_of_the_header() {
    let in_header: Vec<u8> = between(HEADER, "Refuses: ", ".").split(", ").map(|number| number.parse().expect("a number")).collect();
    let in_docs: Vec<u8> = between(SOURCE, "In this order: ", "].")
        .split("[`Refusal::")
        .skip(1)
        .map(|rest| {
            let name = rest.split_once('`').expect("a name ends").0;
            Refusal::ALL.iter().find(|r| format!("{r:?}") == name).expect("a refusal").number()
        })
        .collect();
    assert_eq!([in_docs, vec![11]].concat(), in_header);
}

fn job_a() -> Job {
    Job { chunks: 3, span: 2, delay: 2, limit: 2, sizes: vec![2, 1], overrides: vec![], forecast: vec![3, 0, 1, 0, 2, 0] }
}

fn rows(list: &[(u16, u16, u8, u32)]) -> FetchList {
    list.iter().map(|&(slot, chunk, layer, bytes)| Row::new(slot, chunk, layer, bytes)).collect()
}

/// One layer, L 1, H 2.
fn uneven(delay: u16, bases: &[u32], forecast: &[u32]) -> Job {
    let differs = |(chunk, &bytes): (u16, &u32)| (bytes != bases[0]).then_some(Override { chunk, layer: 0, bytes });
    let overrides = (1..).zip(bases).filter_map(differs).collect();
    let chunks = u16::try_from(bases.len()).expect("few chunks");
    Job { chunks, span: 1, delay, limit: 2, sizes: vec![bases[0]], overrides, forecast: forecast.to_vec() }
}

#[test]
fn most_pictures_of_uneven_film() {
    // The plan keeps the last base, which leaves no room for the two before it.
    let poor = uneven(1, &[1, 1, 3], &[1, 1, 1]);
    assert_eq!(poor.plan().unwrap().counts, [1, 0, 0, 0]);
    let most = poor.most(16).unwrap();
    assert_eq!(most.plan.marks, [1, 1, 0]);
    assert_eq!(most.plan.list, rows(&[(1, 1, 0, 1), (2, 2, 0, 1)]));
    assert_eq!((most.plan.counts, most.bound, most.bound_any, most.exact), ([2, 0, 0, 0], 2, 2, true));
    assert_eq!(poor.check(&most.plan.marks, &most.plan.list), Ok(Verdict::Passes));
    // Without a pass nothing is found, and the bound says how many more there could be.
    let none = poor.most(0).unwrap();
    assert_eq!((none.plan.counts[0], none.bound, none.exact), (1, 2, false));
    // A pass lowers this film's bound.
    let lowered = uneven(2, &[1, 3, 1, 2], &[3, 0, 1, 0, 0]);
    let (first, then) = (lowered.most(0).unwrap(), lowered.most(16).unwrap());
    assert_eq!((first.bound, then.bound, then.plan.counts[0], then.exact), (3, 2, 2, true));
    assert_eq!(Job { span: 0, ..poor }.most(1), Err(Refusal::ProgrammeField));
}

#[test]
fn most_pictures_are_the_plans_where_it_is_best() {
    // Chunks of one size, and a limit that holds the whole programme.
    let all_held = Job { limit: 3, ..uneven(1, &[1, 1, 3], &[1, 1, 1]) };
    for job in [job_a(), all_held] {
        let (plan, most) = (job.plan().unwrap(), job.most(0).unwrap());
        assert_eq!((most.bound, most.bound_any, most.exact), (plan.counts[0], plan.counts[0], true));
        assert_eq!(most.plan.counts[0], plan.counts[0]);
    }
}
