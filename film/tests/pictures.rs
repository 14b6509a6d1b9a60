//! Pictures without a browser: well formed, of plain shapes, with the report's counts and the
//! reasons of the call; no picture of a plan that breaks a rule.
mod common;
use common::*;
use film_planner::{FetchList, Job};

/// The names of the elements and the texts between them; panics where the picture is not well
/// formed.
fn read(picture: &str) -> (Vec<String>, Vec<String>) {
    let (mut names, mut texts, mut open) = (Vec::new(), Vec::new(), Vec::new());
    let mut rest = picture.trim();
    while !rest.is_empty() {
        let Some(body) = rest.strip_prefix('<') else {
            let end = rest.find('<').expect("text after the last element");
            texts.push(plain(&rest[..end]));
            rest = &rest[end..];
            continue;
        };
        let end = body.find('>').expect("an element that does not end");
        let (tag, after) = (&body[..end], &body[end + 1..]);
        rest = after;
        if let Some(name) = tag.strip_prefix('/') {
            assert_eq!(open.pop().as_deref(), Some(name), "elements cross");
            continue;
        }
        let (head, closed) = tag.strip_suffix('/').map_or((tag, false), |head| (head, true));
        let name = head.split_whitespace().next().expect("a name").to_string();
        attributes(&head[name.len()..]);
        names.push(name.clone());
        if !closed {
            open.push(name);
        }
    }
    assert!(open.is_empty(), "{open:?} not ended");
    (names, texts)
}

/// Attributes are names with values in quotes, no name twice.
fn attributes(words: &str) {
    let (mut rest, mut seen) = (words.trim(), Vec::new());
    while !rest.is_empty() {
        let (name, after) = rest.split_once("=\"").expect("an attribute without a value in quotes");
        let (value, after) = after.split_once('"').expect("a value without its second quote");
        assert!(name.bytes().all(|b| b.is_ascii_alphanumeric() || b"-:_".contains(&b)), "{name}");
        assert!(!seen.contains(&name), "{name} twice");
        assert!(!value.contains('<'), "{value}");
        plain(value);
        seen.push(name);
        rest = after.trim();
    }
}

/// A text with its entities read.
fn plain(text: &str) -> String {
    for (k, _) in text.match_indices('&') {
        let known = ["&amp;", "&lt;", "&gt;", "&quot;", "&#39;", "&#x27;", "&apos;"];
        assert!(known.iter().any(|entity| text[k..].starts_with(entity)), "a bare & in {text}");
    }
    let text = text.replace("&lt;", "<").replace("&gt;", ">").replace("&quot;", "\"").replace("&#39;", "'").replace("&#x27;", "'");
    text.replace("&apos;", "'").replace("&amp;", "&")
}

/// The job of picture k: A, the largest jobs, then random ones, of tight ones each third.
fn pictured(random: &mut Random, k: usize) -> Job {
    match k {
        0 => job_a(),
        1..=4 => largest_job([2100, 0, 28, 65535][k - 1]),
        _ if k.is_multiple_of(3) => random.tight_job(),
        _ => {
            let most = *random.one(&[3, 8, 8, 500]);
            random.job(most)
        }
    }
}

#[test]
fn pictures_are_whole_and_say_what_the_report_says() {
    let (folder, mut random) = (Folder::new(), Random(31));
    let mut told = 0;
    for k in 0..150 {
        let job = pictured(&mut random, k);
        folder.put("job", job.write().unwrap());
        let long = "W".repeat(200);
        let title = *random.one(&["", "flight", "<&\"'>", long.as_str()]);
        let picture = folder.film(&["draw", "job", "--title", title]).text();
        let (names, texts) = read(&picture);
        let kinds = ["svg", "title", "style", "defs", "pattern", "rect", "path", "text", "g", "line"];
        assert!(names[0] == "svg" && names.iter().all(|name| kinds.contains(&name.as_str())), "{names:?}");
        assert!(!picture.contains("NaN") && !picture.contains("inf\"") && !picture.contains("href") && !picture.contains("<script"));
        assert_eq!(picture.matches("url(").count(), picture.matches("url(#").count(), "nothing from outside");
        assert_eq!(picture.matches("http").count(), 1, "the name of SVG alone");
        let plan = job.plan().unwrap();
        for (n, count) in plan.counts.iter().take(job.sizes.len()).enumerate() {
            let words = format!("layer {n}: {count} of {}", job.chunks);
            assert!(texts.contains(&words), "no `{words}`");
        }
        let bytes: u64 = plan.list.rows().map(|row| u64::from(row.bytes)).sum();
        let all: u64 = job.forecast.iter().map(|bytes| u64::from(*bytes)).sum();
        let bare = texts.join("\n").replace(',', "");
        assert!(bare.contains(&format!("{bytes} of {all} bytes of the forecast are fetched {} left", all - bytes)), "job {k}");
        for line in job.reasons().unwrap().lines() {
            assert!(bare.contains(&line.replace(',', "")), "job {k}: no `{line}`");
            told += 1;
        }
    }
    println!("150 pictures are whole, counts and bytes are the report's; {told} reasons stand in them");
}

/// A rule, and marks and rows that break it: slot, chunk, layer, bytes.
type Broken<'a> = (u8, [u8; 3], &'a [(u16, u16, u8, u32)]);

#[test]
fn only_a_passing_plan_is_drawn() {
    let folder = Folder::new();
    let job = job_a();
    let plan = job.plan().unwrap();
    let file = job.write_plan(&plan.marks, &plan.list).unwrap();
    folder.put("job", job.write().unwrap()).put("plan", &file);
    let own = folder.film(&["draw", "job"]).good("A").out;
    assert_eq!(folder.film(&["draw", "job", "plan"]).good("A with its plan").out, own);
    assert_eq!(folder.film(&["draw", "job", "--out", "a.svg"]).good("to a file").out, b"");
    assert_eq!(folder.get("a.svg"), own);
    let broken: [Broken; 7] = [
        (1, [0, 3, 0], &[(1, 2, 0, 2), (1, 2, 1, 1), (7, 3, 0, 2)]),
        (2, [0, 3, 0], &[(1, 2, 0, 2), (1, 2, 1, 1), (5, 3, 0, 1)]),
        (3, [0, 2, 1], &[(1, 2, 1, 1), (5, 3, 0, 2)]),
        (4, [0, 3, 1], &[(1, 2, 0, 2), (1, 2, 1, 1), (6, 3, 0, 2)]),
        (5, [0, 1, 0], &[(5, 2, 0, 2)]),
        (6, [0, 3, 1], &[(1, 2, 0, 2), (1, 2, 1, 1), (3, 3, 0, 1), (5, 3, 0, 1)]),
        (7, [1, 3, 1], &[(1, 2, 0, 2), (1, 2, 1, 1), (5, 3, 0, 2)]),
    ];
    for (rule, marks, rows) in broken {
        let list: FetchList = rows.iter().map(|r| film_planner::Row::new(r.0, r.1, r.2, r.3)).collect();
        folder.put("bad", job.write_plan(&marks, &list).unwrap());
        folder.film(&["draw", "job", "bad"]).bad(
            1,
            &["bad: this is no passing plan of the job", &format!("rule {rule}: ")],
            "a broken rule",
        );
    }
    let wide = Job { limit: 6, ..job.clone() };
    let other = wide.plan().unwrap();
    folder.put("bad", wide.write_plan(&other.marks, &other.list).unwrap());
    folder.film(&["draw", "job", "bad"]).bad(1, &["rule 6: "], "the plan of A with limit 6");
    for k in 0..file.len() {
        folder.put("bad", &file[..k]);
        let answer = folder.film(&["draw", "job", "bad"]).bad(1, &["refusal "], "a plan cut short");
        assert!(answer.err.contains("refusal 1: ") || answer.err.contains("refusal 8: "), "{}", answer.err);
    }
    folder.put("bad", job.write().unwrap());
    folder.film(&["draw", "job", "bad"]).bad(1, &["refusal 2: "], "a job as a plan");
    for words in [&["draw"][..], &["draw", "job", "plan", "plan"], &["draw", "job", "--paint"]] {
        folder.film(words).bad(2, &["film draw JOB"], "wrong words");
    }
}

/// What a colour of linear red, green and blue becomes with all cones, and without one kind of cone
/// (Machado, Oliveira and Fernandes 2009).
const SIGHTS: [[[f64; 3]; 3]; 4] = [
    [[1.0, 0.0, 0.0], [0.0, 1.0, 0.0], [0.0, 0.0, 1.0]],
    [[0.152_286, 1.052_583, -0.204_868], [0.114_503, 0.786_281, 0.099_216], [-0.003_882, -0.048_116, 1.051_998]],
    [[0.367_322, 0.860_646, -0.227_968], [0.280_085, 0.672_501, 0.047_413], [-0.011_820, 0.042_940, 0.968_881]],
    [[1.255_528, -0.076_749, -0.178_779], [-0.078_411, 0.930_809, 0.147_602], [0.004_733, 0.691_367, 0.303_900]],
];

/// A colour's place in CIELAB, where distances are about those seen.
// Letters as the formulas have them.
#[allow(clippy::many_single_char_names)]
fn seen(colour: &str, sight: &[[f64; 3]; 3]) -> [f64; 3] {
    let hex = colour.trim_start_matches('#');
    let wide: String = if hex.len() == 3 { hex.chars().flat_map(|c| [c, c]).collect() } else { hex.to_string() };
    let part = |k: usize| {
        let c = f64::from(u8::from_str_radix(&wide[2 * k..2 * k + 2], 16).unwrap()) / 255.0;
        if c <= 0.04045 {
            c / 12.92
        } else {
            ((c + 0.055) / 1.055).powf(2.4)
        }
    };
    let parts = [part(0), part(1), part(2)];
    let [r, g, b] = [0, 1, 2].map(|k| sight[k].iter().zip(parts).map(|(m, c)| m * c).sum::<f64>().clamp(0.0, 1.0));
    let xyz = [
        (0.4124 * r + 0.3576 * g + 0.1805 * b) / 0.9505,
        0.2126 * r + 0.7152 * g + 0.0722 * b,
        (0.0193 * r + 0.1192 * g + 0.9505 * b) / 1.089,
    ];
    let [x, y, z] = xyz.map(|c: f64| if c > 0.008_856 { c.cbrt() } else { 7.787 * c + 16.0 / 116.0 });
    [116.0 * y - 16.0, 500.0 * (x - y), 200.0 * (y - z)]
}

/// The fill of a class in a style, the last that is given.
fn fill(style: &str, class: &str) -> String {
    let (_, after) = style.rsplit_once(&format!(".{class}{{fill:")).unwrap_or_else(|| panic!("no {class}"));
    after.split('}').next().unwrap().to_string()
}

#[test]
fn colours_are_told_apart_with_any_kind_of_cone_absent() {
    let folder = Folder::new();
    folder.put("job", job_a().write().unwrap());
    let picture = folder.film(&["draw", "job"]).text();
    let style = picture.split("<style>").nth(1).unwrap().split("</style>").next().unwrap();
    let light = style.split("@media").next().unwrap();
    for (name, style) in [("light", light), ("dark", style)] {
        let colours: Vec<String> = ["l0", "l1", "l2", "l3", "in", "pa"].iter().map(|class| fill(style, class)).collect();
        let mut least = f64::MAX;
        for sight in &SIGHTS {
            let places: Vec<[f64; 3]> = colours.iter().map(|colour| seen(colour, sight)).collect();
            for (k, a) in places.iter().enumerate() {
                for b in &places[k + 1..] {
                    least = least.min(a.iter().zip(b).map(|(p, q)| (p - q).powi(2)).sum::<f64>().sqrt());
                }
            }
        }
        let lightness: Vec<f64> = colours[..4].iter().map(|colour| seen(colour, &SIGHTS[0])[0]).collect();
        println!("{name}: colours at least {least:.0} apart where 2 can just be seen; lightness of the layers {lightness:.0?}");
        assert!(least >= 20.0, "{name}: {least} (#0e4578 #2d76c1 #f19125 #f7de75 are 21 apart, and evenly in grey)");
        assert!(lightness.windows(2).all(|w| w[1] - w[0] >= 8.0), "{name}: {lightness:?}");
    }
}
