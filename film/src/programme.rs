//! What the subcommands ask of a job and a plan beside the calls: due slots, sizes, skips, and the
//! place at which a list breaks a rule.
use crate::failure::Failure;
use crate::words::{counted, thousands};
use film_planner::{FetchList, Job, Plan, Rule, Verdict};

/// The slot in which a chunk is due.
pub fn due(job: &Job, chunk: u16) -> u32 {
    (u32::from(chunk) - 1) * u32::from(job.span) + u32::from(job.delay)
}

/// The slot in which the last chunk is due.
pub fn last(job: &Job) -> u32 {
    due(job, job.chunks)
}

/// H: how many chunks the limit holds.
pub fn held(job: &Job) -> u16 {
    job.limit / job.span.max(1)
}

/// By chunk the size of each layer.
pub fn sizes(job: &Job) -> Vec<Vec<u32>> {
    let mut sizes = vec![job.sizes.clone(); usize::from(job.chunks)];
    for o in &job.overrides {
        if let Some(size) = sizes.get_mut(usize::from(o.chunk).wrapping_sub(1)).and_then(|layers| layers.get_mut(usize::from(o.layer))) {
            *size = o.bytes;
        }
    }
    sizes
}

/// Whether the bases have one size: what decides of pictures shown.
pub fn has_even_bases(job: &Job) -> bool {
    job.overrides.iter().all(|o| o.layer != 0)
}

/// The chunks without a base.
pub fn skipped(plan: &Plan) -> Vec<u16> {
    (1..).zip(&plan.marks).filter(|(_, mark)| *mark & 1 == 0).map(|(i, _)| i).collect()
}

/// Rising numbers as runs of neighbours, first and last.
pub fn runs(numbers: &[u16]) -> Vec<(u16, u16)> {
    let mut found: Vec<(u16, u16)> = Vec::new();
    for &i in numbers {
        match found.last_mut() {
            Some((_, end)) if *end + 1 == i => *end = i,
            _ => found.push((i, i)),
        }
    }
    found
}

/// `chunk 12`, `chunks 12, 13 to 15`, and no more than some of very many.
pub fn chunks_named(numbers: &[u16]) -> String {
    let found = runs(numbers);
    let mut names: Vec<String> = found.iter().take(8).map(|(a, b)| if a == b { a.to_string() } else { format!("{a} to {b}") }).collect();
    if found.len() > 8 {
        names.push("..".to_string());
    }
    format!("{} {}", if numbers.len() == 1 { "chunk" } else { "chunks" }, names.join(", "))
}

/// `nothing is skipped`, `chunk 12 is skipped`, `chunks 12 to 13 are skipped`.
pub fn skips(plan: &Plan) -> String {
    match &skipped(plan)[..] {
        [] => "nothing is skipped".to_string(),
        [one] => format!("chunk {one} is skipped"),
        many => format!("{} chunks are skipped: {}", many.len(), chunks_named(many).trim_start_matches("chunks ")),
    }
}

/// The counts of the job's own layers, as the report has them: `28 27 20`.
pub fn counts(job: &Job, plan: &Plan) -> String {
    let own: Vec<String> = plan.counts.iter().take(job.sizes.len()).map(u16::to_string).collect();
    own.join(" ")
}

/// The lines of `Job::reasons` that tell of skipped bases, the first few, indented.
pub fn base_reasons(job: &Job, most: usize) -> Result<String, Failure> {
    let text = job.reasons().map_err(|refusal| Failure::refused("the reasons", refusal))?;
    let lines: Vec<&str> = text.lines().filter(|line| line.contains(" layer 0: ")).collect();
    let mut out: String = lines.iter().take(most).map(|line| format!("  {line}\n")).collect();
    if lines.len() > most {
        out.push_str(&format!("  and {} more; `film reasons` has all of a job\n", thousands((lines.len() - most) as u64)));
    }
    Ok(out)
}

/// The marks that some rows give: bit n of a chunk's byte if layer n sums to its size.
pub fn marks_of(job: &Job, list: &FetchList) -> Vec<u8> {
    let sizes = sizes(job);
    let mut sums = vec![[0u64; 4]; sizes.len()];
    for row in list.rows() {
        if let Some(sum) = sums.get_mut(usize::from(row.chunk).wrapping_sub(1)).and_then(|layers| layers.get_mut(usize::from(row.layer))) {
            *sum += u64::from(row.bytes);
        }
    }
    let mark =
        |(sizes, sums): (&Vec<u32>, &[u64; 4])| (0..).zip(sizes).zip(sums).map(|((n, z), sum)| u8::from(u64::from(*z) == *sum) << n).sum();
    sizes.iter().zip(&sums).map(mark).collect()
}

/// A plan by slot: a line a row.
pub fn by_slot(list: &FetchList) -> String {
    let line = |row: film_planner::Row| {
        format!("slot {}: chunk {} layer {}, {}\n", row.slot, row.chunk, row.layer, counted(u64::from(row.bytes), "byte"))
    };
    list.rows().map(line).collect()
}

/// The sentence of a rule, as document 01 has it.
pub fn rule_sentence(rule: Rule) -> &'static str {
    match rule {
        Rule::InRange => "Slot 1 to d(C), chunk 1 to C, layer below the layer count, bytes at least 1.",
        Rule::WholeLayers => "Each layer of each chunk sums to 0 or its full size.",
        Rule::LowerCarried => "A carried layer has the layer below carried.",
        Rule::WithinForecast => "A slot's rows sum to at most B(slot).",
        Rule::OnTime => "No row is later than its chunk's due slot.",
        Rule::FewHeld => "At the end of each slot at most H chunks are held.",
        Rule::MarksSay => "The marks of the plan say the layers carried.",
    }
}

/// What a verdict says: where the rule is broken first, and its sentence. Empty if it passes.
pub fn verdict_told(job: &Job, plan: &Plan, verdict: Verdict) -> String {
    match verdict {
        Verdict::Passes => String::new(),
        Verdict::Breaks(rule) => format!("{}\nrule {}: {}", place(job, plan, rule), rule as u8, rule_sentence(rule)),
    }
}

/// Where a list breaks a rule that is the lowest it breaks.
fn place(job: &Job, plan: &Plan, rule: Rule) -> String {
    let sizes = sizes(job);
    let rows: Vec<film_planner::Row> = plan.list.rows().collect();
    let (end, most) = (last(job), held(job));
    let in_range = |row: &film_planner::Row| {
        (1..=end).contains(&u32::from(row.slot))
            && (1..=job.chunks).contains(&row.chunk)
            && usize::from(row.layer) < job.sizes.len()
            && row.bytes > 0
    };
    let odd_row = |bad: &dyn Fn(&film_planner::Row) -> bool| {
        rows.iter().position(bad).map(|k| {
            let row = rows[k];
            format!("row {}: slot {} chunk {} layer {} bytes {}", k + 1, row.slot, row.chunk, row.layer, row.bytes)
        })
    };
    if rule == Rule::InRange || !rows.iter().all(in_range) {
        return odd_row(&|row| !in_range(row)).unwrap_or_default();
    }
    let mut sums = vec![[0u64; 4]; sizes.len()];
    let mut slots = vec![0u64; end as usize + 1];
    let mut first = vec![u32::MAX; sizes.len()];
    for row in &rows {
        let i = usize::from(row.chunk) - 1;
        sums[i][usize::from(row.layer)] += u64::from(row.bytes);
        slots[usize::from(row.slot)] += u64::from(row.bytes);
        first[i] = first[i].min(u32::from(row.slot));
    }
    let carried = |i: usize, n: usize| sums[i][n] == u64::from(sizes[i][n]);
    let layers = job.sizes.len();
    let pairs = || (0..sizes.len()).flat_map(move |i| (0..layers).map(move |n| (i, n)));
    let found = match rule {
        Rule::InRange => None,
        Rule::WholeLayers => pairs()
            .find(|&(i, n)| sums[i][n] != 0 && !carried(i, n))
            .map(|(i, n)| format!("chunk {} layer {n}: {} of {} bytes", i + 1, thousands(sums[i][n]), thousands(u64::from(sizes[i][n])))),
        Rule::LowerCarried => {
            pairs().find(|&(i, n)| n > 0 && carried(i, n) && !carried(i, n - 1)).map(|(i, n)| format!("chunk {} layer {n}", i + 1))
        }
        Rule::WithinForecast => (1..slots.len())
            .find(|&t| slots[t] > u64::from(job.forecast[t - 1]))
            .map(|t| format!("slot {t}: {} bytes, and the forecast is {}", thousands(slots[t]), thousands(u64::from(job.forecast[t - 1])))),
        Rule::OnTime => odd_row(&|row| u32::from(row.slot) > due(job, row.chunk)).map(|words| {
            let late = rows.iter().find(|row| u32::from(row.slot) > due(job, row.chunk));
            format!("{words}, and chunk {} is due in slot {}", late.map_or(0, |r| r.chunk), late.map_or(0, |r| due(job, r.chunk)))
        }),
        Rule::FewHeld => (1..=end).find_map(|t| {
            let held = (1..).zip(&first).filter(|(i, begun)| **begun <= t && due(job, *i) > t).count();
            (held > usize::from(most)).then(|| format!("slot {t}: {held} held, and H is {most}"))
        }),
        Rule::MarksSay => (0..sizes.len()).find_map(|i| {
            let own: u8 = (0..layers).map(|n| u8::from(carried(i, n)) << n).sum();
            (plan.marks[i] != own).then(|| format!("chunk {}: marks {}, and its rows give {own}", i + 1, plan.marks[i]))
        }),
    };
    found.unwrap_or_default()
}
