//! The calls as a desk makes them: job A of document 01, its refusals, files, two films on one
//! link, the meter, traces.
use film_planner::{
    compare, count_marks, count_word, read_trace, write_trace, FetchList, Job, Meter, Override, Refusal, Row, Rule, Verdict,
};
use std::cmp::Ordering;

fn job_a() -> Job {
    Job { chunks: 3, span: 2, delay: 2, limit: 2, sizes: vec![2, 1], overrides: vec![], forecast: vec![3, 0, 1, 0, 2, 0] }
}

fn rows(list: &[(u16, u16, u8, u32)]) -> FetchList {
    list.iter().map(|&(slot, chunk, layer, bytes)| Row::new(slot, chunk, layer, bytes)).collect()
}

#[test]
fn job_a_is_planned_checked_and_reported() {
    let job = job_a();
    let plan = job.plan().unwrap();
    assert_eq!(plan.marks, [0, 3, 1]);
    assert_eq!(plan.counts, [2, 1, 0, 0]);
    assert_eq!(plan.list, rows(&[(1, 2, 0, 2), (1, 2, 1, 1), (5, 3, 0, 2)]));
    assert_eq!(job.check(&plan.marks, &plan.list), Ok(Verdict::Passes));
    let report = "slots 6 chunks 3 held 1\n1 0 0\n2 2 3\n3 1 2\nlayers 2 1\nbytes 5 left 1\nswitch 1\nrate 0 1\n";
    assert_eq!(job.report().unwrap(), report);
}

#[test]
fn reasons_stand_under_missing_layers() {
    let reasons = "chunk 1 layer 0: slots 2 to 4 carry 1, need 2\nchunk 1 layer 1: layer 0 is missing\nchunk 3 layer 1: slots 4 to 6 carry 2, need 3\n";
    assert_eq!(job_a().reasons().unwrap(), reasons);
    let full = Job { limit: 6, forecast: vec![9; 6], ..job_a() };
    assert_eq!(full.reasons().unwrap(), "");
}

#[test]
fn a_plan_is_made_afresh() {
    let job = job_a();
    let plan = job.plan().unwrap();
    let fetched: FetchList = plan.list.rows().filter(|row| row.slot < 3).collect();
    // Nothing changed: the rest of the plan.
    let again = job.replan(3, &fetched, &job.forecast[2..]).unwrap();
    assert_eq!(again.list, plan.list.rows().filter(|row| row.slot >= 3).collect());
    assert_eq!((again.marks, again.counts), (plan.marks, plan.counts));
    // A poor link from slot 3 on.
    let poor = job.replan(3, &fetched, &[0; 4]).unwrap();
    assert_eq!((poor.marks, poor.list.len()), (vec![0, 3, 0], 0));
    assert_eq!(job.replan(1, &fetched, &job.forecast), Err(Refusal::Slot));
    assert_eq!(job.replan(3, &fetched, &[0; 3]), Err(Refusal::Forecast));
    assert_eq!(job.replan(3, &rows(&[(2, 2, 0, 1)]), &job.forecast[2..]), Err(Refusal::Fetched));
}

#[test]
fn a_search_within_a_budget() {
    let uneven = Job {
        chunks: 2,
        span: 1,
        delay: 2,
        limit: 1,
        sizes: vec![1],
        overrides: vec![Override { chunk: 2, layer: 0, bytes: 3 }],
        forecast: vec![3, 1, 1],
    };
    let all = uneven.search(u32::MAX).unwrap();
    assert!(all.ended && all.shortfall == 0);
    let none = uneven.search(0).unwrap();
    assert_eq!((none.steps, none.ended, none.plan.counts), (0, false, [0; 4]));
    assert!(none.plan.counts[0] + none.shortfall >= all.plan.counts[0]);
    assert_eq!(uneven.check(&all.plan.marks, &all.plan.list), Ok(Verdict::Passes));
    assert_eq!(Job { span: 0, ..uneven }.search(1), Err(Refusal::ProgrammeField));
}

#[test]
fn the_limit_decides() {
    let six = Job { limit: 6, ..job_a() };
    let plan = six.plan().unwrap();
    assert_eq!(plan.marks, [1, 1, 1]);
    assert_eq!(plan.list, rows(&[(1, 1, 0, 2), (1, 2, 0, 1), (3, 2, 0, 1), (5, 3, 0, 2)]));
    assert_eq!(compare(plan.counts, job_a().plan().unwrap().counts), Ordering::Greater);
    assert_eq!(compare([2, 1, 0, 0], [2, 2, 0, 0]), Ordering::Less);
    assert_eq!(compare([2, 1, 0, 0], [2, 1, 0, 0]), Ordering::Equal);
}

#[test]
fn each_rule_has_its_verdict() {
    let job = job_a();
    let split = rows(&[(1, 2, 0, 2), (1, 2, 1, 1), (3, 3, 0, 1), (5, 3, 0, 1)]);
    let of = |marks: &[u8], list: &FetchList| job.check(marks, list).unwrap();
    assert_eq!(of(&[0, 3, 1], &split), Verdict::Breaks(Rule::FewHeld));
    assert_eq!(of(&[0, 0, 0], &rows(&[(0, 2, 0, 2)])), Verdict::Breaks(Rule::InRange));
    assert_eq!(of(&[0, 0, 0], &rows(&[(1, 2, 0, 1)])), Verdict::Breaks(Rule::WholeLayers));
    assert_eq!(of(&[0, 2, 0], &rows(&[(1, 2, 1, 1)])), Verdict::Breaks(Rule::LowerCarried));
    assert_eq!(of(&[0, 0, 1], &rows(&[(3, 3, 0, 2)])), Verdict::Breaks(Rule::WithinForecast));
    assert_eq!(of(&[0, 1, 0], &rows(&[(5, 2, 0, 2)])), Verdict::Breaks(Rule::OnTime));
    assert_eq!(of(&[0, 3, 3], &job.plan().unwrap().list), Verdict::Breaks(Rule::MarksSay));
    assert_eq!(of(&[0, 3, 3], &job.plan().unwrap().list).number(), 7);
    // A short sum before p is allowed by the second call.
    assert_eq!(job.check_from(2, &[0, 0, 0], &rows(&[(1, 2, 0, 1)])), Ok(Verdict::Passes));
    assert_eq!(job.check_from(7, &[0, 0, 0], &FetchList::new()), Err(Refusal::Slot));
}

#[test]
fn files_read_back_as_written() {
    let mut job = job_a();
    job.overrides = vec![Override { chunk: 2, layer: 1, bytes: 3 }];
    let file = job.write().unwrap();
    assert_eq!(Job::read(&file).unwrap(), job);
    assert_eq!(Job::read_mixed(&file), Err(Refusal::UnknownMark));
    assert_eq!(Job::read_mixed(&job_a().write().unwrap()).unwrap(), job_a());
    assert_eq!(job_a().write().unwrap().len(), 72);
    let plan = job.plan().unwrap();
    let written = job.write_plan(&plan.marks, &plan.list).unwrap();
    assert_eq!(job.read_plan(&written).unwrap(), plan);
    assert_eq!(job.write_plan(&plan.marks[1..], &plan.list), Err(Refusal::NotWhole));
}

#[test]
fn bad_files_are_refused_by_number() {
    let file = job_a().write().unwrap();
    assert_eq!(Job::read(b""), Err(Refusal::EndsEarly));
    assert_eq!(Job::read(b"XX"), Err(Refusal::UnknownMark));
    assert_eq!(Job::read(&[&file[..], b"E"].concat()), Err(Refusal::BytesAfter));
    assert_eq!(Job::read(&file[10..]), Err(Refusal::Sequence));
    assert_eq!(Job::read(&vec![0; 65537]), Err(Refusal::LongFile));
    assert_eq!(Job { chunks: 501, ..job_a() }.plan(), Err(Refusal::ProgrammeField));
    assert_eq!(Job { sizes: vec![], ..job_a() }.plan(), Err(Refusal::LayerSize));
    assert_eq!(Job { forecast: vec![1], ..job_a() }.plan(), Err(Refusal::Forecast));
    let one = Override { chunk: 1, layer: 0, bytes: 1 };
    assert_eq!(Job { overrides: vec![one], ..job_a() }.write(), Err(Refusal::Sz));
}

#[test]
fn two_films_share_a_link() {
    let mut job = job_a();
    let plan = job.plan().unwrap();
    job.book(&plan.marks, &plan.list).unwrap();
    assert_eq!(job.forecast, [0, 0, 1, 0, 0, 0]);
    assert_eq!(job.book(&plan.marks, &plan.list), Err(Refusal::NotPassing));
    assert_eq!(job.forecast, [0, 0, 1, 0, 0, 0]);
    job.release(&plan.list).unwrap();
    assert_eq!(job, job_a());
    assert_eq!(job.release(&rows(&[(7, 1, 0, 1)])), Err(Refusal::Release));
    assert_eq!(job, job_a());
}

#[test]
fn the_shortest_wait() {
    let film = Job { chunks: 1, span: 1, delay: 0, limit: 1, sizes: vec![5], overrides: vec![], forecast: vec![2, 2, 2] };
    assert_eq!(film.wait(), Ok(3));
    assert_eq!(Job { limit: 0, ..film }.wait(), Err(Refusal::NoWait));
}

#[test]
fn the_meter_keeps_ten_samples() {
    let mut meter = Meter::new();
    assert_eq!(meter.forecast(), Err(Refusal::NoSamples));
    meter.take(1, 6).unwrap();
    meter.take(2, 3).unwrap();
    assert_eq!(meter.forecast(), Ok(3));
    let before = meter.clone();
    assert_eq!(meter.take(2, 1), Err(Refusal::LateSample));
    assert_eq!(meter.take(3, 16_777_217), Err(Refusal::Sample));
    assert_eq!(meter, before);
    (3..=13).for_each(|slot| meter.take(slot, 8).unwrap());
    assert_eq!((meter.kept, meter.slots), (10, [4, 5, 6, 7, 8, 9, 10, 11, 12, 13]));
    assert_eq!(meter.forecast(), Ok(8));
    meter.kept = 11;
    assert_eq!(meter.forecast(), Err(Refusal::Sample));
}

#[test]
fn traces_read_back() {
    let forecast = vec![3000, 0, 1500];
    let trace = write_trace(&forecast).unwrap();
    assert_eq!(trace, b"0\n0\n2000\n");
    assert_eq!(read_trace(&trace, 3).unwrap(), forecast);
    assert_eq!(read_trace(b"2\n1\n", 3), Err(Refusal::TraceLine));
    assert_eq!(read_trace(b"", 0), Err(Refusal::Forecast));
    assert_eq!(read_trace(b"", 3601), Err(Refusal::Forecast));
    assert_eq!(write_trace(&[1]), Err(Refusal::TraceSlot));
}

#[test]
fn marks_are_counted() {
    assert_eq!(count_marks(&[3; 21], 1), 21);
    assert_eq!(count_marks(&[255; 9], 8), 0);
    assert_eq!(count_word(0x0101_0001_0000_0001, 0), 4);
    assert_eq!(count_word(u64::MAX, 8), 0);
}

#[test]
fn the_largest_job() {
    let forecast = (0..3600u32).map(|t| t * 7919 % 6000).collect();
    let overrides =
        (2..=500).flat_map(|chunk| (0..4).map(move |layer| Override { chunk, layer, bytes: 4000 + 11 * u32::from(chunk) })).collect();
    let job = Job { chunks: 500, span: 7, delay: 107, limit: 28, sizes: vec![9000, 7000, 5000, 4000], overrides, forecast };
    assert_eq!(job.write().unwrap().len(), 46_800);
    let plan = job.plan().unwrap();
    // As `tests/reference.py` plans it.
    assert_eq!((plan.counts, plan.list.len()), ([500, 500, 406, 185], 4982));
    assert_eq!([0, 1, 2, 3].map(|n| count_marks(&plan.marks, n)), plan.counts.map(u64::from));
    assert_eq!(job.check(&plan.marks, &plan.list), Ok(Verdict::Passes));
    assert_eq!(Job::read(&job.write().unwrap()).unwrap(), job);
}

#[test]
fn a_refusal_says_its_sentence() {
    assert_eq!(Refusal::ALL.len(), 22);
    for (k, r) in Refusal::ALL.iter().enumerate() {
        assert_eq!((usize::from(r.number()), Refusal::of(k as u64 + 1)), (k + 1, Some(*r)));
        assert!(r.sentence().ends_with('.'));
    }
    assert_eq!(Refusal::BytesAfter.to_string(), "refused 3: Bytes after `EN`.");
    assert_eq!(Refusal::of(0), None);
    assert_eq!(Refusal::of(23), None);
}
