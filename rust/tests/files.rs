//! The programs' work on whole files: what is written reads back and passes, and the job file's
//! refusal comes before the plan file's.
use film_planner::{convert_file, plan_file, reasons_file, report_file, verdict_files, Job, Refusal, Rule, Verdict};

fn job_a() -> Job {
    Job { chunks: 3, span: 2, delay: 2, limit: 2, sizes: vec![2, 1], overrides: vec![], forecast: vec![3, 0, 1, 0, 2, 0] }
}

#[test]
fn a_job_file_is_planned_judged_and_reported() {
    let job = job_a();
    let file = job.write().unwrap();
    let plan = job.plan().unwrap();
    let plan_bytes = plan_file(&file).unwrap();
    assert_eq!(plan_bytes, job.write_plan(&plan.marks, &plan.list).unwrap());
    assert_eq!(job.read_plan(&plan_bytes).unwrap(), plan);
    assert_eq!(verdict_files(&file, &plan_bytes), Ok(Verdict::Passes));
    assert_eq!(report_file(&file).unwrap(), job.report().unwrap());
    assert_eq!(reasons_file(&file).unwrap(), job.reasons().unwrap());
    assert_eq!(convert_file(&file).unwrap(), file);
}

#[test]
fn other_marks_break_rule_7() {
    let job = job_a();
    let plan = job.plan().unwrap();
    let file = job.write_plan(&[0, 3, 3], &plan.list).unwrap();
    assert_eq!(verdict_files(&job.write().unwrap(), &file), Ok(Verdict::Breaks(Rule::MarksSay)));
}

#[test]
fn a_refused_job_file_has_one_number() {
    let job = job_a().write().unwrap();
    let plan = plan_file(&job).unwrap();
    for (bad, refusal) in [
        (b"".to_vec(), Refusal::EndsEarly),
        (job[..job.len() - 1].to_vec(), Refusal::EndsEarly),
        (b"XX".to_vec(), Refusal::UnknownMark),
        (vec![0; 65537], Refusal::LongFile),
    ] {
        assert_eq!(plan_file(&bad), Err(refusal));
        assert_eq!(verdict_files(&bad, &plan), Err(refusal));
        assert_eq!(verdict_files(&bad, b"XX"), Err(refusal));
        assert_eq!(report_file(&bad), Err(refusal));
        assert_eq!(reasons_file(&bad), Err(refusal));
        assert_eq!(convert_file(&bad), Err(refusal));
    }
    assert_eq!(verdict_files(&job, b"XX"), Err(Refusal::UnknownMark));
}
