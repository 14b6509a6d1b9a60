//! The programs' work on whole files, for callers who have them: job files in one sequence but for
//! [`convert_file`], which reads a mixed one.
use crate::{ffi, Refusal, Verdict, JOB_FILE, PLAN_FILE, REASONS, REPORT};

/// A text of at most so many bytes, from a call that is lent as many.
fn text(most: usize, call: impl FnOnce(&mut [u8]) -> u64) -> Result<Vec<u8>, Refusal> {
    let mut out = vec![0; most];
    let n = Refusal::settle(call(&mut out))?;
    out.truncate(n);
    Ok(out)
}

fn ascii(bytes: Vec<u8>) -> String {
    String::from_utf8(bytes).expect("the library writes ASCII")
}

/// The plan file of a job file's job.
///
/// # Errors
///
/// Those of [`Job::read`](crate::Job::read).
pub fn plan_file(job: &[u8]) -> Result<Vec<u8>, Refusal> {
    text(PLAN_FILE, |out| ffi::plan_file(job, out))
}

/// The verdict on a plan file for a job file's job.
///
/// # Errors
///
/// Those of [`Job::read`](crate::Job::read), then those of the file in
/// [`Job::read_plan`](crate::Job::read_plan).
pub fn verdict_files(job: &[u8], plan: &[u8]) -> Result<Verdict, Refusal> {
    Refusal::settle(ffi::verdict_files(job, plan)).map(Verdict::of)
}

/// The report of a job file's job.
///
/// # Errors
///
/// Those of [`Job::read`](crate::Job::read).
pub fn report_file(job: &[u8]) -> Result<String, Refusal> {
    text(REPORT, |out| ffi::report_file(job, out)).map(ascii)
}

/// The reasons under the layers that the plan of a job file's job lacks.
///
/// # Errors
///
/// Those of [`Job::read`](crate::Job::read).
pub fn reasons_file(job: &[u8]) -> Result<String, Refusal> {
    text(REASONS, |out| ffi::reasons_file(job, out)).map(ascii)
}

/// The job of a mixed file as a file in one sequence.
///
/// # Errors
///
/// Those of [`Job::read_mixed`](crate::Job::read_mixed).
pub fn convert_file(job: &[u8]) -> Result<Vec<u8>, Refusal> {
    text(JOB_FILE, |out| ffi::convert_file(job, out))
}
