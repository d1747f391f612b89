//! The entry for C of crate `siting`, as include/siting.h declares it, behind a safe function.

#[link(name = "siting", kind = "static")]
extern "C" {
    fn siting_report(job: *const u8, job_length: usize, out: *mut u8, out_length: usize) -> i64;
}

/// The bytes written, or minus the number of the refusal.
pub fn report(job: &[u8], out: &mut [u8]) -> i64 {
    unsafe { siting_report(job.as_ptr(), job.len(), out.as_mut_ptr(), out.len()) }
}
