// The proved code, linked as a static library. A Rattle slice is a pointer and a length.

extern "C" {
    fn measure_run(
        policy: *const u8,
        policy_bytes: usize,
        queries: *const u8,
        queries_bytes: usize,
        out: *mut u8,
        out_bytes: usize,
    ) -> u64;
    fn measure_label(
        policy: *const u8,
        policy_bytes: usize,
        query: *const u8,
        query_bytes: usize,
        times: u64,
    ) -> u64;
    fn measure_decide(
        policy: *const u8,
        policy_bytes: usize,
        query: *const u8,
        query_bytes: usize,
        times: u64,
    ) -> u64;
    fn measure_grant(
        policy: *const u8,
        policy_bytes: usize,
        n: u64,
        query: *const u8,
        query_bytes: usize,
        times: u64,
    ) -> u64;
    fn measure_check(policy: *const u8, policy_bytes: usize, times: u64) -> u64;
}

// The whole run over a file: the length of what it writes.
pub fn run(policy: &[u8], queries: &[u8], out: &mut [u8]) -> usize {
    // SAFETY: each pointer and length are those of a live slice, and only `out` is written.
    unsafe {
        measure_run(
            policy.as_ptr(),
            policy.len(),
            queries.as_ptr(),
            queries.len(),
            out.as_mut_ptr(),
            out.len(),
        ) as usize
    }
}

// The sum of the labels of a query, so many times.
pub fn label(policy: &str, query: &str, times: u64) -> u64 {
    // SAFETY: each pointer and length are those of a live string.
    unsafe {
        measure_label(
            policy.as_ptr(),
            policy.len(),
            query.as_ptr(),
            query.len(),
            times,
        )
    }
}

// The sum of the replies to a query text, so many times, each in the session that opening gives.
pub fn decide(policy: &str, query: &str, times: u64) -> u64 {
    // SAFETY: each pointer and length are those of a live string.
    unsafe {
        measure_decide(
            policy.as_ptr(),
            policy.len(),
            query.as_ptr(),
            query.len(),
            times,
        )
    }
}

// The sum of the replies and of the views given in so many grants for partition n.
pub fn grant(policy: &str, n: u64, query: &str, times: u64) -> u64 {
    // SAFETY: each pointer and length are those of a live string.
    unsafe {
        measure_grant(
            policy.as_ptr(),
            policy.len(),
            n,
            query.as_ptr(),
            query.len(),
            times,
        )
    }
}

// How often the policy is found valid in so many checks.
pub fn check(policy: &str, times: u64) -> u64 {
    // SAFETY: the pointer and the length are those of a live string.
    unsafe { measure_check(policy.as_ptr(), policy.len(), times) }
}
