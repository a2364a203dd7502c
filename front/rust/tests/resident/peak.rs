//! The memory that a process had at most.

/// The most memory that this process had at one time, in bytes. Where the system does not tell, it says so and is nothing.
pub fn peak() -> Option<usize> {
    let told = std::fs::read_to_string("/proc/self/status").unwrap_or_default();
    let line = told.lines().find_map(|line| line.strip_prefix("VmHWM:"));
    let kibibytes = line.and_then(|rest| rest.trim().strip_suffix(" kB")?.parse::<usize>().ok());
    if kibibytes.is_none() {
        eprintln!("not here, so not tried: VmHWM of /proc/self/status");
    }
    Some(1024 * kibibytes?)
}

/// Makes the calls in turn. What all of them together add to the peak has to stay below `most` bytes: each is named, so that
/// the first that does not is told.
pub fn stays_below(most: usize, calls: &[(&str, &dyn Fn())]) {
    let Some(before) = peak() else { return };
    for (name, call) in calls {
        call();
        let more = peak().unwrap_or(before) - before;
        assert!(more < most, "{name}: {more} bytes more are resident");
    }
}
