//! The jobs of document 01's examples.

use ruffarmoire_model::job::Job;

/// The ten marked examples. Where an example has no hold offset, all of them; the fourth with hold
/// offset 2 is the job of SEEK's listing.
pub fn example_jobs() -> Vec<Job> {
    const A: u8 = 0x06;
    const B: u8 = 0x01;
    const C: u8 = 0x18;
    let listing = [A, A, C, A, A, A, C, A, A];
    let examples: [(&[u8], &[u8]); 10] = [
        (&[A, A, C, A, A], &[]),
        (&[C, B, A, A, A], &[]),
        (&[A, A, C, A, A], &[C]),
        (&[A, A, C, A, A], &listing),
        (&[A, A, C, A, A], &[]),
        (&[A], &[A]),
        (&[A; 4], &[A; 6]),
        (&[A], &[A, C, A]),
        (&[A, A], &[A]),
        (&[A], &[0xFF, 0x00]),
    ];
    let mut jobs = Vec::new();
    for (pattern, text) in examples {
        for hold in 0..pattern.len() {
            jobs.push(Job {
                pattern: pattern.to_vec(),
                hold,
                text: text.to_vec(),
            });
        }
    }
    jobs
}
