//! Lines that run side by side: each span gets a track, so that spans on the
//! same track have nothing in common.

/// From the first place to the last, both included.
pub type Span = (usize, usize);

/// The track of each span, and how many tracks there are.
pub fn tracks(spans: &[Span]) -> (Vec<usize>, usize) {
    let mut order: Vec<usize> = (0..spans.len()).collect();
    order.sort_by_key(|&which| (spans[which], which));
    let mut tracks = vec![0; spans.len()];
    // By track, the last place that is taken.
    let mut taken: Vec<usize> = Vec::new();
    for which in order {
        let (first, last) = spans[which];
        let free = taken.iter().position(|&end| end < first);
        let track = free.unwrap_or(taken.len());
        if track == taken.len() {
            taken.push(last);
        }
        taken[track] = last;
        tracks[which] = track;
    }
    (tracks, taken.len())
}
