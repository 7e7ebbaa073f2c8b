//! Combinations of faults, of a file or of all that a call is given.

/// What makes a fault, and what gives the number and place that name it.
pub type Fault<Given> = (fn(&mut Given), fn(&Given) -> [u64; 2]);

/// Names a length that is wrong.
pub fn length(file: &impl AsRef<[u8]>) -> [u64; 2] {
    [1, file.as_ref().len() as u64]
}

/// What is given with each combination of `faults`, which are in the order in which they are judged,
/// and what names the first of them.
pub fn with_faults<'a, Given: Clone>(
    given: &'a Given,
    faults: &'a [Fault<Given>],
) -> impl Iterator<Item = (Given, Option<[u64; 2]>)> + 'a {
    (0..1 << faults.len()).map(move |combination: u32| {
        let chosen = faults.iter().enumerate();
        let chosen = chosen.filter(|(index, _)| combination >> index & 1 == 1);
        let mut given = given.clone();
        // Backwards, so that a file is cut last.
        for (_, (make, _)) in chosen.clone().rev() {
            make(&mut given);
        }
        let first = chosen.map(|(_, (_, named))| named(&given)).next();
        (given, first)
    })
}
