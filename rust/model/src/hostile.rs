//! Names that were made to have one hash, the worst case of an index of names and of the check for doubled ones.
//!
//! A part of eight bytes can be replaced by another that leads to the same state of the hash. Such pairs were searched for, one after
//! the other, behind a beginning that all names have in common; each doubles the number of names.

/// What all names begin with: eight parts that a comparison has to pass.
const BEGINNING: &str = "ST_Names_of_one_hash_made_for_the_worst_case_of_the_check_______";

/// The parts that may stand for each other, in their order.
const PAIRS: [(&str, &str); 16] = [
    ("4FAVPOAM", "4FAxPOAk"),
    ("_sCQXsCA", "_sCbXsCJ"),
    ("sKBJsPBZ", "sKBcsPBe"),
    ("yACj3yBR", "yACs3yBq"),
    ("FAAFkLAa", "FAA3kLAr"),
    ("67CK72CN", "67CM72C4"),
    ("fKARcMAX", "fKAwcMAe"),
    ("jKADLLAY", "jKARLLA7"),
    ("yMADYOAS", "yMA9YOAt"),
    ("0JBXlBBE", "0JBglBB0"),
    ("vLAA4MAF", "vLAR4MAW"),
    ("RyAhdyAa", "RyAkdyAb"),
    ("v4Dm7xDR", "v4Dt7xD3"),
    ("OQAK2QAW", "OQAj2QA8"),
    ("9rAPXkAO", "9rAgXkAT"),
    ("qdAAwdAp", "qdA5wdA4"),
];

/// The name of that number, below 65,536: 200 bytes.
///
/// ```
/// use model::{hostile, index::hash};
/// let names: Vec<String> = (0..65_536).map(hostile::name).collect();
/// assert!(names.iter().all(|n| n.len() == 200 && hash(n.as_bytes()) == hash(names[0].as_bytes())));
/// assert_eq!(names.iter().collect::<std::collections::HashSet<_>>().len(), 65_536);
/// ```
pub fn name(n: usize) -> String {
    let parts = PAIRS
        .iter()
        .enumerate()
        .map(|(i, &(zero, one))| if n >> i & 1 == 0 { zero } else { one });
    [BEGINNING].into_iter().chain(parts).chain(["_the_end"]).collect()
}

/// An ordinary name of that number: of the same length, and with the same beginning.
pub fn ordinary(n: usize) -> String {
    format!("{BEGINNING}{:x<128}{n:08}", "")
}
