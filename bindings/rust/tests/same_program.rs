// One program's text, run over the original and over this crate: what it says must be the same.

// the original where it stands, with the random inputs, as compare/oracle builds them
#[cfg(original)]
#[allow(dead_code)]
#[path = "../../../compare/oracle/src/lib.rs"]
mod oracle;
// the original names its own modules from the root
#[cfg(original)]
use oracle::{census, error, inputs, model, parallelism, prob, rng};

#[cfg(original)]
mod over_the_original {
    mod subject {
        pub use crate::census::*;
        pub use crate::prob::Pascal;
    }
    include!("same/program.rs");
}

#[cfg(original)]
#[allow(unused_must_use)]
mod over_this_crate {
    use ::census as subject;
    include!("same/program.rs");
}

#[test]
#[cfg_attr(not(original), ignore = "the original is not beside the repository: set CENSUS_SRC to the folder of its files")]
fn the_same_is_said() {
    #[cfg(original)]
    {
        let boards = 200;
        let (original, verified) = (over_the_original::run(boards), over_this_crate::run(boards));
        for (i, (a, b)) in original.iter().zip(&verified).enumerate() {
            assert_eq!(a, b, "line {i}: the original, then this crate");
        }
        assert_eq!(original.len(), verified.len());
        println!("{boards} boards, {} lines, all equal", original.len());
    }
}
