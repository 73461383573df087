// The original, unchanged, as modules of this library; stubs for the two modules that prob.rs names and the census does not use;
// a plain model of docs/SCOPE.md; and inputs for both.

pub mod error {
    include!(env!("ORIGINAL_ERROR"));
}

pub mod parallelism {
    include!(env!("ORIGINAL_PARALLELISM"));
}

pub mod prob {
    include!(env!("ORIGINAL_PROB"));
}

pub mod census {
    include!(env!("ORIGINAL_CENSUS"));
}

// just what prob.rs needs to compile
pub mod alphabet {
    pub struct Alphabet;

    impl Alphabet {
        pub fn len(&self) -> u8 {
            0
        }

        pub fn is_empty(&self) -> bool {
            true
        }

        pub fn freq(&self, _tile: u8) -> u8 {
            0
        }
    }
}

// just what prob.rs needs to compile
pub mod kwg {
    pub trait Node: Copy {
        fn tile(&self) -> u8;
        fn accepts(&self) -> bool;
        fn arc_index(&self) -> i32;
        fn is_end(&self) -> bool;
    }

    pub struct Kwg<N: Node>(pub Box<[N]>);

    impl<N: Node> std::ops::Index<i32> for Kwg<N> {
        type Output = N;

        fn index(&self, i: i32) -> &N {
            &self.0[i as usize]
        }
    }
}

pub mod calls;
pub mod inputs;
pub mod model;
pub mod rng;
