//! Stand-in for util/float_ext.rs, which only `is_redundant` of the points names.

pub trait FloatExt {
    fn eq(self, other: Self) -> bool;
}

impl FloatExt for f64 {
    fn eq(self, other: Self) -> bool {
        self == other
    }
}
