//! Stand-ins for the coordinate functions, whose files are not among the published ones. A value arrives as degrees;
//! that they are scaled by 1e7 is assumed, the range is document 01's.

pub(crate) mod coord_fmt {
    pub(crate) fn deg_to_e7(value: f64) -> f64 {
        value * 1e7
    }
}

pub(crate) mod coord_pack {
    use std::fmt;

    #[derive(Debug)]
    pub(crate) struct OutOfRange;

    pub(crate) const OUT_OF_RANGE: &str = "coordinate out of its range";

    impl fmt::Display for OutOfRange {
        fn fmt(&self, f: &mut fmt::Formatter<'_>) -> fmt::Result {
            f.write_str(OUT_OF_RANGE)
        }
    }

    pub(crate) fn validate_lat(_name: &str, value: f64) -> Result<(), OutOfRange> {
        within(value, 90.0)
    }

    pub(crate) fn validate_lon(_name: &str, value: f64) -> Result<(), OutOfRange> {
        within(value, 180.0)
    }

    fn within(value: f64, most: f64) -> Result<(), OutOfRange> {
        if value.abs() <= most { Ok(()) } else { Err(OutOfRange) }
    }
}
