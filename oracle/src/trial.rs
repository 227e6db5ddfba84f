//! Attributes are left out by document 01; the trial's record names their
//! type.

#[derive(Clone, Debug)]
pub struct AttrValue;
