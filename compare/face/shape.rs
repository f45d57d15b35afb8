//! What a call is, before anybody does or judges it: its name and the lists that it is lent.

use std::fmt::Debug;

pub struct Shape<L: 'static> {
    pub name: &'static str,
    pub lent: &'static [L],
    /// How many values it is to be lent; 0 where it is lent none.
    pub values: usize,
}

impl<L> Shape<L> {
    pub fn values_fit(&self, len: usize) -> bool {
        self.values == 0 || self.values == len
    }
}

pub trait Call: Copy + 'static {
    /// Names a list.
    type List: Copy + PartialEq + Debug + 'static;

    fn shape(&self) -> Shape<Self::List>;

    /// A making, which is called `new` in every part, does not look at what the words held.
    fn is_making(&self) -> bool {
        self.shape().name == "new"
    }
}
