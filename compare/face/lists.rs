//! The lists that a host holds for one part of the core, each by its name.

use crate::lent::{Buffer, Lent};
use crate::shape::Call;

pub type ListOf<W> = <<W as Lists>::Call as Call>::List;

pub trait Lists {
    /// The calls that are lent these lists.
    type Call: Call;
    const STATE: ListOf<Self>;
    const ALL: &'static [ListOf<Self>];

    fn list(&mut self, list: ListOf<Self>) -> &mut dyn Buffer;
    fn state(&self) -> &Lent<u64>;
    fn values(&mut self) -> &mut Lent<u64>;
}

/// The lists of a world: for each name of a list the field that holds it.
macro_rules! lists {
    ($world:ty, $call:ty, $list:ident: $($name:ident $field:ident),*) => {
        impl crate::lists::Lists for $world {
            type Call = $call;
            const STATE: $list = $list::State;
            const ALL: &'static [$list] = &[$($list::$name),*];

            fn list(&mut self, list: $list) -> &mut dyn crate::lent::Buffer {
                match list {
                    $($list::$name => &mut self.$field,)*
                }
            }

            fn state(&self) -> &Lent<u64> {
                &self.state
            }

            fn values(&mut self) -> &mut Lent<u64> {
                &mut self.values
            }
        }
    };
}
pub(crate) use lists;
