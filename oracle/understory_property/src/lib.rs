//! The published id.rs, unchanged, with stand-ins for the rest of the crate
//! `understory_property`, whose text is not given.

use core::any::Any;
use std::rc::Rc;

use invalidation::ChannelSet;

#[rustfmt::skip]
#[path = "../../../../shared/docs/src/src--understory_property--src--id.rs.txt"]
mod id;

pub use id::{Property, PropertyId};

/// Stand-in for the published erased value: any value, shared, read back by
/// its type. style.rs only stores it and asks for it again.
#[derive(Clone, Debug)]
pub struct ErasedValue(Rc<dyn Any>);

impl ErasedValue {
    /// Holds a value and forgets its type.
    #[must_use]
    pub fn new<T: Clone + 'static>(value: T) -> Self {
        Self(Rc::new(value))
    }

    /// The value, if it has the type asked for.
    #[must_use]
    pub fn downcast_ref<T: 'static>(&self) -> Option<&T> {
        self.0.downcast_ref()
    }
}

/// Stand-in for the published registry: of all that a registration may say,
/// only the channels of each property, by id; past the end of the list there
/// are none, as document 01 adds it.
#[derive(Clone, Debug, Default)]
pub struct PropertyRegistry(pub Vec<ChannelSet>);

impl PropertyRegistry {
    /// The channels that a property affects.
    #[must_use]
    pub fn affects_channels(&self, property: PropertyId) -> ChannelSet {
        let place = usize::from(property.index());
        self.0.get(place).copied().unwrap_or(ChannelSet::empty())
    }
}
