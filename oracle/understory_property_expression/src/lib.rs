//! Stand-ins for the crate `understory_property_expression`, whose text is
//! not given. An expression here is no more than its result type and the
//! resources that it reads: nothing is ever worked out.

use core::any::TypeId;
use core::marker::PhantomData;

use understory_property::PropertyId;

/// Stand-in for the published static dependencies: the resources alone.
#[derive(Clone, Debug, Default)]
pub struct ExprDeps {
    /// Keys of the resources that the expression reads.
    pub resources: Vec<u32>,
}

/// Stand-in for the published expression with its result type forgotten.
#[derive(Clone, Debug)]
pub struct ErasedExpr {
    type_id: TypeId,
    deps: ExprDeps,
}

impl ErasedExpr {
    /// The result type.
    #[must_use]
    pub fn type_id(&self) -> TypeId {
        self.type_id
    }

    /// What the expression reads.
    #[must_use]
    pub fn deps(&self) -> &ExprDeps {
        &self.deps
    }
}

/// Stand-in for the published typed expression.
#[derive(Clone, Debug)]
pub struct Expr<T> {
    deps: ExprDeps,
    result: PhantomData<fn() -> T>,
}

impl<T: 'static> Expr<T> {
    /// An expression that reads the given resources.
    #[must_use]
    pub fn reading(resources: Vec<u32>) -> Self {
        Self {
            deps: ExprDeps { resources },
            result: PhantomData,
        }
    }

    /// The same expression with its result type forgotten.
    #[must_use]
    pub fn into_erased(self) -> ErasedExpr {
        ErasedExpr {
            type_id: TypeId::of::<T>(),
            deps: self.deps,
        }
    }
}

/// Stand-in for the published defaults for expressions, which document 01
/// leaves behind: there are none.
#[derive(Clone, Debug, Default)]
pub struct ExpressionDefaults;

impl ExpressionDefaults {
    /// Properties whose default reads a resource: none.
    #[must_use]
    pub fn resource_dependent_properties(&self) -> Vec<PropertyId> {
        Vec::new()
    }
}
