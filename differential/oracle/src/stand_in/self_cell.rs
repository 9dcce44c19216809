//! A stand-in of our own for the macro that binds an owner and what borrows
//! from it into one value.

#[macro_export]
macro_rules! self_cell {
    (
        $vis:vis struct $Cell:ident {
            owner: $Owner:ty,

            #[covariant]
            dependent: $Dependent:ident,
        }
    ) => {
        $vis struct $Cell {
            // Before the owner, so that it is dropped first.
            dependent: $Dependent<'static>,
            owner: std::sync::Arc<$Owner>,
        }

        impl $Cell {
            $vis fn new(
                owner: $Owner,
                build: impl for<'a> FnOnce(&'a $Owner) -> $Dependent<'a>,
            ) -> Self {
                let owner = std::sync::Arc::new(owner);
                // SAFETY: the owner lies behind the counted pointer, is never
                // changed, and outlives the part that borrows it.
                let lent: &'static $Owner = unsafe { &*std::sync::Arc::as_ptr(&owner) };
                Self { dependent: build(lent), owner }
            }

            $vis fn with_dependent_mut<R>(
                &mut self,
                act: impl FnOnce(&$Owner, &mut $Dependent<'static>) -> R,
            ) -> R {
                act(&self.owner, &mut self.dependent)
            }
        }
    };
}
