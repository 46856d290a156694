//! Tokens that count.

/// Tokens that count: they take no bytes, and do nothing.
pub mod ledger {
    use std::marker::PhantomData;

    pub trait Ledger {}

    impl Ledger for crate::rattle_std::marker::Brand {}

    pub struct Blank(());

    pub struct Book<L: Ledger>(PhantomData<L>);

    pub struct Share<L: Ledger>(PhantomData<L>);

    impl Blank {
        #[inline]
        pub fn new(_: u64) -> Blank {
            Blank(())
        }

        #[inline]
        pub fn open<L: Ledger>(self) -> (Book<L>, Share<L>) {
            (Book(PhantomData), Share(PhantomData))
        }
    }

    impl<L: Ledger> Book<L> {
        #[inline]
        pub fn add(&mut self, _: &mut Share<L>, _: u64) {}
    }
}
