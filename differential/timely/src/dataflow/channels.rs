//! How a stream is shared out among workers. There is one, so that nothing is asked.

pub mod pact {
    use std::marker::PhantomData;

    pub trait ParallelizationContract<C> {}

    pub struct Pipeline;
    impl<C> ParallelizationContract<C> for Pipeline {}

    pub struct Exchange<D, F> {
        _route: F,
        data: PhantomData<D>,
    }
    impl<D, F: FnMut(&D) -> u64> Exchange<D, F> {
        pub fn new(route: F) -> Self {
            Exchange { _route: route, data: PhantomData }
        }
    }
    impl<D, F: FnMut(&D) -> u64> ParallelizationContract<Vec<D>> for Exchange<D, F> {}
}
