//! In the place of p3-maybe-rayon: serial iterators under the names of the parallel ones.
//! `find_any` and `find_map_any` therefore answer the first item in order.
#![no_std]

pub const PARALLEL_ENABLED: bool = false;

pub mod prelude {
    pub struct Serial<I>(I);

    pub trait IntoParallelIterator {
        type Iter: Iterator;
        fn into_par_iter(self) -> Serial<Self::Iter>;
    }

    impl<I: IntoIterator> IntoParallelIterator for I {
        type Iter = I::IntoIter;
        fn into_par_iter(self) -> Serial<I::IntoIter> {
            Serial(self.into_iter())
        }
    }

    impl<I: Iterator> Serial<I> {
        pub fn map<R, M: FnMut(I::Item) -> R>(self, m: M) -> Serial<impl Iterator<Item = R>> {
            Serial(self.0.map(m))
        }

        pub fn map_init<T, R>(
            self,
            init: impl Fn() -> T,
            m: impl Fn(&mut T, I::Item) -> R,
        ) -> Serial<impl Iterator<Item = R>> {
            let mut held = init();
            Serial(self.0.map(move |item| m(&mut held, item)))
        }

        pub fn find_any(mut self, p: impl Fn(&I::Item) -> bool) -> Option<I::Item> {
            self.0.find(|item| p(item))
        }

        pub fn find_map_any<R>(mut self, m: impl Fn(I::Item) -> Option<R>) -> Option<R> {
            self.0.find_map(m)
        }
    }
}
