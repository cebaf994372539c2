//! Stand-in for the gzip reader's name. Event lines are never compressed, so it refuses to read.

pub mod read {
    use std::io;

    pub struct MultiGzDecoder<R>(pub R);

    impl<R: io::Read> MultiGzDecoder<R> {
        pub fn new(inner: R) -> Self {
            Self(inner)
        }
    }

    impl<R: io::Read> io::Read for MultiGzDecoder<R> {
        fn read(&mut self, _buf: &mut [u8]) -> io::Result<usize> {
            Err(io::Error::other("compressed input is no part of the judge"))
        }
    }
}
