//! The two calls of base64 0.22 that the source makes, over base64ct, which looks nothing up in a table: the letters of
//! a derived key are secret. Both reject padding and bits after the last byte.

pub mod general_purpose {
    use base64ct::{Base64Unpadded, Encoding};

    pub struct Engine;

    pub const STANDARD_NO_PAD: Engine = Engine;

    #[derive(Debug)]
    pub struct Refused;

    impl Engine {
        /// Writes the letters of these bytes, and returns their number.
        pub fn encode_slice(&self, bytes: &[u8], out: &mut [u8]) -> Result<usize, Refused> {
            Base64Unpadded::encode(bytes, out)
                .map(str::len)
                .map_err(|_| Refused)
        }

        /// Writes the bytes of these letters, and returns their number.
        pub fn decode_slice_unchecked(
            &self,
            letters: &[u8],
            out: &mut [u8],
        ) -> Result<usize, Refused> {
            Base64Unpadded::decode(letters, out)
                .map(<[u8]>::len)
                .map_err(|_| Refused)
        }
    }
}
