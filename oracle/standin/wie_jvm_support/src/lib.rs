//! Stand-in for `wie_jvm_support`: values are not converted, argument words not counted.

pub mod native {
    use jvm::{ClassInstance, JavaType, JavaValue};

    pub trait NativeJavaValueCodec {
        fn object_from_raw(&self, raw: u32) -> Box<dyn ClassInstance>;

        fn object_to_raw(&self, object: &dyn ClassInstance) -> u32;

        fn decode_word(&self, _: u32, _: &JavaType) -> JavaValue {
            no_values()
        }

        fn decode_wide(&self, _: u32, _: u32, _: &JavaType) -> JavaValue {
            no_values()
        }

        fn encode_word(&self, _: &JavaValue) -> u32 {
            no_values()
        }

        fn encode_wide(&self, _: &JavaValue) -> (u32, u32) {
            no_values()
        }
    }

    pub fn method_argument_word_count(_: &[JavaType]) -> usize {
        0
    }

    pub fn decode_method_arguments(_: &dyn NativeJavaValueCodec, _: &[JavaType], _: &[u32]) -> Vec<JavaValue> {
        no_values()
    }

    pub fn encode_method_arguments(_: &dyn NativeJavaValueCodec, _: &[JavaValue]) -> Vec<u32> {
        no_values()
    }

    fn no_values() -> ! {
        unreachable!("no Java value exists in the oracle")
    }
}
