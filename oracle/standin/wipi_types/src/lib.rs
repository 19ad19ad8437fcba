//! Stand-in for `wipi_types`: the raw records, as plain structs. Their true layouts are
//! unknown here; the original files reach every part by its name.

pub mod lgt {
    pub mod java {
        use wie_util::PlainBytes;

        pub const LGT_JAVA_CLASS_SUPER_CLASS_IS_NAME: u32 = 1;

        macro_rules! raw_records {
            ($($(#[$attribute:meta])* pub struct $name:ident { $(pub $part:ident: $type:ty,)* })*) => {
                $(
                    $(#[$attribute])*
                    #[derive(Clone, Copy, Debug)]
                    #[repr(C)]
                    pub struct $name { $(pub $part: $type,)* }

                    const _: () = assert!(size_of::<$name>() == 0 $(+ size_of::<$type>())*);

                    // SAFETY: integers alone, and the line above rules out padding.
                    unsafe impl PlainBytes for $name {}
                )*
            };
        }

        raw_records! {
            pub struct LgtJavaClass {
                pub unk1: u32,
                pub unk2: u32,
                pub ptr_descriptor: u32,
            }

            pub struct LgtJavaClassDescriptor {
                pub access_flags: u32,
                pub ptr_next_class: u32,
                pub ptr_name: u32,
                pub ptr_vtable: u32,
                pub ptr_super_class: u32,
                pub ptr_interface_references: u32,
                pub instance_field_word_count: u16,
                pub link_state: u16,
                pub unk7: u32,
                pub ptr_instance_reference_bitmap: u32,
                pub flags: u32,
                pub unk10: u16,
                pub vtable_count: u16,
                pub ptr_interface_names: u32,
                pub fn_link_members: u32,
                pub fn_get_initialized_class: u32,
                pub fn_get_class: u32,
                pub ptr_methods: u32,
                pub ptr_fields: u32,
                pub ptr_class_fields: u32,
                pub unk14: u32,
                pub static_field_word_count: u32,
            }

            pub struct LgtJavaClassField {
                pub ptr_class: u32,
                pub ptr_name: u32,
                pub ptr_descriptor: u32,
                pub flags: u16,
                pub unk2: u16,
                pub word_index: u32,
            }

            pub struct LgtJavaClassFieldStorage {
                pub prefix: [u32; 5],
            }

            pub struct LgtJavaClassInstance {
                pub ptr_dispatch_table: u32,
                pub unk1: u32,
                pub ptr_fields: u32,
            }

            pub struct LgtJavaClassMethod {
                pub ptr_class: u32,
                pub ptr_name: u32,
                pub ptr_descriptor: u32,
                pub access_flags: u16,
                pub argument_word_count: u16,
                pub unk3: u32,
                pub ptr_method: u32,
                pub unk4: u32,
            }

            pub struct LgtJavaInterfaceReference {
                pub ptr_class_or_name: u32,
            }

            pub struct LgtJavaInterfaceReferences {
                pub count: u32,
            }
        }
    }
}
