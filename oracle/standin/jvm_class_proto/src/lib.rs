//! Stand-in for `jvm_class_proto`: what a built class is made from.

use std::marker::PhantomData;

use jvm::{JavaValue, Jvm, Result};
use jvm_types::{ClassAccessFlags, FieldAccessFlags, MethodAccessFlags};

pub struct JavaClassProto<C: ?Sized> {
    pub name: &'static str,
    pub parent_class: Option<&'static str>,
    pub interfaces: Vec<&'static str>,
    pub methods: Vec<JavaMethodProto<C>>,
    pub fields: Vec<JavaFieldProto>,
    pub access_flags: ClassAccessFlags,
}

pub struct JavaMethodProto<C: ?Sized> {
    pub name: String,
    pub descriptor: String,
    pub access_flags: MethodAccessFlags,
    pub body: NoBody<C>,
}

pub struct JavaFieldProto {
    pub name: String,
    pub descriptor: String,
    pub access_flags: FieldAccessFlags,
}

/// A method body that is never called.
pub struct NoBody<C: ?Sized>(PhantomData<fn(&mut C)>);

impl<C: ?Sized> Default for NoBody<C> {
    fn default() -> Self {
        Self(PhantomData)
    }
}

impl<C: ?Sized> NoBody<C> {
    pub async fn call(&self, _: &Jvm, _: &mut C, _: Box<[JavaValue]>) -> Result<JavaValue> {
        unreachable!("no Java code runs in the oracle")
    }
}
