//! Stand-in for `jvm`: a registry of classes by name. No Java code runs.

use std::any::Any;
use std::borrow::Cow;
use std::cell::RefCell;
use std::collections::HashMap;
use std::fmt::Debug;
use std::rc::Rc;

use jvm_types::{ClassAccessFlags, FieldAccessFlags, MethodAccessFlags};

pub type Result<T> = core::result::Result<T, JavaError>;

#[derive(Debug)]
pub enum JavaError {
    JavaException(Box<dyn ClassInstance>),
}

#[derive(Clone, Debug)]
pub enum JavaType {
    Double,
    Long,
    Class(String),
    Method,
}

impl JavaType {
    /// Descriptors are not judged by the original files; nothing is parsed.
    pub fn parse(_: &str) -> Self {
        Self::Method
    }

    pub fn as_method(&self) -> (&[JavaType], &JavaType) {
        (&[], self)
    }
}

#[derive(Clone, Debug)]
pub enum JavaValue {
    Long(i64),
    Double(f64),
}

pub trait AsAny: Any {
    fn as_any(&self) -> &dyn Any;
    fn as_any_mut(&mut self) -> &mut dyn Any;
}

impl<T: Any> AsAny for T {
    fn as_any(&self) -> &dyn Any {
        self
    }

    fn as_any_mut(&mut self) -> &mut dyn Any {
        self
    }
}

pub trait ClassDefinition: AsAny + Debug {
    fn name(&self) -> Cow<'_, str>;
    fn super_class_name(&self) -> Option<String>;
    fn interface_names(&self) -> Vec<String>;
    fn access_flags(&self) -> ClassAccessFlags;
    fn instantiate(&self, jvm: &Jvm) -> Result<Box<dyn ClassInstance>>;
    fn prepare(&self, jvm: &Jvm) -> Result<()>;
    fn method(&self, name: &str, descriptor: &str, is_static: bool) -> Option<Box<dyn Method>>;
    fn field(&self, name: &str, descriptor: &str, is_static: bool) -> Option<Box<dyn Field>>;
    fn fields(&self) -> Vec<Box<dyn Field>>;
    fn get_static_field(&self, field: &dyn Field) -> Result<JavaValue>;
    fn put_static_field(&mut self, field: &dyn Field, value: JavaValue) -> Result<()>;
}

pub trait ClassInstance: AsAny + Debug {
    fn destroy(self: Box<Self>);
    fn identity(&self) -> usize;
    fn shallow_clone(&self) -> Result<Box<dyn ClassInstance>>;
    fn class_definition(&self) -> Box<dyn ClassDefinition>;
    fn equals(&self, other: &dyn ClassInstance) -> Result<bool>;
    fn get_field(&self, field: &dyn Field) -> Result<JavaValue>;
    fn put_field(&mut self, field: &dyn Field, value: JavaValue) -> Result<()>;
}

pub trait Field: AsAny + Debug {
    fn name(&self) -> Cow<'_, str>;
    fn descriptor(&self) -> Cow<'_, str>;
    fn access_flags(&self) -> FieldAccessFlags;
}

pub trait Method: AsAny + Debug {
    fn name(&self) -> Cow<'_, str>;
    fn descriptor(&self) -> Cow<'_, str>;
    fn run(&self, jvm: &Jvm, arguments: Box<[JavaValue]>) -> Result<JavaValue>;
    fn access_flags(&self) -> MethodAccessFlags;
}

#[derive(Clone)]
pub struct Class {
    pub definition: Rc<dyn ClassDefinition>,
}

impl Class {
    pub fn java_class(&self) -> Box<dyn ClassInstance> {
        no_objects()
    }
}

/// The registry; clones share it.
#[derive(Clone, Default)]
pub struct Jvm {
    classes: Rc<RefCell<HashMap<String, Class>>>,
}

impl Jvm {
    pub fn clear(&self) {
        self.classes.borrow_mut().clear();
    }

    pub fn register(&self, definition: impl ClassDefinition) {
        let name = definition.name().into_owned();
        let definition = Rc::new(definition);
        self.classes.borrow_mut().insert(name, Class { definition });
    }

    pub fn get_class(&self, name: &str) -> Option<Class> {
        self.classes.borrow().get(name).cloned()
    }

    pub async fn resolve_class(&self, name: &str) -> Result<Class> {
        Ok(self.get_class(name).expect("the harness registers every class of the chain"))
    }

    pub async fn exception(&self, _: &str, _: &str) -> JavaError {
        no_objects()
    }

    pub async fn ensure_initialized(&self, _: &Class) -> Result<()> {
        no_objects()
    }

    pub async fn put_field<T>(&self, _: &mut Box<dyn ClassInstance>, _: &str, _: &str, _: &str, _: T) -> Result<()> {
        no_objects()
    }
}

fn no_objects() -> ! {
    unreachable!("no Java object exists in the oracle")
}
