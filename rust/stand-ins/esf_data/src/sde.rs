//! The tables behind `Info`, as far as the fitting rules read them.

/// The names of the generated flatbuffer code.
pub mod eve {
    use std::marker::PhantomData;

    /// A type: its group, its category and, where the data gives one, its volume.
    #[derive(Clone, Copy, Debug)]
    pub struct Type<'a> {
        group_id: i32,
        category_id: i32,
        volume: Option<f32>,
        table: PhantomData<&'a ()>,
    }

    impl Type<'_> {
        pub fn new(group_id: i32, category_id: i32, volume: Option<f32>) -> Self {
            Type {
                group_id,
                category_id,
                volume,
                table: PhantomData,
            }
        }

        pub fn group_id(&self) -> i32 {
            self.group_id
        }

        pub fn category_id(&self) -> i32 {
            self.category_id
        }

        pub fn volume(&self) -> Option<f32> {
            self.volume
        }
    }

    /// What an attribute starts at on a type.
    #[derive(Clone, Copy, Debug)]
    pub struct TypeDogmaAttribute {
        attribute_id: i32,
        value: f32,
    }

    impl TypeDogmaAttribute {
        pub fn new(attribute_id: i32, value: f32) -> Self {
            TypeDogmaAttribute {
                attribute_id,
                value,
            }
        }

        pub fn attribute_id(&self) -> i32 {
            self.attribute_id
        }

        pub fn value(&self) -> f32 {
            self.value
        }
    }

    /// An effect that a type has.
    #[derive(Clone, Copy, Debug)]
    pub struct TypeDogmaEffect {
        effect_id: i32,
    }

    impl TypeDogmaEffect {
        pub fn new(effect_id: i32) -> Self {
            TypeDogmaEffect { effect_id }
        }

        pub fn effect_id(&self) -> i32 {
            self.effect_id
        }
    }

    /// An effect, of which the fitting rules read the name alone.
    #[derive(Clone, Copy, Debug)]
    pub struct DogmaEffect<'a> {
        name: &'a str,
    }

    impl<'a> DogmaEffect<'a> {
        pub fn new(name: &'a str) -> Self {
            DogmaEffect { name }
        }

        pub fn name(&self) -> &'a str {
            self.name
        }
    }

    /// An attribute; the fitting rules never ask for one.
    pub struct DogmaAttribute<'a>(PhantomData<&'a ()>);

    /// A buff; the fitting rules never ask for one.
    pub struct DbuffCollection<'a>(PhantomData<&'a ()>);

    /// A mutaplasmid; the fitting rules never ask for one.
    pub struct Mutaplasmid<'a>(PhantomData<&'a ()>);
}
