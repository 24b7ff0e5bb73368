//! A table as the `Schema` that the Rust validates. Every name and node gets a location that holds its section row, so
//! that a record can be read off a diagnostic.
use super::table::{Arg, Fd, Table, Ty};
use super::*;
use crate::ast;
use crate::ast::Type;
use crate::collections::{IndexMap, IndexSet};
use crate::parser::{built_in_span, span, SourceSpan};
use crate::schema::*;
use crate::Name;

/// Hands out section rows, and places in the order in which the parts of a schema are written.
struct Maker<'a> {
    table: &'a Table,
    extended_field: Option<usize>,
    place: u32,
    edges: usize,
    fields: usize,
    args: usize,
    members: usize,
    values: usize,
}

/// The row, and then one more than it for the next.
fn next(row: &mut usize) -> usize {
    *row += 1;
    *row - 1
}

pub fn schema(t: &Table, directives: bool, extended_field: Option<usize>) -> Schema {
    let mut m = Maker { table: t, extended_field, place: 0, edges: 0, fields: 0, args: 0, members: 0, values: 0 };
    let [query, mutation, subscription] = [0, 1, 2].map(|op| m.root(op));
    let definition = SchemaDefinition { description: None, directives: DirectiveList::new(), query, mutation, subscription };
    let mut schema = Schema {
        sources: Default::default(),
        schema_definition: Node::new(definition),
        directive_definitions: Default::default(),
        types: Default::default(),
    };
    if directives {
        for d in built_in_directives() {
            schema.directive_definitions.insert(d.name.clone(), d);
        }
    }
    for (row, ty) in t.types.iter().enumerate() {
        let (name, def) = m.definition(row, ty);
        assert!(schema.types.insert(name, def).is_none(), "type twice");
    }
    schema
}

/// Wrap word of document 01 to `ast::Type`: layer 0 outermost, layer k the name.
fn unwrap(name: Name, wrap: u32) -> Type {
    let (k, bits) = (wrap & 15, wrap >> 4);
    assert!(bits < 1 << (k + 1), "malformed wrap");
    let mut ty = if bits >> k & 1 == 1 { Type::NonNullNamed(name) } else { Type::Named(name) };
    for i in (0..k).rev() {
        ty = if bits >> i & 1 == 1 { Type::NonNullList(Box::new(ty)) } else { Type::List(Box::new(ty)) };
    }
    ty
}

impl Maker<'_> {
    /// A location behind all that were handed out.
    fn further(&mut self, built_in: bool, tag: u8, row: usize) -> Option<SourceSpan> {
        self.place += 1;
        self.here(built_in, tag, row)
    }

    /// A location that starts where the last one did: a field starts with its name.
    fn here(&self, built_in: bool, tag: u8, row: usize) -> Option<SourceSpan> {
        Some(span(built_in, self.place, tag, row))
    }

    fn name(&self, number: usize, location: Option<SourceSpan>) -> Name {
        Name::at(&self.table.names[number], location)
    }

    fn root(&mut self, op: usize) -> Option<ComponentName> {
        let number = self.table.roots[op]?;
        let location = self.further(false, ROOT, op);
        Some(self.name(number, location).into())
    }

    fn definition(&mut self, row: usize, ty: &Ty) -> (Name, ExtendedType) {
        let b = ty.built_in;
        let loc = self.further(b, TYPE, row);
        let name_loc = self.further(b, TYPE_NAME, row);
        let name = self.name(ty.name, name_loc);
        let (key, description, directives) = (name.clone(), None, DirectiveList::new());
        let def = match ty.kind {
            0 => ExtendedType::Scalar(Node::at(ScalarType { description, name, directives }, loc)),
            1 => {
                let (implements_interfaces, fields) = (self.edges(ty), self.output_fields(ty));
                let def = ObjectType { description, name, implements_interfaces, directives, fields };
                ExtendedType::Object(Node::at(def, loc))
            }
            2 => {
                let (implements_interfaces, fields) = (self.edges(ty), self.output_fields(ty));
                let def = InterfaceType { description, name, implements_interfaces, directives, fields };
                ExtendedType::Interface(Node::at(def, loc))
            }
            3 => {
                let members = self.members(ty);
                ExtendedType::Union(Node::at(UnionType { description, name, directives, members }, loc))
            }
            4 => {
                let values = self.values(ty);
                ExtendedType::Enum(Node::at(EnumType { description, name, directives, values }, loc))
            }
            5 => {
                let fields = self.input_fields(ty);
                ExtendedType::InputObject(Node::at(InputObjectType { description, name, directives, fields }, loc))
            }
            _ => panic!("kind"),
        };
        (key, def)
    }

    fn edges(&mut self, ty: &Ty) -> IndexSet<ComponentName> {
        let mut set = IndexSet::default();
        for &n in &ty.edges {
            let row = next(&mut self.edges);
            let loc = self.further(ty.built_in, EDGE, row);
            assert!(set.insert(self.name(n, loc).into()), "edge twice");
        }
        set
    }

    fn members(&mut self, ty: &Ty) -> IndexSet<ComponentName> {
        let mut set = IndexSet::default();
        for &n in &ty.members {
            let row = next(&mut self.members);
            let loc = self.further(ty.built_in, MEMBER, row);
            assert!(set.insert(self.name(n, loc).into()), "member twice");
        }
        set
    }

    fn values(&mut self, ty: &Ty) -> IndexMap<Name, Component<EnumValueDefinition>> {
        let mut map = IndexMap::default();
        for &n in &ty.values {
            let row = next(&mut self.values);
            let loc = self.further(ty.built_in, VALUE_NAME, row);
            let value = self.name(n, loc);
            let directives = ast::DirectiveList::new();
            let def = EnumValueDefinition { description: None, value: value.clone(), directives };
            let node = Node::at(def, self.here(ty.built_in, VALUE, row));
            assert!(map.insert(value, node.into()).is_none(), "value twice");
        }
        map
    }

    /// Whether a field's location is in the built-in file.
    fn field_built_in(&self, ty: &Ty, row: usize) -> bool {
        ty.built_in && self.extended_field != Some(row)
    }

    fn output_fields(&mut self, ty: &Ty) -> IndexMap<Name, Component<FieldDefinition>> {
        let mut map = IndexMap::default();
        for fd in &ty.fields {
            let row = next(&mut self.fields);
            let b = self.field_built_in(ty, row);
            let name_loc = self.further(b, FIELD_NAME, row);
            let loc = self.here(b, FIELD, row);
            let mut arguments = Vec::new();
            for &arg in &fd.args {
                let row = next(&mut self.args);
                arguments.push(self.input_value(b, [ARG_NAME, ARG, ARG_TYPE], row, arg));
            }
            let type_loc = self.further(b, FIELD_TYPE, row);
            let def = FieldDefinition {
                description: None,
                name: self.name(fd.name, name_loc),
                arguments,
                ty: unwrap(self.name(fd.ty, type_loc), fd.wrap),
                directives: ast::DirectiveList::new(),
            };
            let key = def.name.clone();
            assert!(map.insert(key, Node::at(def, loc).into()).is_none(), "field twice");
        }
        map
    }

    fn input_fields(&mut self, ty: &Ty) -> IndexMap<Name, Component<InputValueDefinition>> {
        let mut map = IndexMap::default();
        for fd in &ty.fields {
            assert!(fd.args.is_empty(), "arguments of an input field");
            let row = next(&mut self.fields);
            let b = self.field_built_in(ty, row);
            let value = Arg { name: fd.name, ty: fd.ty, wrap: fd.wrap, default: fd.default };
            let node = self.input_value(b, [FIELD_NAME, FIELD, FIELD_TYPE], row, value);
            assert!(map.insert(node.name.clone(), node.into()).is_none(), "field twice");
        }
        map
    }

    /// An argument or an input field; `tags` are those of its name, itself and its type.
    fn input_value(&mut self, b: bool, tags: [u8; 3], row: usize, value: Arg) -> Node<InputValueDefinition> {
        let name_loc = self.further(b, tags[0], row);
        let loc = self.here(b, tags[1], row);
        let type_loc = self.further(b, tags[2], row);
        let def = InputValueDefinition {
            description: None,
            name: self.name(value.name, name_loc),
            ty: Node::at(unwrap(self.name(value.ty, type_loc), value.wrap), type_loc),
            default_value: value.default.then(|| Node::new(Value::Boolean(true))),
            directives: ast::DirectiveList::new(),
        };
        Node::at(def, loc)
    }
}

/// The definitions of @skip, @include, @deprecated, @specifiedBy (Spec, October 2021).
fn built_in_directives() -> Vec<Node<DirectiveDefinition>> {
    let loc = Some(built_in_span());
    let named = |n: &str| Name::at(n, loc);
    let arg = |n: &str, ty: Type, default: bool| {
        let def = InputValueDefinition {
            description: None,
            name: named(n),
            ty: Node::at(ty, loc),
            default_value: default.then(|| Node::new(Value::Boolean(true))),
            directives: ast::DirectiveList::new(),
        };
        Node::at(def, loc)
    };
    let def = |n: &str, a: Node<InputValueDefinition>, locations: Vec<DirectiveLocation>| {
        let name = named(n);
        let def = DirectiveDefinition { description: None, name, arguments: vec![a], repeatable: false, locations };
        Node::at(def, loc)
    };
    use DirectiveLocation as L;
    let selections = || vec![L::Field, L::FragmentSpread, L::InlineFragment];
    let definitions = vec![L::FieldDefinition, L::ArgumentDefinition, L::InputFieldDefinition, L::EnumValue];
    vec![
        def("skip", arg("if", Type::NonNullNamed(named("Boolean")), false), selections()),
        def("include", arg("if", Type::NonNullNamed(named("Boolean")), false), selections()),
        def("deprecated", arg("reason", Type::Named(named("String")), true), definitions),
        def("specifiedBy", arg("url", Type::NonNullNamed(named("String")), false), vec![L::Scalar]),
    ]
}
