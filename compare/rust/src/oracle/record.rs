//! A diagnostic as document 01's record, every word read off the diagnostic itself.
use super::table::Table;
use super::*;
use crate::ast;
use crate::parser::{unspan, SourceSpan};
use crate::Name;

fn op_number(op: ast::OperationType) -> usize {
    match op {
        ast::OperationType::Query => 0,
        ast::OperationType::Mutation => 1,
        ast::OperationType::Subscription => 2,
    }
}

/// The section row of a location that must carry `tag`.
pub fn row(loc: Option<SourceSpan>, tag: u8) -> usize {
    let (t, r) = unspan(loc.expect("location"));
    assert_eq!(t, tag, "location tag");
    r
}

/// One diagnostic as document 01's record; `None` if it has none there.
pub fn record(t: &Table, loc: Option<SourceSpan>, d: &D) -> Option<[Option<usize>; 5]> {
    let num = |n: &Name| Some(t.numbers[n.as_str()]);
    let at = loc.map(unspan);
    // document 01's place of a field row: an input field or a field
    let fplace = |r: usize| if t.types[t.field_ty[r]].kind == 5 { 4 } else { 2 };
    let r = |code: usize, ty: Option<usize>, a: Option<usize>, b: Option<usize>, c: Option<usize>| {
        Some([Some(code), ty, a, b, c])
    };
    match d {
        D::QueryRootOperationType => r(1, None, None, None, None),
        D::RootOperationObjectType { name, .. } => r(2, None, Some(row(loc, ROOT)), num(name), None),
        D::UndefinedDefinition { name } => match at? {
            (ROOT, x) => r(3, None, num(name), Some(0), Some(x)),
            (EDGE, x) => r(3, Some(t.edge_ty[x]), num(name), Some(1), Some(x)),
            (FIELD_TYPE, x) => r(3, Some(t.field_ty[x]), num(name), Some(fplace(x)), Some(x)),
            (ARG_TYPE, x) => r(3, Some(t.arg_ty[x]), num(name), Some(3), Some(x)),
            (MEMBER, x) => r(3, Some(t.member_ty[x]), num(name), Some(5), Some(x)),
            _ => None,
        },
        D::DuplicateRootOperationType {
            name,
            original_operation,
            original_definition,
            redefined_operation,
            redefined_definition,
        } => {
            assert_eq!(row(*original_definition, ROOT), op_number(*original_operation));
            assert_eq!(row(*redefined_definition, ROOT), op_number(*redefined_operation));
            r(4, None, Some(op_number(*redefined_operation)), num(name), Some(op_number(*original_operation)))
        }
        D::ReservedName { name, .. } => match at? {
            (FIELD_NAME, x) => r(5, Some(t.field_ty[x]), num(name), Some(fplace(x)), Some(x)),
            (ARG_NAME, x) => r(5, Some(t.arg_ty[x]), num(name), Some(3), Some(x)),
            (VALUE_NAME, x) => r(5, Some(t.value_ty[x]), num(name), Some(6), Some(x)),
            (TYPE_NAME, x) => r(5, Some(x), num(name), Some(7), Some(x)),
            _ => None,
        },
        D::RecursiveInterfaceDefinition { .. } => {
            let e = row(loc, EDGE);
            r(6, Some(t.edge_ty[e]), Some(e), None, None)
        }
        D::EmptyFieldSet { .. } => r(7, Some(row(loc, TYPE)), None, None, None),
        D::TransitiveImplementedInterfaces { via_interface, transitive_interface_location, .. } => r(
            8,
            Some(row(loc, TYPE)),
            Some(row(via_interface.location(), EDGE)),
            Some(row(*transitive_interface_location, EDGE)),
            None,
        ),
        D::MissingInterfaceField { implements_location, field_location, .. } => r(
            9,
            Some(row(loc, TYPE)),
            Some(row(*implements_location, EDGE)),
            Some(row(*field_location, FIELD)),
            None,
        ),
        D::InvalidImplementationFieldType { interface, field_location, interface_field_location, .. } => {
            let own = row(*field_location, FIELD);
            r(
                10,
                Some(t.field_ty[own]),
                Some(row(interface.location(), EDGE)),
                Some(row(*interface_field_location, FIELD)),
                Some(own),
            )
        }
        D::MissingInterfaceFieldArgument { interface, field_location, interface_argument_location, .. } => {
            let own = row(*field_location, FIELD);
            r(
                11,
                Some(t.field_ty[own]),
                Some(row(interface.location(), EDGE)),
                Some(own),
                Some(row(*interface_argument_location, ARG)),
            )
        }
        D::InvalidImplementationFieldArgumentType {
            interface,
            argument_location,
            interface_argument_location,
            ..
        } => {
            let own = row(*argument_location, ARG);
            r(
                12,
                Some(t.arg_ty[own]),
                Some(row(interface.location(), EDGE)),
                Some(row(*interface_argument_location, ARG)),
                Some(own),
            )
        }
        D::ExtraRequiredImplementationFieldArgument {
            interface,
            argument_location,
            interface_field_location,
            ..
        } => {
            let own = row(*argument_location, ARG);
            r(
                13,
                Some(t.arg_ty[own]),
                Some(row(interface.location(), EDGE)),
                Some(row(*interface_field_location, FIELD)),
                Some(own),
            )
        }
        D::UnionMemberObjectType { .. } => {
            let m = row(loc, MEMBER);
            r(14, Some(t.member_ty[m]), Some(m), None, None)
        }
        D::EmptyMemberSet { .. } => r(15, Some(row(loc, TYPE)), None, None, None),
        D::EmptyValueSet { .. } => r(16, Some(row(loc, TYPE)), None, None, None),
        D::RecursiveInputObjectDefinition { trace, .. } => {
            r(17, Some(row(loc, TYPE)), Some(trace.len()), None, None)
        }
        D::InputType { .. } => match at? {
            (ARG, x) => r(18, Some(t.arg_ty[x]), Some(3), Some(x), None),
            (FIELD, x) => r(18, Some(t.field_ty[x]), Some(fplace(x)), Some(x), None),
            _ => None,
        },
        D::OutputType { .. } => {
            let f = row(loc, FIELD);
            r(19, Some(t.field_ty[f]), Some(f), None, None)
        }
        D::UniqueInputValue { original_definition, redefined_definition, .. } => {
            let again = row(*redefined_definition, ARG);
            r(20, Some(t.arg_ty[again]), Some(row(*original_definition, ARG)), Some(again), None)
        }
        D::EmptyInputValueSet { .. } => r(21, Some(row(loc, TYPE)), None, None, None),
        _ => None,
    }
}
