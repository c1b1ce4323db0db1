//! BoundNames of ECMA-262.

use crate::tree::*;

/// What binds names.
pub trait BoundNames {
    /// Appends the names that are bound, in the order of the source.
    fn bound_names<'a>(&'a self, names: &mut Vec<&'a Ident>);
}

impl BoundNames for Pat {
    fn bound_names<'a>(&'a self, names: &mut Vec<&'a Ident>) {
        match self {
            Pat::Ident(ident) => names.push(&ident.id),
            Pat::Array(array) => array.elems.iter().flatten().for_each(|elem| elem.bound_names(names)),
            Pat::Rest(rest) => rest.arg.bound_names(names),
            Pat::Object(object) => object.props.iter().for_each(|prop| prop.bound_names(names)),
            Pat::Assign(assign) => assign.left.bound_names(names),
            Pat::Expr(_) => {}
        }
    }
}

impl BoundNames for ObjectPatProp {
    fn bound_names<'a>(&'a self, names: &mut Vec<&'a Ident>) {
        match self {
            ObjectPatProp::KeyValue(prop) => prop.value.bound_names(names),
            ObjectPatProp::Assign(prop) => names.push(&prop.key.id),
            ObjectPatProp::Rest(rest) => rest.arg.bound_names(names),
        }
    }
}

/// BoundNames, each in the form asked for.
pub fn find_pat_ids<'a, T: BoundNames, I: From<&'a Ident>>(pattern: &'a T) -> Vec<I> {
    let mut names = Vec::new();
    pattern.bound_names(&mut names);
    names.into_iter().map(I::from).collect()
}

impl From<&Ident> for crate::atoms::Atom {
    fn from(ident: &Ident) -> Self {
        ident.sym.clone()
    }
}
