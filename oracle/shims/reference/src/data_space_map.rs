//! Stands in for data_space_map.rs: no container here is rights-managed. Nothing that is compared asks.

pub(crate) fn rights_management_in<F>(_container: &mut cfb::CompoundFile<F>) -> Option<()> {
    None
}
