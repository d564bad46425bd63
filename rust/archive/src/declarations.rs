//! The functions that include/luad51.h declares.

#[link(name = "luad51", kind = "static")]
extern "C" {
    pub fn luad51_roles(
        table: *const u8,
        table_len: usize,
        words: *const u8,
        words_len: usize,
        roles: *mut u8,
        roles_len: usize,
    ) -> u64;

    pub fn luad51_bindings(
        table: *const u8,
        table_len: usize,
        words: *const u8,
        words_len: usize,
        roles: *mut u8,
        roles_len: usize,
        bindings: *mut u8,
        bindings_len: usize,
    ) -> u64;

    pub fn luad51_check(
        table: *const u8,
        table_len: usize,
        words: *const u8,
        words_len: usize,
        warnings: u32,
        errors: u32,
        roles: *mut u8,
        roles_len: usize,
        diagnostics: *mut u8,
        diagnostics_len: usize,
    ) -> u64;
}
