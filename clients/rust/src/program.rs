/// What [`Tenant::prog_load`](crate::Tenant::prog_load) takes: the bytes of a program, or its slots of eight bytes each.
pub trait AsProgram {
    /// The bytes of its slots, one after another.
    fn as_program(&self) -> &[u8];
}

impl AsProgram for [u8] {
    fn as_program(&self) -> &[u8] {
        self
    }
}

impl AsProgram for [[u8; 8]] {
    fn as_program(&self) -> &[u8] {
        self.as_flattened()
    }
}

impl<const N: usize> AsProgram for [u8; N] {
    fn as_program(&self) -> &[u8] {
        self
    }
}

impl<const N: usize> AsProgram for [[u8; 8]; N] {
    fn as_program(&self) -> &[u8] {
        self.as_flattened()
    }
}

impl AsProgram for Vec<u8> {
    fn as_program(&self) -> &[u8] {
        self
    }
}

impl AsProgram for Vec<[u8; 8]> {
    fn as_program(&self) -> &[u8] {
        self.as_flattened()
    }
}

impl<T: AsProgram + ?Sized> AsProgram for &T {
    fn as_program(&self) -> &[u8] {
        (*self).as_program()
    }
}
