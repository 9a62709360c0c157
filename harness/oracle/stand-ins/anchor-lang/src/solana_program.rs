//! Calls to other programs: they always succeed.

pub mod instruction {
    use crate::Pubkey;

    pub struct AccountMeta {
        pub pubkey: Pubkey,
        pub is_signer: bool,
        pub is_writable: bool,
    }

    pub struct Instruction {
        pub program_id: Pubkey,
        pub accounts: Vec<AccountMeta>,
        pub data: Vec<u8>,
    }
}

pub mod program {
    use super::instruction::Instruction;
    use crate::error::ProgramError;
    use crate::AccountInfo;

    pub fn invoke(_i: &Instruction, _a: &[AccountInfo]) -> Result<(), ProgramError> {
        Ok(())
    }

    pub fn invoke_signed(_i: &Instruction, _a: &[AccountInfo], _s: &[&[&[u8]]]) -> Result<(), ProgramError> {
        Ok(())
    }
}
