//! Stand-ins for what the original takes from other crates, as far as the compiled part uses it.

/// `solana_sdk::pubkey!`: base58 in a constant.
#[macro_export]
macro_rules! pubkey {
    ($text:expr) => {
        $crate::pubkey::Pubkey::from_str_const($text)
    };
}

/// `solana_sdk::pubkey`.
pub mod pubkey {
    use mbelaguy::base58;
    use std::fmt;
    use std::str::FromStr;

    #[derive(Clone, Copy, Debug, Default, PartialEq, Eq, Hash)]
    pub struct Pubkey(pub [u8; 32]);

    #[derive(Debug)]
    pub struct ParsePubkeyError;

    impl Pubkey {
        pub const fn from_str_const(text: &str) -> Self {
            match base58::decode(text) {
                Some(key) => Pubkey(key),
                None => panic!("not base58 of 32 bytes"),
            }
        }
    }

    impl FromStr for Pubkey {
        type Err = ParsePubkeyError;

        fn from_str(text: &str) -> Result<Self, ParsePubkeyError> {
            base58::decode(text).map(Pubkey).ok_or(ParsePubkeyError)
        }
    }

    impl fmt::Display for Pubkey {
        fn fmt(&self, f: &mut fmt::Formatter<'_>) -> fmt::Result {
            f.write_str(&base58::encode(&self.0))
        }
    }
}

/// `solana_sdk::signature`: named by a type of the original that is not filled here.
pub mod signature {
    #[derive(Clone, Debug)]
    pub struct Signature;
}

/// `yellowstone_grpc_proto::prelude`: the fields that the original reads.
pub mod prelude {
    #[derive(Clone, Debug, Default)]
    pub struct Transaction {
        pub message: Option<Message>,
    }

    #[derive(Clone, Debug, Default)]
    pub struct Message {
        pub account_keys: Vec<Vec<u8>>,
        pub instructions: Vec<CompiledInstruction>,
    }

    #[derive(Clone, Debug, Default)]
    pub struct CompiledInstruction {
        pub program_id_index: u32,
        pub accounts: Vec<u8>,
        pub data: Vec<u8>,
    }

    #[derive(Clone, Debug, Default)]
    pub struct TransactionStatusMeta {
        pub inner_instructions: Vec<InnerInstructions>,
        pub pre_token_balances: Vec<TokenBalance>,
        pub post_token_balances: Vec<TokenBalance>,
        pub loaded_writable_addresses: Vec<Vec<u8>>,
        pub loaded_readonly_addresses: Vec<Vec<u8>>,
    }

    #[derive(Clone, Debug, Default)]
    pub struct InnerInstructions {
        pub index: u32,
        pub instructions: Vec<InnerInstruction>,
    }

    #[derive(Clone, Debug, Default)]
    pub struct InnerInstruction {
        pub program_id_index: u32,
        pub accounts: Vec<u8>,
        pub data: Vec<u8>,
        pub stack_height: Option<u32>,
    }

    #[derive(Clone, Debug, Default)]
    pub struct TokenBalance {
        pub account_index: u32,
        pub mint: String,
    }
}

/// `crate::logs`, whose text is not at hand: 32 bytes from an offset, where there are as many. What a
/// source of another length gives is the host's word, so that only 32 bytes and more are ever asked.
pub mod logs {
    pub mod utils {
        use crate::pubkey::Pubkey;

        pub fn read_pubkey(data: &[u8], offset: usize) -> Option<Pubkey> {
            data.get(offset..)?.first_chunk().copied().map(Pubkey)
        }
    }
}

/// Imported by the original for the RPC reader, which is not part of its text.
pub struct EncodedConfirmedTransactionWithStatusMeta;

/// As above.
pub struct ParseError;

/// As above.
pub fn convert_rpc_to_grpc() {}
