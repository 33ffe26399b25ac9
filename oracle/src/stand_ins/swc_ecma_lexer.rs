//! Which characters make an identifier. Names on a page are ASCII, so only ASCII is asked.

pub mod common {
    pub mod lexer {
        pub mod char {
            // swc's own signatures take the character itself.
            #[allow(clippy::wrong_self_convention)]
            pub trait CharExt {
                fn is_ident_start(self) -> bool;
                fn is_ident_part(self) -> bool;
            }

            impl CharExt for char {
                fn is_ident_start(self) -> bool {
                    self.is_ascii_alphabetic() || self == '_' || self == '$'
                }
                fn is_ident_part(self) -> bool {
                    self.is_ident_start() || self.is_ascii_digit()
                }
            }
        }
    }
}
